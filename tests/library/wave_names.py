"""The header of a dump by the rules of docs/FORMATS.md ("Value change dump"), apart from the toolkit: the names of each
entry, the scopes that they are in, and the order in which the header declares them."""

import collections
import re

# The sections in their order: the scope of each, the letter of its symbols, and the type of its variables.
SECTIONS = (("inputs", "i", "wire"), ("latches", "l", "reg"), ("outputs", "o", "wire"), ("bad", "b", "wire"),
            ("constraints", "c", "wire"))

# A name in the header: the section's scope, the scopes inside it, the last piece, and the code of its entry.
Name = collections.namedtuple("Name", "section scopes last code")


def code(number):
    """The identifier code of the signal with this number: its digits in base 94, the least first."""
    number, digit = divmod(number, 94)
    text = bytes([33 + digit])
    while number:
        number, digit = divmod(number, 94)
        text += bytes([33 + digit])
    return text


def pieces(word):
    """The pieces of a word of a symbol: its scopes, and its last piece."""
    parts = re.sub(rb"[^!-9;-~]", b"_", word).split(b".")
    parts = [b"_" + part[1:] if part[:1] == b"$" else part for part in parts]
    return [b".".join(parts)] if b"" in parts else parts


def names_of(symbol, standard):
    """The names of an entry, each as its pieces; `standard` is the one name of an entry whose symbol has no word."""
    words = [word for word in (symbol or b"").split(b" ") if word]
    return [pieces(word) for word in words] or [[standard]]


def follows(before, after):
    """Whether a name is the next of a run: `X[n + 1]` after `X[n]`, where n has at most 19 digits."""
    found = re.fullmatch(rb"(.*\[)(0|[1-9][0-9]{0,18})\]", before.last)
    return bool(found) and (before.scopes, b"%s%d]" % (found[1], int(found[2]) + 1)) == (after.scopes, after.last)


def declared(section, column):
    """The names of a column in the order of the header: each longest run is turned round."""
    names, run = [], []
    for name in column:
        if run and not follows(run[-1], name):
            names += reversed(run)
            run = []
        run.append(name)
    return names + run[::-1]


def section_names(section, entries):
    """The names of a section in the order of the header; `entries` are codes with lists of names."""
    names = []
    for place in range(max(len(each) for _, each in entries)):
        column = [Name(section, tuple(each[place][:-1]), each[place][-1], sign)
                  for sign, each in entries if place < len(each)]
        names += declared(section, column)
    return names


def scope_lines(names, shape):
    """The lines of a section's names, with the scopes inside the section's."""
    lines, opened = [], ()
    for name in names:
        common = 0
        while common < min(len(opened), len(name.scopes)) and opened[common] == name.scopes[common]:
            common += 1
        lines += [b"$upscope $end"] * (len(opened) - common)
        lines += [b"$scope module %s $end" % scope for scope in name.scopes[common:]]
        lines.append(b"$var %s 1 %s %s $end" % (shape, name.code, name.last))
        opened = name.scopes
    return lines + [b"$upscope $end"] * len(opened)


def header(counts, symbols):
    """The names in the order of the header, and the header's bytes. `counts` has the number of entries of each section,
    `symbols` the bytes of the symbols by letter and position."""
    names, lines, number = [], [b"$version aig $end", b"$timescale 1 ns $end"], 0
    for (section, letter, shape), count in zip(SECTIONS, counts):
        if not count:
            continue
        entries = [(code(number + place), names_of(symbols.get((letter, place)), b"%s%d" % (letter.encode(), place)))
                   for place in range(count)]
        number += count
        found = section_names(section, entries)
        names += found
        lines += [b"$scope module %s $end" % section.encode(), *scope_lines(found, shape.encode()), b"$upscope $end"]
    return names, b"".join(line + b"\n" for line in [*lines, b"$enddefinitions $end"])
