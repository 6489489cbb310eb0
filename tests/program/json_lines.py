"""Rows of `why --json` and `info --names --json`: what Python's own reader of JSON finds in their lines is what the
lines of text say. Names have quotes, backslashes, control bytes, and bytes that are no UTF-8."""

import json
import random

from library.causes import Asked, Names, explained, resets_of
from library.circuits import write_all
from library.json_lines import as_text, entry_line, objects, signals_of
from library.reference import Parts
from library.runs import EXAMPLES, contents, write
from library.tour import steps
from program.info import ENTRIES
from program.rows import Rows, data
from program.why import STIMULI, WITNESSES, circuit_at_random, lines, words_of

# Symbols of a bad state property, and what its name is in JSON. A symbol is any bytes but LF.
SYMBOLS = (
    (b"a", '"a"'), (b"a b", '"a b"'), (b'say "x"', r'"say \"x\""'), (b"\\top.u\\[0] ", r'"\\top.u\\[0] "'),
    (b"\\", r'"\\"'),
    (b"\x00\x01\x1f\t\r\x7f", '"\\u0000\\u0001\\u001f\\u0009\\u000d\x7f"'), (b"/", '"/"'),
    ("gr\u00f6\u00dfe \u2192 \U0001f600".encode(), '"gr\u00f6\u00dfe \u2192 \U0001f600"'),
    (b"h\xff", "[104,255]"), (b"\xff", "[255]"), (b"\xc3", "[195]"), (b"\xc0\xaf", "[192,175]"),
    (b"\xed\xa0\x80", "[237,160,128]"), (b"\xf4\x90\x80\x80", "[244,144,128,128]"), (b'"\xfe\\', "[34,254,92]"),
)


def json_lines(program, tally, _):
    rows = Rows("json", program, tally)
    write_all()
    names(rows, tally)
    for name, circuit, witness, options, wanted in WITNESSES:
        write("circuit", lines(circuit))
        says(rows, tally, name, words_of(options, "--json", "--witness", "circuit", "witness"), lines(wanted),
             witness=lines(witness))
    for name, circuit, stimulus, options, wanted in STIMULI:
        write("circuit", lines(circuit))
        says(rows, tally, name, words_of(options, "--json", "circuit", "rows"), lines(wanted), rows=lines(stimulus))
    quoted(rows)
    refusals(rows)
    shown(rows)
    at_random(rows, tally)


def says(rows, tally, name, words, wanted, /, **files):
    """The objects say what lines of text say. Python writes each of them as the same bytes."""
    for file, content in files.items():
        write(file, content)
    ended = rows.run(*words)
    tally.compare(f"json: {name}: ends", (ended.status, ended.err), (0, b""))
    found = objects(ended.out)
    tally.compare(f"json: {name}", "".join(map(as_text, found)), wanted)
    tally.compare(f"json: {name}: bytes", ended.out.decode(),
                  "".join(json.dumps(it, separators=(",", ":")) + "\n" for it in found))
    return found


def names(rows, tally):
    """The names of entries: the rows of `info --names`, symbols with their bytes, and each byte alone."""
    for name, circuit, entries in ENTRIES:
        said = rows.run("info", "--names", "--json", write("source", circuit))
        tally.compare(f"json: names: {name}", b"".join(map(entry_line, objects(said.out))), data(entries))
    for symbol, wanted in SYMBOLS:
        rows.gives(f"names: {symbol!r}", "info --names --json source",
                   '{"letter":"i","position":0,"literal":2,"name":null}\n{"letter":"b","position":0,"literal":3,"name":' + wanted + "}\n",
                   source=b"aag 1 1 0 0 0 1\n2\n3\nb0 " + symbol + b"\n")
    each = [byte for byte in range(256) if byte != 10]
    whole = b"".join(b"%d\n" % (2 * at + 2) for at in range(255)) + b"".join(b"i%d %c\n" % (at, byte) for at,
                                                                             byte in enumerate(each))
    said = rows.run("info", "--names", "--json", write("source", b"aag 255 255 0 0 0\n" + whole))
    tally.compare("json: names: each byte", [it["name"].encode() if byte < 128 else bytes(it["name"])
                                             for byte, it in zip(each, objects(said.out), strict=True)],
                                             [bytes([byte]) for byte in each])
    rows.gives("names: a justice property", "info --names --json source",
               '{"letter":"j","position":0,"literal":null,"name":"live"}\n',
               source="aag 0 0 0 0 0 0 0 1\n1\n0\nj0 live\n")


def quoted(rows):
    """Names with quotes and backslashes, which are bits of one vector."""
    rows.gives("a name to escape", ["why", "--json", "--of", '"\\', "circuit", "rows"],
               r'{"line":"asked","frame":0,"name":"\"\\","value":"1","by":0,"causes":'
               r'[{"letter":"i","position":0,"name":"a\"\\","value":"1?"}]}' "\n",
               circuit='aag 2 2 0 0 0 1\n2\n4\n4\ni0 a"\\[0]\ni1 a"\\[1]\nb0 "\\\n', rows="01\n")


def refusals(rows):
    write("circuit", lines("aag 1 1 0 0 0 1/2/2/"))
    write("rows", "1\n")
    rows.refuses("no name", "why --json --of i1 circuit rows", "why: name")
    rows.refuses("no frame", "why --json --of i0 --frame 1 circuit rows", "why: frame")
    rows.refuses("a faulty circuit", "why --json --of b0 cycle rows", "circuit: cycle 2")
    rows.refuses("names of a faulty circuit", "info --names --json cycle", "circuit: cycle 2")
    rows.fails("no circuit", "info --names --json nowhere", "circuit")


def shown(rows):
    """What the page on behaviour shows."""
    for command, text in steps("docs/BEHAVIOUR.md"):
        if " --json " in command:
            rows.gives(f"docs/BEHAVIOUR.md: {command}", command.replace("examples/", f"{EXAMPLES}/").split()[1:], text)


def at_random(rows, tally):
    """Random circuits beside the plain explainer: the signals too, by the letter and the position of their last
    letters."""
    for number in range(60):
        rng = random.Random(f"json {number}")
        text = circuit_at_random(rng)
        parts = Parts(text)
        known = Names(text, parts)
        run = ["".join(rng.choices("01x", (4, 4, 1), k=len(parts.inputs))) for _ in range(rng.randrange(1, 6))]
        write("circuit", text)
        write("rows", "".join(f"{row}\n" for row in run))
        there = {(signal.letter, signal.positions[0], signal.name, len(signal.positions)) for signal in known.signals}
        for name in rng.sample(sorted(known.known), 3):
            frame, depth = rng.randrange(len(run)), rng.choice((None, 0, 1, 2))
            options = ["--of", name, "--frame", str(frame), *(["--depth", str(depth)] if depth is not None else [])]
            found = says(rows, tally, f"case {number}, {options}", ["why", "--json", *options, "circuit", "rows"],
                         explained(text, resets_of(parts), run, Asked(name, frame, depth)))
            named = {(it["letter"], it["position"], it["name"],
                      len(it["value"])) for line in found for it in signals_of(line)}
            tally.check(f"json: case {number}, {options}: signals", named <= there, (named, there))
