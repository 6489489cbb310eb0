"""Planted bugs, as files have them: one file for each source, of Rattle and of Python alike.

A file begins with `file:` and the path of its source. Each bug is a paragraph: its name and a sentence that says what
is wrong, then lines that say more of it, each a word and a text, then pairs of `old:` and `new:`. `old:` is a piece of
one line that is in the source exactly once; a pair sees what those before it made."""

import collections
import re

# A bug; `words` are the lines that say more of it, as pairs of a word and its text.
Bug = collections.namedtuple("Bug", "name sentence file words changes")


def of_line(line):
    """The word of a line, and its text."""
    word, _, text = line.partition(":")
    return word, text.removeprefix(" ")


def of_paragraph(file, lines):
    """The bug of a paragraph."""
    (name, sentence), *rest = map(of_line, lines)
    first = next((at for at, (word, _) in enumerate(rest) if word == "old"), len(rest))
    words, pairs = rest[:first], rest[first:]
    texts = [text for _, text in pairs]
    if not pairs or [word for word, _ in pairs] != ["old", "new"] * (len(pairs) // 2):
        raise ValueError(f"{file}: {name}: pairs of old: and new: have to follow")
    return Bug(name, sentence, file, words, [*zip(texts[::2], texts[1::2])])


def of_text(text):
    """The bugs of the text of a file."""
    head, *paragraphs = re.split(r"\n{2,}", text.strip("\n"))
    word, file = of_line(head)
    if word != "file":
        raise ValueError(f"a file of planted bugs begins with file: and not with {head}")
    return [of_paragraph(file, paragraph.split("\n")) for paragraph in paragraphs]
