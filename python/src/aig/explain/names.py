"""Names that a circuit has, and those that are like one that it does not have."""

from __future__ import annotations

import re
import subprocess
from typing import TYPE_CHECKING, BinaryIO, Iterator, List, Optional

from .._where import program
from .files import Files, Hidden
from .lines import Lines, first
from .reader import header_of

if TYPE_CHECKING:
    from ..entries import Entry

LONGEST = 256  # bytes of a name that others are compared with


def entries_of(files: Files, circuit: str) -> Iterator[Entry]:
    """The entries of a circuit with their names, as the program prints them. It gets a file that is open, so that it
    opens no pipe."""
    try:
        with files.opened(circuit) as file:
            yield from _printed(file)
    except Hidden:
        return


def _printed(file: BinaryIO) -> Iterator[Entry]:
    from ..entries import listed  # with json, which few runs need

    words = [program(), "info", "--names", "--json", "/dev/stdin"]
    with subprocess.Popen(words, stdin=file, stdout=subprocess.PIPE, stderr=subprocess.DEVNULL) as printing:
        assert printing.stdout is not None
        for line in printing.stdout:
            yield from listed(line)


def bytes_of(name: str) -> bytes:
    return name.encode("utf-8", "surrogateescape")


def property_of(files: Files, circuit: str, text: str) -> Optional[str]:
    """The bad state property that a number, a place or a name names, with its name."""
    entries = [it for it in entries_of(files, circuit) if it.letter == "b"]
    for it in entries:
        if text in (it.place, str(it.position)):
            return named(it)
    return next((named(it) for it in entries if it.name == text), None)


def named(entry: Entry) -> str:
    """A place, and the name if there is one."""
    return entry.place + (f" {first(bytes_of(entry.name))}" if entry.name else "")


def distance(one: bytes, other: bytes, most: int) -> int:
    """How many steps make one text of the other: a byte more, less or other, or two neighbours turned round. Where more
    than `most` are needed, it is any number over `most`."""
    before: List[int] = []
    last: List[int] = [*range(len(other) + 1)]
    for at, byte in enumerate(one):
        row: List[int] = [at + 1]
        for place, found in enumerate(other):
            steps = min(last[place + 1] + 1, row[-1] + 1, last[place] + int(byte != found))
            if at and place and byte == other[place - 1] and one[at - 1] == found:
                steps = min(steps, before[place - 1] + 1)
            row.append(steps)
        if min(row) > most and min(last) > most:
            return most + 1
        before, last = last, row
    return last[-1]


def signals_of(entries: Iterator[Entry]) -> List[bytes]:
    """The names of signals, a vector once."""
    return [*dict.fromkeys(re.sub(rb"\[[0-9]+\]$", b"", bytes_of(word)) for it in entries for word in it.words)]


def nearest(word: bytes, names: List[bytes]) -> Optional[bytes]:
    """The name that is most like a word, if one is like it: the first of several in their order as bytes."""
    best, most = None, max(min(len(word), 64) // 3, 1)
    for name in sorted(names):
        if abs(len(name) - len(word)) <= most:
            steps = distance(word, name, most)
            if steps < most or (steps == most and best is None):
                best, most = name, steps
    return best


def push_name(lines: Lines, circuit: bytes, text: str, entries: Iterator[Entry]) -> None:
    """Why a name names nothing, and what is like it."""
    word = bytes_of(text)
    lines.add(f"no signal, vector, entry or literal has the name `{first(word)}`")
    if 0 < len(word) <= LONGEST:
        signals = signals_of(entries)
        near = nearest(word, signals)
        if near is not None:
            lines.add(f"do you mean `{first(near)}`?")
        count = sum(word in name for name in signals)
        if count:
            lines.add(f"names of signals that contain it: {count}")
    header = header_of(circuit)
    if header:
        lines.add(f"the greatest literal is {2 * header.max_var + 1}")
