"""Which line of a certificate's mapping is wrong."""

from __future__ import annotations

import re
from typing import FrozenSet, List, NamedTuple, Optional, Set, Tuple

from .reader import Parts

HEADING = re.compile(rb"MAPPING (0|[1-9][0-9]{0,9})")
PAIR = re.compile(rb"(0|[1-9][0-9]{0,6}) (0|[1-9][0-9]{0,6})")
WANTED = ("wanted: a line `MAPPING N`, then N lines of two literals: one of an input or latch of the certificate, each"
          " once, and one of CIRCUIT")


class Line(NamedTuple):
    """A line of a comment: its number, which counts from 1, and its bytes."""

    number: int
    text: bytes


def sources_of(parts: Parts) -> FrozenSet[int]:
    """The variables of the inputs and latches. A binary file does not have its inputs: they are the first variables."""
    inputs = range(1, parts.header.inputs + 1) if parts.header.is_binary else ()
    return frozenset(inputs) | _defined(parts, ("input", "latch"))


def variables_of(parts: Parts) -> FrozenSet[int]:
    """The variables that have a value: those of inputs, latches and gates, and the constant."""
    return frozenset((0,)) | sources_of(parts) | _defined(parts, ("gate",))


def _defined(parts: Parts, sections: Tuple[str, ...]) -> FrozenSet[int]:
    return frozenset(it.defined // 2 for it in parts.entries if it.section in sections and it.defined is not None)


def first_wrong_line(certificate: Parts, model: Parts) -> Optional[Line]:
    """The first line of the mapping that is wrong, or the one after the last line of the comment."""
    lines = certificate.comment.split(b"\n")
    begin = next((at for at, line in enumerate(lines) if line.startswith(b"MAPPING")), None)
    if begin is None:
        return None
    at = begin
    if HEADING.fullmatch(lines[begin]):
        at += 1 + _right_pairs(lines[begin + 1:], sources_of(certificate), variables_of(model))
    return Line(at + 1, lines[at] if at < len(lines) else b"")


def _right_pairs(lines: List[bytes], own: FrozenSet[int], model: FrozenSet[int]) -> int:
    """How many of the first lines are pairs, each of another input or latch."""
    seen: Set[int] = set()
    for count, line in enumerate(lines):
        pair = PAIR.fullmatch(line)
        variable = int(pair[1]) // 2 if pair else -1
        if not pair or variable in seen or variable not in own or int(pair[2]) // 2 not in model:
            return count
        seen.add(variable)
    return len(lines)
