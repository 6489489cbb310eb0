"""The names of bits, as the source has them: indices of the declared range, elements of arrays, members of structures.

A label of a word is a list of names with ranges, the most significant first: `q`, `q[7:4]`, `up[0:7]` or
`cfg.tag[3:0],cfg.ok`. `bits_of` reads it back. Without a range, a word of more than one bit has [width-1:0]."""

from __future__ import annotations

import re
from typing import Dict, List, NamedTuple, Optional, Sequence, Tuple

from .meaning.names import Signal
from .dumps.tree import Node, Tree

_RANGE = re.compile(r"(.*)\[(-?\d+):(-?\d+)\]")
# Words that are no signals of the source: values that nothing gives, what a latch holds, what a register has while
# nothing forces it, and what signals were in the frame before.
_PREFIX = re.compile(r"((?:open|held|kept|before|sampled|clock|past):)(?!:)(.*)")


def _upwards(left: int, right: int) -> Sequence[int]:
    """The indices of a range, from that of the least significant bit."""
    return range(right, left + 1) if left >= right else range(right, left - 1, -1)


class Bit(NamedTuple):
    """The name of a bit: what comes before its last index, and that index. There may be none."""

    before: str
    last: Optional[int]


class Labels:
    """Labels of the signals of a design."""

    def __init__(self, tree: Tree) -> None:
        self._tree = tree
        self._bits: Dict[str, List[Bit]] = {}

    def label(self, signal: Signal, element: int, low: int, width: int) -> str:
        """The label of some bits of an element."""
        key = signal.node.get("dtype_id")
        if key is None:
            return signal.path
        index, kind = self._element(key, element)
        bits = self._of(kind)[low:low + width]
        if len(bits) != width:
            return f"{signal.path}{index}[{low + width - 1}:{low}]"
        return ",".join(signal.path + index + it for it in _joined(bits))

    def _element(self, key: str, element: int) -> Tuple[str, str]:
        """The indices of an element of an array, and the type of the element."""
        kind = self._tree.type_of(key)
        below = self._tree.below(kind)
        if kind.tag == "unpackarraydtype" and below:
            size = self._tree.shape_of(below).depth
            inner, of = self._element(below, element % size)
            left, right = self._tree.bounds(kind)
            return f"[{min(left, right) + element // size}]{inner}", of
        if below and kind.tag in ("refdtype", "constdtype", "paramtypedtype", "memberdtype"):
            return self._element(below, element)
        return "", key

    def _of(self, key: str) -> List[Bit]:
        """The bits of a type, from the least significant one."""
        if key not in self._bits:
            self._bits[key] = self._made(self._tree.type_of(key), key)
        return self._bits[key]

    def _made(self, kind: Node, key: str) -> List[Bit]:
        below = self._tree.below(kind)
        if kind.tag == "structdtype":
            members = reversed(kind.of("memberdtype"))  # the first one has the highest bits
            return [Bit(f".{it.name}{bit.before}", bit.last) for it in members for bit in self._of(str(it.get("id")))]
        if below and kind.tag == "packarraydtype":
            left, right = self._tree.bounds(kind)
            return [Bit(f"[{k}]{bit.before}", bit.last) for k in _upwards(left, right) for bit in self._of(below)]
        if kind.tag == "basicdtype" and kind.get("left") is not None:
            left, right = int(str(kind.get("left"))), int(str(kind.get("right")))
            return [Bit("", k) for k in _upwards(left, right)]
        if below and kind.tag != "basicdtype":
            return self._of(below)
        width = self._tree.shape_of(key).width
        return [Bit("", k) for k in range(width)] if width > 1 else [Bit("", None)]


def _joined(bits: List[Bit]) -> List[str]:
    """The names of bits, the most significant first, with neighbours as one range."""
    made: List[str] = []
    rest = bits[::-1]
    while rest:
        (before, high), count, low = rest[0], 1, rest[0].last
        if high is not None:
            step = -1 if Bit(before, high - 1) in rest[1:2] else 1
            while rest[count:count + 1] == [Bit(before, high + step * count)]:
                count += 1
            low = high + step * (count - 1)
        made.append(before if high is None else f"{before}[{high}]" if count == 1 else f"{before}[{high}:{low}]")
        rest = rest[count:]
    return made


def bits_of(label: str, width: int) -> List[str]:
    """The names of the bits of a word, from the least significant one."""
    found = _PREFIX.fullmatch(label)
    prefix, rest = (found[1], found[2]) if found else ("", label)
    made: List[str] = []
    for part in reversed(rest.split(",")):
        span = _RANGE.fullmatch(part)
        if span:
            high, low = int(span[2]), int(span[3])
            made += [f"{span[1]}[{k}]" for k in _upwards(high, low)]
        else:
            made.append(part)
    if len(made) != width:
        made = [f"{rest}[{k}]" for k in range(width)]
    return [prefix + it for it in made]
