"""The signals of a circuit as a testbench names them, and what their bits are there."""

from __future__ import annotations

import random
import re
from typing import AbstractSet, Dict, Iterable, List, NamedTuple, Optional, Sequence, Set, Tuple

from aig.entries import Entry

_PLAIN, _INDEXES = re.compile(r"[A-Za-z_][\w$]*"), re.compile(r"(?:\[-?\d+\])*")
BIT = re.compile(r"(.+)\[(-?\d+)\]")
# The index of a signal that has no range.
ALONE = 1 << 40
# Names that aig-verdicts gives to what has none in the sources. A source may have such a name, too.
_GIVEN = re.compile(r"(?:.*\.)?(?:past|(?:value|when)(?:_assumed)?|x)(?:_\d+)+(?:_next)?|.*_(?:before|kept)(?:_\d+)?|x(?:_next)?")
_WORD = re.compile(r".*\[-?\d+\]")
_X = re.compile(r"(?:.*\.)?x(?:_\d+)*(?:_next)?(?:\[\d+\])?")
# The columns of a line of `aig check --trace --properties`.
COLUMNS = "lionbc"

# The values of a frame: latches, inputs, outputs, the next ones of latches, properties and constraints.
Frame = Sequence[str]


class Shape(NamedTuple):
    """The range that a signal has in the sources; none if it has one bit."""

    left: Optional[int] = None
    right: Optional[int] = None

    @property
    def width(self) -> int:
        return 1 if self.left is None or self.right is None else abs(self.left - self.right) + 1

    @property
    def declared(self) -> str:
        return "" if self.left is None else f"[{self.left}:{self.right}] "

    def indexes(self) -> List[int]:
        """The indexes of the bits, the most significant one first; ALONE of a signal without a range."""
        if self.left is None or self.right is None:
            return [ALONE]
        step = -1 if self.left >= self.right else 1
        return list(range(self.left, self.right + step, step))


class Signal(NamedTuple):
    """A signal that circuit and sources name.

    path     its name in the top module
    text     the same as Verilog writes it
    letter   the section of the circuit: i, l or o
    columns  the position of each bit in that section, the most significant one first; -1 of a bit that is not there
    shape    its range in the sources
    """

    path: str
    text: str
    letter: str
    columns: Tuple[int, ...]
    shape: Shape = Shape()

    @property
    def is_word(self) -> bool:
        """Whether it is a word of a memory, or a bit of a vector by itself."""
        return _WORD.fullmatch(self.text) is not None

    @property
    def is_whole(self) -> bool:
        return -1 not in self.columns

    def bits(self, frame: Frame) -> str:
        """Its value in a frame. A bit that the circuit does not have is `?`."""
        values = frame[COLUMNS.index(self.letter)]
        return "".join("?" if at < 0 else values[at] for at in self.columns)

    def value(self, frame: Frame, other: Optional[random.Random] = None) -> str:
        """Its value in a frame, as Verilog writes it. Bits that the circuit does not have are random ones, or 0."""
        bits = self.bits(frame)
        while "?" in bits:
            bits = bits.replace("?", other.choice("01") if other else "0", 1)
        return f"{len(bits)}'b{bits}"


class Named(NamedTuple):
    """A name of the circuit, before the shape of the signal is known: the position of each index, or of ALONE. `text` is as
    Verilog writes it, or empty if it cannot."""

    path: str
    text: str
    letter: str
    positions: Dict[int, int]

    def shaped(self, shape: Shape) -> Optional[Signal]:
        """The signal. A bit without a place in the range is counted from the least significant one, as an older version
        of aig-verdicts named it."""
        if set(self.positions) == {ALONE} and shape.width == 1:  # Yosys gives no index to a vector of one bit
            return Signal(self.path, self.text, self.letter, (self.positions[ALONE],), shape)
        if self.text.endswith("]"):
            shape = self._of_word(shape)
        indexes = shape.indexes()
        if not set(self.positions) <= set(indexes):
            indexes = list(range(shape.width - 1, -1, -1))
        if not set(self.positions) <= set(indexes):
            return None
        return Signal(self.path, self.text, self.letter, tuple(self.positions.get(it, -1) for it in indexes), shape)

    def _of_word(self, shape: Shape) -> Shape:
        """The shape of a word of a memory, of which a simulator says the width alone: the circuit has its bits in the order of
        their weight."""
        by_weight = sorted(self.positions, key=self.positions.__getitem__)
        own = Shape(by_weight[-1], by_weight[0])
        return own if len(by_weight) == own.width == shape.width > 1 else shape

    def bits(self) -> List[Named]:
        """Each bit as a signal of its own."""
        return [Named(f"{self.path}[{index}]", f"{self.text}[{index}]", self.letter, {ALONE: at})
                for index, at in self.positions.items() if index != ALONE]

    @property
    def is_given(self) -> bool:
        """Whether this is perhaps no name of the sources."""
        return is_given(self.path)


def is_given(path: str) -> bool:
    return _GIVEN.fullmatch(path) is not None


def is_x(name: str) -> bool:
    """Whether an input of a circuit is perhaps an x of the sources."""
    return _X.fullmatch(name) is not None


def named(entries: Iterable[Entry], escaped: AbstractSet[str] = frozenset()) -> List[Named]:
    """All signals by all of their names. The sources have these names with a backslash."""
    found: Dict[Tuple[str, str], Dict[int, int]] = {}
    lost: Set[Tuple[str, str]] = set()
    for entry in entries:
        for word in entry.name.split(" ") if entry.letter in "ilo" else []:
            match = None if escaped and written(word, escaped).endswith(" ") else BIT.fullmatch(word)
            path, index = (match[1], int(match[2])) if match else (word, ALONE)
            places = found.setdefault((path, entry.letter), {})
            if places and (index in places or (index == ALONE) != (ALONE in places)):  # `\\x[1] ` beside a vector x
                lost.add((path, entry.letter))
            places[index] = entry.position
    return [Named(path, "" if (path, letter) in lost else written(path, escaped), letter, positions)
            for (path, letter), positions in found.items() if path]


def written(path: str, escaped: AbstractSet[str]) -> str:
    """A name as Verilog writes it. Where it has one with a backslash, the longest one is meant. Empty if there is none."""
    parts, rest = [], path
    while rest:
        long = max((it for it in escaped if re.match(re.escape(it) + r"(?:[.\[]|$)", rest)), key=len, default="")
        plain = _PLAIN.match(rest)
        name = long or (plain[0] if plain else "")
        indexes = _INDEXES.match(rest, len(name))
        assert indexes is not None
        rest = rest[indexes.end():]
        parts.append((f"\\{long} " if long else name) + indexes[0])
        if not name or rest and (rest[0] != "." or len(rest) == 1):
            return ""
        rest = rest[1:]
    return ".".join(parts)
