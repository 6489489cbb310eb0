"""What holds an open bench: a process of the program, or the library. Both count as `aig bench` does, and know no
names: an edit is four numbers, and a fault the number of the reply `no`."""

from __future__ import annotations

from enum import IntEnum
from typing import NamedTuple, Protocol, Tuple

# The greatest number that a line, or an argument, can have.
MOST = (1 << 32) - 1
# Beside the numbers of the reply `no`: an edit of an array that is none.
NO_KIND, NO_VALUE = 252, 253
# A value over 2 is this, and the number of the fault.
FAULT = 16
# The fault of a frame that is not there.
NO_FRAME = 6
LETTERS = "01x"


class Kind(IntEnum):
    """The kinds of edits, as the library numbers them."""

    SET = 0
    REWIRE = 1
    RESET = 2
    APPEND = 3
    OUTPUT = 4
    DROP = 5


class Edit(NamedTuple):
    """An edit: its kind, and the arguments of its line in their order. A value is 0, 1, or 2 for x."""

    kind: int
    a: int = 0
    b: int = 0
    c: int = 0

    @property
    def line(self) -> str:
        """The line of a script that does this."""
        kind, a, b, c = self
        if kind == Kind.SET:
            return f"s {a} {b} {LETTERS[c]}"
        if kind == Kind.RESET:
            return f"r {a} {LETTERS[b]}"
        if kind == Kind.REWIRE:
            return f"w {a} {b} {c}"
        return {Kind.APPEND: f"g {a} {b}", Kind.OUTPUT: f"o {a} {b}", Kind.DROP: "-"}[Kind(kind)]

    @property
    def is_none(self) -> int:
        """Why this is no edit, or 0: `NO_KIND` or `NO_VALUE`."""
        if self.kind > max(Kind):
            return NO_KIND
        value = {Kind.SET: self.c, Kind.RESET: self.b}.get(Kind(self.kind), 0)
        return NO_VALUE if value >= len(LETTERS) else 0


class Engine(Protocol):
    """An open bench. A status is 0, or the number of a fault: then nothing changed."""

    def edit(self, edit: Edit) -> int:
        """The status of an edit whose numbers are at most `MOST`, and its value at most 2."""

    def edits(self, edits: memoryview) -> Tuple[int, int]:
        """How many edits, of four numbers each, were done up to the first that is refused, and the status of that."""

    def append(self, row: bytes) -> int:
        """The status of the edit that appends a frame with these letters."""

    def value(self, frame: int, literal: int) -> int:
        """The value of a literal at a frame: 0, 1, 2 for x, or `FAULT` and the number of the fault."""

    def values(self, cells: memoryview, room: memoryview) -> None:
        """Writes the values of cells, each a frame and a literal, to a room that has a byte for each."""

    def row(self, frame: int, literals: memoryview, room: memoryview) -> None:
        """Writes the values of literals at a frame to a room that has a byte for each."""

    def replace(self, rows: bytes) -> int:
        """The status of replacing all rows by those of a stimulus, which are as many and as long."""

    def variables(self) -> int:
        """The greatest variable."""

    def frames(self) -> int:
        """How many frames there are."""

    def trace(self) -> bytes:
        """The trace of all frames."""

    def unrolled(self) -> bytes:
        """The circuit unrolled for all frames, as text, or an EditError."""

    def saved(self) -> Tuple[bytes, bytes]:
        """The edited circuit and the rows. The bench goes on with them."""

    def close(self) -> None:
        """Ends the bench. A second time it does nothing."""
