"""The lines of `aig why --json`: why a property has its value in a run, as data."""

from __future__ import annotations

from typing import Any, Dict, List, NamedTuple, Sequence

from ..entries import objects
from .signals import Place, Signal


class Valued(NamedTuple):
    """A signal with its value at a frame: a letter per bit, the most significant first. A bit that a line does not give
    is `?`."""

    signal: Signal
    value: str

    @property
    def named(self) -> List[Place]:
        """The places of the bits that the value gives."""
        return [place for place, bit in zip(self.signal.places, reversed(self.value)) if bit != "?"]

    def __str__(self) -> str:
        return f"{self.signal.name}={shown(self.value)}"


class Line(NamedTuple):
    """A line of an explanation.

    text     as `aig why` prints it
    kept     the latches that it is about, or that are named at its frame and not explained
    frame    that of the latches
    causes   what explains it
    by       the frame of the causes
    """

    text: str
    kept: List[Valued]
    frame: int
    causes: List[Valued]
    by: int

    @property
    def is_asked(self) -> bool:
        """Whether it is about what was asked for, which is no latch."""
        return not self.kept

    @property
    def because(self) -> str:
        """What explains it, as text has it."""
        return _words(self.causes) or "always"


def lines(said: bytes) -> List[Line]:
    """The lines of what `aig why --json` prints."""
    return [_line(it) for it in objects(said)]


def shown(value: str) -> str:
    """A value, as text has it."""
    if len(value) == 1 or set(value) == {"x"}:
        return value[0]
    if set(value) <= {"0", "1"}:
        return f"{len(value)}'h{int(value, 2):0{-(-len(value) // 4)}x}"
    return f"{len(value)}'b{value}"


def _valued(it: Dict[str, Any]) -> Valued:
    first, count = it["position"], len(it["value"])
    return Valued(Signal(it["name"], it["letter"], tuple(range(first, first + count))), it["value"])


def _line(it: Dict[str, Any]) -> Line:
    kind, frame = it["line"], it["frame"]
    if kind in ("asked", "latches"):
        kept = [_valued(it["signal"])] if kind == "latches" else []
        causes = [_valued(cause) for cause in it["causes"]]
        head = f"{kept[0]} at {frame}, by {it['by']}" if kept else f"{it['name']}={shown(it['value'])} at {frame}"
        found = Line(head, kept, frame, causes, it["by"])
        return found._replace(text=f"{head}: {found.because}")
    latches = [_valued(latch) for latch in it["latches"]]
    how = kind if kind == "not explained" else f"by {kind}"
    return Line(f"at {frame}, {how}: {_words(latches)}", latches, frame, [], frame)


def _words(signals: Sequence[Valued]) -> str:
    return " ".join(map(str, signals))
