"""What the translation knows of a module: its clocks, properties and assertions."""

from __future__ import annotations

from dataclasses import dataclass, field
from typing import Dict, List, Optional, Tuple

from .words import Rejected, Word, has_any, text_of

KINDS = ("assert", "assume", "cover", "restrict")
_SEVERAL = frozenset({",", "or", "iff"})


@dataclass(frozen=True)
class Clock:
    """An edge of a signal."""

    edge: str
    signal: str

    @property
    def text(self) -> str:
        return f"{self.edge} {self.signal}"


def clock_of(event: List[Word], here: Word) -> Clock:
    """The clock that an event means, such as `posedge clk`."""
    if not event or event[0].text not in ("posedge", "negedge"):
        raise Rejected(here, "a clock that is no posedge or negedge")
    if has_any(event, _SEVERAL):
        raise Rejected(here, "a clock of several events, or with iff")
    if any(it.text.startswith(("$", "`")) for it in event):
        raise Rejected(here, "a clock with a call")
    return Clock(event[0].text, text_of(event[1:]))


@dataclass
class Named:
    """A `property` or a `sequence` of the source, with its parameters and their defaults."""

    word: Word
    parameters: List[Tuple[str, Optional[List[Word]]]]
    body: List[Word]


@dataclass
class Item:
    """An assertion: the words from its label to its end, its verb, its label and its property."""

    first: int
    last: int
    kind: str
    label: str
    body: List[Word]


@dataclass
class Module:
    """A module, its first word and that of its end.

    clock, disable  the defaults
    blocks          the clocks of its clocking blocks
    constants       parameters whose value is a number in the source; None where it has several
    """

    name: str
    first: int
    end: int = 0
    clock: Optional[Clock] = None
    disable: Optional[List[Word]] = None
    blocks: Dict[str, Clock] = field(default_factory=dict)
    named: Dict[str, Named] = field(default_factory=dict)
    constants: Dict[str, Optional[int]] = field(default_factory=dict)
    items: List[Item] = field(default_factory=list)

    def define(self, name: str, value: Optional[int]) -> None:
        """Takes a constant. One of another scope may have the same name, so of two values none is known."""
        self.constants[name] = value if name not in self.constants else None

    @property
    def numbers(self) -> Dict[str, int]:
        return {name: value for name, value in self.constants.items() if value is not None}
