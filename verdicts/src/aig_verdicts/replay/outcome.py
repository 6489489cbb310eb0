"""What became of a run in a simulator, in words."""

from __future__ import annotations

from enum import Enum
from typing import AbstractSet, NamedTuple, Sequence

from .compared import Difference

# The differences that a message has.
MOST_NAMED = 3


class Word(Enum):
    """What a simulator says of a run, from the best to the worst, and how a line says so."""

    AGREES = "in {0} too"
    BY_OTHER_VALUES = "in {0} too, but "
    UNKNOWN = "not decided in {0}: "
    DISAGREES = "{0} disagrees: "
    NOT_REPLAYED = "not replayed: "

    @property
    def status(self) -> int:
        """The exit status that it asks for."""
        return {Word.AGREES: 0, Word.DISAGREES: 5}.get(self, 4)

    @property
    def rank(self) -> int:
        return list(Word).index(self)

    @property
    def weight(self) -> int:
        """How much it counts among several runs: a run that disagrees counts most."""
        return self.rank if self is not Word.DISAGREES else len(Word)


class Outcome(NamedTuple):
    """What became of a run, how much was compared, and how many values were x in the simulation.

    seen         the names of the assertions, covers and assumptions of which a value was compared
    without_row  places of assertions in the sources that the circuit perhaps does not have
    """

    word: Word
    why: str = ""
    differences: Sequence[Difference] = ()
    signals: int = 0
    asserted: int = 0
    values: int = 0
    unknown: int = 0
    seen: AbstractSet[str] = frozenset()
    without_row: AbstractSet[str] = frozenset()

    def said(self, simulator: str) -> str:
        """The run of a row, in words."""
        begin: str = self.word.value
        return begin.format(simulator) + "; ".join(part for part in (self.why, named(self.differences)) if part)

    @property
    def is_against(self) -> bool:
        """Whether the simulation has other values than the circuit, whatever becomes of the row itself."""
        return self.word in (Word.BY_OTHER_VALUES, Word.DISAGREES) and bool(self.differences)

    def said_of_random(self, simulator: str) -> str:
        if self.word is not Word.AGREES:
            return self.said(simulator)
        return (f"as in {simulator}: {self.signals} signals, {self.asserted} assertions, {self.values} values"
                f"{unknown_there(self.unknown)}")


def worst(outcomes: Sequence[Outcome]) -> Outcome:
    """The outcome of several runs that all show the same row: the worst one, with what differs in any of them."""
    found = max(outcomes, key=lambda it: it.word.weight)
    against = [it for it in outcomes if it.is_against]
    if against and not found.is_against:
        return next(iter(against))
    return found


def unknown_there(count: int) -> str:
    """How many values of a simulation say nothing."""
    return f"; {count:,} {'is' if count == 1 else 'are'} x there" if count else ""


def named(differences: Sequence[Difference]) -> str:
    """The first differences, in words."""
    shown = [it.said() for it in differences[:MOST_NAMED]]
    if len(differences) > MOST_NAMED:
        shown.append(f"and {len(differences) - MOST_NAMED} more")
    return "; ".join(shown)
