"""What changed from one version of a design to the next: the word of each assertion and cover, and the exit status.
These are functions of what is known of both versions alone. That something failed before can hide that it fails now, so
it needs a `Checked`, and only checked.py makes one. Who audits `compare` reads this file, too."""

from __future__ import annotations

from dataclasses import dataclass
from typing import Dict, FrozenSet, List, Mapping, NamedTuple, Optional, Sequence, Tuple

from ..audit.checked import Checked, expect
from ..audit.decisions import BAD, GOOD, MEANINGS, OPEN, Decided, Judged
from ..audit.row import LEFT_OUT, Row
from ..audit.sentences import DISAGREES

# The changes, in the order of a table.
CHANGES = ("broken", "new", "edited", "gone", "weaker", "still", "mended", "stronger", "same")
# How they are called, where that is another word.
WORDS = {"still": "still fails", "same": "as before"}
# How much is known of a row that does not fail.
_KNOWN = {"undecided": 0, LEFT_OUT: 0, DISAGREES: 0, "vacuous": 1, "bounded": 2, "holds": 3, "reached": 3}


@dataclass(frozen=True)
class Known:
    """What is known of an assertion or a cover in one version.

    result   as in a table: a key of MEANINGS
    words    the same, as a table has it
    frames   of its run, or of its bound
    is_sure  whether there is no doubt, and no simulator denies the circuit
    shown    the check of it. What failed has one
    judged   the row of the table, if its verdict was checked
    """

    row: Row
    result: str
    words: str
    frames: int = 0
    is_sure: bool = True
    shown: Optional[Checked] = None
    judged: Optional[Judged] = None

    def __post_init__(self) -> None:
        expect(not self.fails or self.shown is not None, f"nothing shows that {self.row.label} fails")

    @classmethod
    def of(cls, it: Judged) -> Known:
        shown = it.said.shown if isinstance(it.said, Decided) else None
        return cls(it.row, it.result, it.words, it.row.frames, not it.doubt and not it.denied, shown, it)

    @property
    def fails(self) -> bool:
        """Whether it fails, or is never reached."""
        return MEANINGS[self.result].status == BAD

    @property
    def status(self) -> int:
        """The exit status that it asks for alone."""
        return max(MEANINGS[self.result].status, GOOD if self.is_sure else OPEN)

    @property
    def rank(self) -> Tuple[int, int, bool]:
        """How much is known of one that does not fail."""
        return _KNOWN[self.result], self.frames if self.result == "bounded" else 0, self.is_sure


@dataclass(frozen=True)
class Change:
    """What became of an assertion or a cover. A new one was not there before, and one that is gone is not there now."""

    word: str
    before: Optional[Known]
    after: Optional[Known]

    @property
    def here(self) -> Known:
        """What is known of it now, or was before."""
        found = self.after or self.before
        assert found is not None
        return found

    @property
    def status(self) -> int:
        """5 if it fails and did not before, 4 if less is known than before or it is gone, else 0. What was known of
        another text says nothing of this one, but a failure that went with its text is gone."""
        if self.word in ("new", "edited"):
            has_lost_failure = self.before is not None and self.before.fails
            return max(self.here.status, OPEN if has_lost_failure else GOOD)
        return {"broken": BAD, "gone": OPEN, "weaker": OPEN}.get(self.word, GOOD)

    @property
    def said(self) -> str:
        return WORDS.get(self.word, self.word)


class Beside(NamedTuple):
    """What else changed, as a sentence, and the exit status that it asks for."""

    said: str
    status: int


class Pairs(NamedTuple):
    """Which row was which: the old position by the new one, and the new positions of those with another text."""

    old: Mapping[int, int]
    edited: FrozenSet[int] = frozenset()


def word_of(before: Known, after: Known) -> str:
    """The change of a row whose text is the same."""
    if after.fails:
        return "still" if before.fails else "broken"
    if before.fails:
        return "mended" if _is_mended(before, after) else "weaker"
    if before.result == "vacuous" and not after.is_sure:
        return "weaker"  # what was known of its assumptions or of its condition is not known any more
    if before.rank == after.rank:
        return "same"
    return "stronger" if before.rank < after.rank else "weaker"


def _is_mended(before: Known, after: Known) -> bool:
    """Whether a failure is shown to be gone. A bound shows it only if the old run is no longer than it."""
    if after.result == "bounded":
        return after.is_sure and before.result == "fails" and before.frames <= after.frames
    return after.is_sure and after.result in ("holds", "reached")


def changes(before: Sequence[Known], after: Sequence[Known], pairs: Pairs) -> List[Change]:
    """The changes, the worst first. Each row of both versions is in one of them."""
    old: Dict[int, Known] = {it.row.position: it for it in before}
    expect(len(set(pairs.old.values())) == len(pairs.old), "two rows have one old row")
    found = []
    for it in after:
        was = old.pop(pairs.old[it.row.position]) if it.row.position in pairs.old else None
        if was is None:
            found.append(Change("new", None, it))
        else:
            expect(was.row.kind == it.row.kind, f"{it.row.label} was of another kind")
            found.append(Change("edited" if it.row.position in pairs.edited else word_of(was, it), was, it))
    found += [Change("gone", it, None) for it in old.values()]
    return sorted(found, key=lambda it: (-it.status, CHANGES.index(it.word), it.here.row.position))


def status_of(found: Sequence[Change], beside: Sequence[Beside]) -> int:
    """The exit status: the worst one. Without any assertion it is not good."""
    return max([*(it.status for it in found), *(it.status for it in beside)] if found else [OPEN])


def summary(found: Sequence[Change]) -> str:
    counts = [(word, sum(it.word == word for it in found)) for word in CHANGES]
    return ", ".join(f"{count} {WORDS.get(word, word)}" for word, count in counts if count) or "nothing to compare"
