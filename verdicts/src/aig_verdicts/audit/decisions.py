"""What checks mean: the result, the doubt, the mark and the exit status of each assertion and cover. These are functions of
rows alone. A result that says something of a circuit needs a `Checked`, and only checked.py makes one. table.py has what
all rows mean together, and sentences.py the words. Who audits a `recheck` reads these four files."""

from __future__ import annotations

from dataclasses import dataclass, replace
from typing import Callable, Dict, List, Literal, NamedTuple, Optional, Sequence, Union

from . import sentences
from .checked import CONFIRMED, CONSTRAINTS, UNREACHABLE, Checked, Wrong, expect
from .cycles import Moment
from .pieces import Needs
from .row import LEFT_OUT, UNDECIDED, Row
from .sentences import DISAGREES, Remark

# Exit statuses of a table that is whole.
GOOD, OPEN, BAD = 0, 4, 5
# Those without a table, and that of a run that was stopped.
REJECTED, WRONG_ARGUMENTS, UNREADABLE, INTERRUPTED = 1, 2, 3, 130


class Meaning(NamedTuple):
    """What a result asks for: an exit status, a mark, how it looks on the page, and an element of JUnit."""

    status: int
    mark: str
    look: str
    junit: str


MEANINGS = {
    "fails": Meaning(BAD, "✗", "bad", "failure"),
    "never": Meaning(BAD, "✗", "bad", "failure"),
    DISAGREES: Meaning(OPEN, "≠", "warn", "error"),
    "vacuous": Meaning(OPEN, "∅", "warn", "failure"),
    "undecided": Meaning(OPEN, "?", "warn", "error"),
    LEFT_OUT: Meaning(OPEN, "–", "warn", "skipped"),
    "bounded": Meaning(OPEN, "◐", "warn", "skipped"),
    "holds": Meaning(GOOD, "✓", "good", ""),
    "reached": Meaning(GOOD, "✓", "good", ""),
}
# Of a property of the input that has no verdict.
UNREAD = Meaning(OPEN, "–", "warn", "error")
Found = Literal["fails", "never", "bounded", "holds", "reached"]


@dataclass(frozen=True)
class Decided:
    """A result that says something of the circuit, and its check. Of a vacuous row that is the check of its condition,
    or of the assumptions."""

    result: Union[Found, Literal["vacuous"]]
    shown: Checked


@dataclass(frozen=True)
class Undecided:
    """A result that says nothing of the circuit."""

    result: Literal["undecided", "left out", "disagrees"]


@dataclass(frozen=True)
class Judged:
    """A row of the table.

    said    fails, holds, bounded, vacuous, undecided or left out of an assertion; reached, never, bounded, .. of a
            cover; disagrees of one that a simulator denies
    why     of a vacuous one, in words
    proof   the row that shows it, where that is not the row itself
    doubt   of one that may be vacuous, in words
    moment  of one with a run: when the assertion fails, or the cover is reached
    simulated  what a simulator says of its run, in words
    denied  that a simulator denies the circuit, in words
    """

    row: Row
    said: Union[Decided, Undecided]
    why: str = ""
    proof: Optional[Row] = None
    doubt: str = ""
    moment: Optional[Moment] = None
    simulated: str = ""
    denied: str = ""

    @property
    def result(self) -> str:
        return self.said.result

    @property
    def words(self) -> str:
        return sentences.words(self.result, self.row)

    @property
    def by(self) -> str:
        return ", ".join(part for part in (self.way, self.at) if part)

    @property
    def way(self) -> str:
        """How it was found."""
        return sentences.way(self.row)

    @property
    def at(self) -> str:
        """When the assertion fails, or the cover is reached, if that is known."""
        return f"at {self.moment}" if self.moment else ""

    @property
    def needs(self) -> Optional[Needs]:
        """What the proofs that show it need, if they are about less than the whole circuit."""
        shown = self.proof or self.row
        return shown.needs if self.result in ("holds", "never", "vacuous") else None

    @property
    def status(self) -> int:
        """The exit status that this row asks for."""
        return max(MEANINGS[self.result].status, OPEN if self.doubt or self.denied else GOOD)

    @property
    def look(self) -> str:
        """How the row looks: one that is in doubt is not good."""
        return "warn" if self.doubt or self.denied else MEANINGS[self.result].look

    @property
    def junit(self) -> str:
        """What a CI server takes the row for: an element of JUnit, or nothing if it passes. What is in doubt does not pass."""
        return MEANINGS[self.result].junit or ("error" if self.denied else "skipped" if self.doubt else "")

    @property
    def remarks(self) -> List[Remark]:
        """What has to be said beside the result."""
        found = [Remark("Vacuous", self.why)] if self.result == "vacuous" else []
        found += [Remark("", self.simulated, self.result == DISAGREES)] if self.simulated else []
        return found + ([Remark("Perhaps vacuous", self.doubt, True)] if self.doubt else [])

    def statement(self, is_constrained: bool) -> str:
        """What its run or its proof shows, as sentences; nothing if it has none."""
        if not self.row.by:
            return ""
        return sentences.of_run(self.row, self.moment) if self.row.by == "run" else sentences.of_proof(
            self.row, is_constrained)

    def denied_by(self, said: str) -> Judged:
        """The same row, where a simulator denies it."""
        return replace(self, said=Undecided(DISAGREES), simulated=said)


# For so many frames some run has to keep the assumptions, whatever a bundle says that it was asked for.
LEAST_KEPT = 20


class Asked(NamedTuple):
    """What was asked of a design: runs of so many frames, and whether the conditions of assertions are ever true."""

    frames: int = 0
    conditions: bool = True


class Judge:
    """Judges rows by each other: the rows of conditions and of the constraints say what is vacuous."""

    def __init__(self, rows: Sequence[Row], asked: Asked = Asked()):
        self._asked = asked
        self._alive = next((row for row in rows if row.kind == "constraints"), None)
        self._conditions: Dict[Optional[int], Row] = {row.of: row for row in rows if row.kind == "condition"}
        circuits = {row.checked.circuit for row in rows if row.checked is not None}
        expect(len(circuits) <= 1, "the rows are about several circuits")

    def of(self, row: Row) -> Judged:
        own = row.checked
        if own is None:
            return Judged(row, Undecided(LEFT_OUT if row.is_left_out else UNDECIDED))
        result = _alone(row, own)
        alive = self._alive.checked if self._alive is not None else None
        if alive is not None and alive.by == "alive" and result in ("holds", "never", "bounded"):
            return Judged(row, Decided("vacuous", alive), sentences.never_kept(alive.frames), self._alive)
        doubt = self._doubt_of_assumptions(own) if result in ("holds", "never", "bounded") else ""
        condition = self._conditions.get(row.position)
        if not self._asked.conditions and condition is None and result in ("holds", "bounded") and row.kind == "assert":
            doubt = "; ".join(filter(None, (doubt, sentences.CONDITION_NOT_ASKED)))
        if condition is not None and result in ("holds", "bounded"):
            asked = condition.checked
            if asked is not None and asked.line == UNREACHABLE:
                return Judged(row, Decided("vacuous", asked), sentences.NEVER_ASKED, condition)
            if asked is None or asked.line != CONFIRMED:
                doubt = "; ".join(filter(None, (doubt, sentences.PERHAPS_ASKED)))
        return Judged(row, Decided(result, own), doubt=doubt)

    def _doubt_of_assumptions(self, own: Checked) -> str:
        """Why it is not known that any run keeps the assumptions: that is open, or they are kept for fewer frames than were
        asked for, by a run that comes back to no state."""
        if self._alive is None or self._alive.claim is not None and self._alive.claim.by == "":
            return ""
        kept = self._alive.checked
        if kept is None:
            return sentences.PERHAPS_KEPT
        is_short = kept.frames < max(LEAST_KEPT, self._asked.frames, own.frames if own.by == "bound" else 0)
        return sentences.kept_for(kept.frames) if is_short and not kept.is_lasting else ""

    def waits_for(self, row: Row) -> List[Row]:
        """The rows that have a say in what this one means."""
        return [it for it in (row, self._alive, self._conditions.get(row.position)) if it is not None]


def _alone(row: Row, own: Checked) -> Found:
    """What the check of a row means if nothing is vacuous."""
    cover = row.kind == "cover"
    if own.line == CONFIRMED:
        return "reached" if cover else "fails"
    if own.by == "bound":
        return "bounded"
    if own.line == UNREACHABLE:
        return "never" if cover else "holds"
    raise Wrong(f"{row.label} has the verdict of another kind of row")


def judge(rows: Sequence[Row], count: int, asked: Asked = Asked(),
          moment: Callable[[Row], Optional[Moment]] = lambda _: None) -> List[Judged]:
    """The rows of a circuit with so many properties, in their order, which is that of the sources. `moment` has that of a
    row's run. All of them are judged: without that of the assumptions, or of a condition, a vacuous one would hold."""
    expect([row.position for row in rows] == [CONSTRAINTS, *range(count)], "a row is missing where rows are judged")
    judged = Judge(rows, asked)
    table = [judged.of(row) for row in rows if row.kind in ("assert", "cover")]
    table = [replace(it, moment=moment(it.row)) if it.row.by == "run" else it for it in table]
    return sorted(table, key=lambda it: it.row.position)
