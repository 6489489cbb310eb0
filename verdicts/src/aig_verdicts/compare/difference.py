"""The difference of two versions: as a table, as JSON, and as JUnit for a CI server."""

from __future__ import annotations

from typing import Any, Collection, Dict, List, NamedTuple, Optional

from .changes import Beside, Change, Known, changes, status_of, summary
from ..audit.decisions import BAD, OPEN
from .matching import pairs_of
from .sides import Side
from ..audit.sentences import NOT_LOOKED_AT
from .surroundings import surroundings
from ..audit.table import MOST_WIDE, Case, element, plain, suite
from ..audit.unread import more_than

FORMAT = "aig-verdicts difference 1"


class Difference(NamedTuple):
    """What changed from one version to another.

    changes  of each assertion and cover
    beside   what else changed
    basis    why the old side counts
    """

    old: Side
    new: Side
    changes: List[Change]
    beside: List[Beside]
    basis: str

    @property
    def status(self) -> int:
        return status_of(self.changes, self.beside)

    @property
    def summary(self) -> str:
        return summary(self.changes)

    def json(self) -> Dict[str, Any]:
        return {"format": FORMAT, "status": self.status, "changes": [_object(it) for it in self.changes],
                "beside": [it._asdict() for it in self.beside], "basis": self.basis}

    def text(self, has_all: bool = False) -> str:
        """The table: change, kind, name, before, now. Rows that are as before are left out, but for `has_all`."""
        shown = [it for it in self.changes if has_all or it.word != "same"]
        rows = [[it.said, it.here.row.kind, plain(it.here.row.name), said(it.before), said(it.after)] for it in shown]
        widths = [min(max(map(len, column)), MOST_WIDE) for column in zip(*rows)]
        lines = ("  ".join(cell.ljust(width) for cell, width in zip(row, widths)).rstrip() for row in rows)
        return "".join(f"{line}\n" for line in lines)

    def junit(self, seconds: Dict[int, float]) -> str:
        """What fails and did not is a failure, what is gone or less known an error. A failure that was known is
        skipped."""
        name = self.new.version.name
        return suite(name, [element(name, _case(it, seconds)) for it in self.changes], seconds)


def difference(old: Side, new: Side, basis: str, only: Optional[Collection[int]] = None) -> Difference:
    """What changed, of all rows or of those of the new version at these positions alone."""
    pairs = pairs_of(old.version, new.version)
    before, after = old.known, new.known
    if only is not None:
        chosen = {pairs.old.get(position) for position in only}
        before = [it for it in before if it.row.position in chosen]
        after = [it for it in after if it.row.position in only]
    beside = surroundings(old.version, new.version)
    more = more_than(old.unread, new.unread) if only is None else []
    if more:
        beside.append(Beside(f"{more[0].place} is {NOT_LOOKED_AT}" + f", and {len(more) - 1} more" * (len(more) > 1), OPEN))
    return Difference(old, new, changes(before, after, pairs), beside, basis)


def said(known: Optional[Known]) -> str:
    """What is known of a row, and how."""
    if known is None:
        return "-"
    way = known.judged.way if known.judged is not None else ""
    return known.words + f" ({way})" * bool(way)


def _object(it: Change) -> Dict[str, Any]:
    made: Dict[str, Any] = {"change": it.said, "status": it.status}
    for side, known in (("before", it.before), ("now", it.after)):
        if known is not None:
            row = known.row
            made[side] = {"position": row.position, "kind": row.kind, "name": row.name, "file": row.file,
                          "line": row.last, "result": known.words, "frames": known.frames}
    return made


def _case(it: Change, seconds: Dict[int, float]) -> Case:
    tag = {BAD: "failure", OPEN: "error"}.get(it.status, "skipped" if it.word == "still" else "")
    took = seconds.get(it.after.row.position, 0.0) if it.after is not None else 0.0
    return Case(it.here.row, tag, it.said, f"before: {said(it.before)}\nnow: {said(it.after)}", took)
