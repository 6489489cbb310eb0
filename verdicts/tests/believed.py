"""Rows as if `aig` had confirmed their verdicts, for tests of what checks mean. Of the package, checked.py alone makes
a check."""

from dataclasses import replace

from aig_verdicts.audit import checked
from aig_verdicts.audit.checked import Checked, Claim
from aig_verdicts.audit.decisions import Judge
from aig_verdicts.audit.row import LEFT_OUT

# That of the circuit which these rows are about.
SUM = "0" * 64


def believed(row, verdict="undecided", by="", frames=0, files=()):
    """The row, which gets this verdict. One that nothing shows has no check."""
    row.is_left_out = verdict == LEFT_OUT
    if by:
        row.take(check_of(row.position, by, frames, files), SUM)
    elif verdict == "alive":
        row.claim = Claim(row.position, "", frames)
    if row.claim is None and verdict not in ("undecided", row.verdict):
        raise ValueError(f"{verdict} is not the verdict of {by}")
    return row


def check_of(position, by, frames, files=(), circuit=SUM):
    """A check that nobody made."""
    return Checked(Claim(position, by, frames, tuple(dict(files).items())), circuit, {}, checked._KEY)


def judge_some(rows, moment=lambda _: None):
    """What some rows of a circuit mean beside each other, where the others are not there."""
    known = Judge(rows)
    table = [known.of(row) for row in rows if row.kind in ("assert", "cover")]
    table = [replace(it, moment=moment(it.row)) if it.row.by == "run" else it for it in table]
    return sorted(table, key=lambda it: it.row.position)
