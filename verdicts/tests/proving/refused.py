"""Lines about verdicts. mypy has to refuse each one that says so: a verdict without a check. Nothing runs them."""

from aig_verdicts.audit.checked import Checked, Claim
from aig_verdicts.audit.decisions import Decided, Judged, Undecided
from aig_verdicts.audit.row import Row

row, claim = Row(0, "assert", "a"), Claim(0, "induction", 1)
Judged(row, Undecided("undecided"))
if row.checked is not None:
    Judged(row, Decided("holds", row.checked))
Judged(row, Decided("holds"))  # refused: no check
Judged(row, Decided("fails"))  # refused: no check
Judged(row, Decided("reached"))  # refused: no check
Judged(row, Decided("vacuous"))  # refused: no check
Judged(row, Decided("holds", None))  # refused: no check
Judged(row, Decided("holds", claim))  # refused: a claim is no check
Judged(row, Decided("holds", row.checked))  # refused: the row may have none
Judged(row, "holds")  # refused: a word
Judged(row, Undecided("holds"))  # refused: not without a check
Judged(row, Decided("undecided", row.checked))  # refused: no word that has a check
row.verdict = "unreachable"  # refused: a row has no verdict of its own
row.by = "induction"  # refused: nor a way
row.frames = 9  # refused: nor frames
row.checked = None  # refused: take is the only way
row.take(claim, "")  # refused: a claim is no check
row.take(None, "")  # refused: no check
Row(0, "assert", "a", verdict="unreachable")  # refused: a row is made without one
Checked(claim, "", {})  # refused: the key is missing
