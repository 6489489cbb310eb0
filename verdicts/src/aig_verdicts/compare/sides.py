"""The two sides of a comparison: what is known of each version of a design. One is a bundle that `aig` has checked, the
rows of a run, or a baseline, which is taken at its word."""

from __future__ import annotations

from dataclasses import replace
from typing import Callable, NamedTuple, Optional, Sequence

from ..audit.bundle import Bundle
from .changes import Known
from ..audit.checked import CIRCUIT, CONFIRMED, Checked, Rejected, Wrong, expect, sum_of
from ..audit.decisions import BAD, MEANINGS, Judge
from ..audit.manifest import is_of_older_formulas
from .matching import Version
from ..audit.recheck import check_row, meant
from ..audit.row import Row
from ..audit.sentences import in_words
from ..audit.simulated import Said, Simulated, of_facts
from ..audit.audited import table_of
from ..audit.table import Table
from aig.tools import Stop
from ..audit.unread import Unread, of_circuit

# The results by their words. Those of a bound have the frames after them.
_RESULTS = {in_words(result): result for result in MEANINGS}
# Where the other side comes from.
CHECKED = "aig checked both bundles; that the old one is of the version before is believed"
OF_BUNDLE = "the simulator of the bundle"
BASELINE = ("the baseline is believed, but for what failed in it, which aig checked: it has to come from a place that "
            "nobody else can write, as the main branch")


class Side(NamedTuple):
    """A version, what is known of each of its assertions and covers, its files, and its properties without a verdict."""

    version: Version
    known: Sequence[Known]
    read: Callable[[str], bytes]
    unread: Sequence[Unread] = ()


def checked_side(bundle: Bundle, simulated: Simulated) -> Side:
    """A bundle whose rows `aig` has checked. Nothing of its notes is shown, nor what its simulator said but for the word."""
    rows = [replace(row, notes=[], origin="") for row in bundle.rows]
    return side_of(Version.of(bundle), table_of(bundle, rows, _in_our_words(simulated)), bundle.summed)


def _in_our_words(said: Simulated) -> Simulated:
    """What a simulator said, without the sentences of whoever made the bundle."""
    rows = {at: Said(it.word, f"{OF_BUNDLE} {it.word}") for at, it in said.rows.items()}
    return said._replace(by=OF_BUNDLE, circuit="", rows=rows) if said.by else said


def side_of(version: Version, table: Table, read: Callable[[str], bytes]) -> Side:
    return Side(version, [Known.of(it) for it in table], read, table.unread)


def baseline_of(bundle: Bundle, stop: Stop) -> Side:
    """A bundle at its word. What failed there may hide that it fails now, so `aig` checks that."""
    circuit, known = bundle.circuit(), []
    for row, value in zip(bundle.rows, bundle.manifest["rows"]):
        if row.kind in ("assert", "cover"):
            if MEANINGS[_result(row, value.get("result"))].status == BAD:
                checked = _check_of(row, circuit, bundle, stop)
                expect(checked is not None, f"nothing shows the verdict of {row.label}")
                if checked is not None:
                    row.take(checked, sum_of(circuit))
            known.append(_believed(bundle, replace(row, notes=[], origin=""), value.get("result")))
    return Side(Version.of(bundle), known, bundle.summed, [*of_circuit(circuit), *bundle.unread])


def _check_of(row: Row, circuit: bytes, bundle: Bundle, stop: Stop) -> Optional[Checked]:
    """The check of a row that failed. That no run is shorter need not be right: of a formula that an older `aig` made, the
    proof may be another one."""
    is_older = is_of_older_formulas(bundle.manifest)
    if row.claim is not None and is_older:
        row.claim = replace(row.claim, named=tuple(it for it in row.claim.named if it[0] != "shorter"))
    try:
        return check_row(row, circuit, bundle.summed, stop)
    except Rejected as error:
        raise meant(error, row.label, is_older) from None


def _result(row: Row, words: object) -> str:
    """The result in the words of a table."""
    kind = "not reached" if row.kind == "cover" else "holds"
    if row.claim is not None and row.claim.by == "bound" and words == f"{kind} within {row.claim.frames}":
        return "bounded"
    expect(type(words) is str and words in _RESULTS, f"result of {row.label}")
    return _RESULTS[str(words)]


def _believed(bundle: Bundle, row: Row, words: str) -> Known:
    """What a baseline says of a row."""
    result = _result(row, words)
    if row.checked is not None:
        judged, = _in_our_words(of_facts(bundle.manifest["simulated"])).beside([Judge([row]).of(row)])
        known = Known.of(judged)
        expect(known.result == result or not known.fails, f"result of {row.label}")
        return known
    condition = next((it for it in bundle.rows if it.of == row.position), None)
    asked = condition.claim if condition is not None else None
    is_sure = condition is None or result not in ("holds", "bounded") or asked is not None and asked.line == CONFIRMED
    is_sure &= bundle.rows[0].claim is not None or result not in ("holds", "never", "bounded")
    frames = row.claim.frames if row.claim is not None else 0
    simulated = of_facts(bundle.manifest["simulated"])
    return Known(row, result, words, frames, is_sure and simulated.agrees is not False)
