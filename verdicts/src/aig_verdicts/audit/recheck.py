"""Checks a bundle by `aig` alone. Nothing of the bundle is believed: each command is made here, from the kind of the
row, and `aig` has to print the line of the verdict."""

from __future__ import annotations

import os
from concurrent.futures import ThreadPoolExecutor
from pathlib import Path
from typing import Callable, List, Optional, Sequence, Tuple

from aig.entries import listed, readable
from aig.errors import AigError, Crashed
from .bundle import MOST_BYTES, Bundle
from .checked import CIRCUIT, CONSTRAINTS, Checked, Claim, Rejected, Wrong, check, expect, sum_of
from .manifest import OLDER, SCRIPT_OF_YOSYS, check_results, is_name, is_of_older_formulas
from .needed import pieces_that
from .pieces import needs_of
from .properties import properties, symbol
from .row import Row, has_constraints
from aig.tools import Stop, ask

Read = Callable[[str], bytes]


class Unanswered(Wrong):
    """`aig` ended without an answer: nothing is known to be right, and nothing to be wrong."""


def check_row(row: Row, circuit: bytes, read: Read, stop: Stop) -> Optional[Checked]:
    """The check of what a row claims; none if it claims nothing that needs files. A Wrong says what is wrong."""
    if row.claim is None or row.claim.by == "":
        return None
    return check_claim(row.claim, circuit, read, stop)


def check_all_of(row: Row, circuit: bytes, read: Read, stop: Stop) -> Tuple[Optional[Checked], List[Checked]]:
    """The check of what a row claims, and those of its runs without a piece."""
    return check_row(row, circuit, read, stop), [check_claim(it, circuit, read, stop) for it in row.needed]


def check_claim(claim: Claim, circuit: bytes, read: Read, stop: Stop) -> Checked:
    """The check of a claim. A Wrong says what is wrong, or that `aig` ended without an answer."""
    try:
        return check(claim, circuit, read, stop)
    except Crashed as error:
        raise Unanswered(f"{claim.label}: {error}") from None


def _properties(circuit: bytes, stop: Stop) -> List[str]:
    """The names of the bad state properties."""
    try:
        entries = listed(ask(stop, "info", "--names", "--json", files=[circuit]))
    except AigError as error:
        raise Wrong(f"{CIRCUIT}: {error.part}: {error.reason}") from None
    return [entry.name for entry in entries if entry.letter == "b"]


def check_names(rows: List[Row], names: List[str], is_of_yosys: bool) -> None:
    """That the rows are those of the circuit's properties: each once, in order, with its kind and name."""
    expect([row.position for row in rows] == [CONSTRAINTS, *range(len(names))],
           "the rows are not those of the circuit's properties, each once and in order")
    expect(len(names) > 0, "there is no assertion")
    for row, named, (kind, name, of) in zip(rows[1:], names, properties(names)):
        is_named = symbol(kind, row.name) == named if is_of_yosys else row.name == (readable(name) or row.label)
        expect(row.kind == kind and is_named, f"{row.label} has another kind or name than the property")
        expect(row.of == of, f"{row.label} is of another row")


def look_at_places(bundle: Bundle) -> None:
    """That each row is in a source, if it is in a file, and has a name that could be one of the sources, if there are any."""
    for row in bundle.rows[1:]:
        expect(row.file in ("", *bundle.manifest["sources"]), f"{row.label} is in a file that is no source")
        expect(not bundle.manifest["options"] or is_name(row.name), f"{row.label} has a name that is none")


def is_older(bundle: Bundle) -> bool:
    """Whether the bundle is of a version whose bundles had no run that keeps the assumptions."""
    return bool(bundle.manifest["format"] == OLDER)


def is_kept(row: Row, circuit: bytes, stop: Stop) -> bool:
    """Whether a row that says that some run keeps the assumptions has one, or there are none."""
    is_shown = row.claim is None or row.claim.by != ""
    return is_shown or not has_constraints(ask(stop, "info", files=[circuit]))


def meant(error: Rejected, label: str, is_older: bool) -> Wrong:
    """What it means that `aig` rejects a file of a row. A proof about a formula that an older `aig` made may be right."""
    if is_older and error.error.part.endswith("proof"):
        return Unanswered(f"{label}: made by an older aig: check it with that one, or run again")
    return error


def recheck(path: Path, say: Callable[[Row], None] = lambda _: None, jobs: int = 0, stop: Stop = Stop(),
            most_bytes: int = MOST_BYTES) -> Bundle:
    """Checks a bundle, or raises a Wrong."""
    bundle = Bundle(path, most_bytes)
    circuit = bundle.circuit()
    check_names(bundle.rows, _properties(circuit, stop), bool(bundle.manifest["options"]))
    look_at_places(bundle)
    if not is_kept(bundle.rows[0], circuit, stop):
        expect(is_older(bundle), "no run shows that the assumptions can be kept")
        bundle.rows[0].claim = None  # it is a solver's word, so it is open
    read = bundle.summed
    for name in bundle.sums:
        if name.startswith(("sources/", "translated/")) or name == SCRIPT_OF_YOSYS:
            read(name)
    with ThreadPoolExecutor(jobs or os.cpu_count() or 1) as pool:
        checks = [pool.submit(check_all_of, row, circuit, read, stop) for row in bundle.rows]
        try:
            for row, check in zip(bundle.rows, checks):
                try:
                    _take(row, *check.result(), circuit)
                except Rejected as error:
                    raise meant(error, row.label, is_of_older_formulas(bundle.manifest)) from None
                if row.by:
                    say(row)
        finally:
            for check in checks:
                check.cancel()
    check_results(bundle.manifest, bundle.rows)
    return bundle


def _take(row: Row, checked: Optional[Checked], runs: Sequence[Checked], circuit: bytes) -> None:
    """Gives a row the verdict that it claims, if it claims one, and the pieces that every proof of it needs."""
    claims = row.claim is not None and row.claim.by != ""
    expect(claims == (checked is not None), f"{row.label} was not checked")
    if checked is not None:
        expect(checked.claim == row.claim, f"{row.label} has another claim")
        row.take(checked, sum_of(circuit), needs_of(circuit, checked.cuts))
        expect([it.claim for it in runs] == row.needed, f"{row.label} has other runs")
        row.take_needed(runs, pieces_that(circuit, runs))
