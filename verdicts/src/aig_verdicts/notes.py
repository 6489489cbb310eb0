"""What the commands say beside their tables."""

from __future__ import annotations

import sys
from pathlib import Path
from typing import TYPE_CHECKING, Callable, Optional

from aig.waves.concrete import comes_back

from .audit.folder import write_whole
from .audit.row import Row
from .audit.sentences import no_proof_needs, short_runs
from .audit.table import Table, plain

if TYPE_CHECKING:
    from .pages.page import Results
    from .pages.sections import Pictures

# So many notes on rows are printed.
MOST_NOTES = 12


def tell(line: str) -> None:
    print(f"aig-verdicts: {plain(line)}", file=sys.stderr)


def say_of_assumptions(alive: Row, circuit: bytes, read: Callable[[str], bytes]) -> None:
    """Says where nothing shows that the assumptions can be kept for ever: else rows would be about short runs alone."""
    if alive.by == "kept":
        if not comes_back(circuit, read(alive.files["witness"])):
            tell(short_runs(alive))


def say_of_needs(table: Table, circuit: bytes) -> None:
    """Says which assumptions no proof needs."""
    if all(it.needs is None for it in table):
        return
    from .pages.needs import Proofs

    proofs = Proofs.of(table)
    if text := no_proof_needs(proofs.unneeded(circuit), len(proofs.known), proofs.others) if proofs.known else "":
        tell(text)


def write_page(to: Path, results: Results, table: Table, is_unfinished: bool, pictures: Optional[Pictures] = None) -> None:
    """The page of results."""
    from .pages.page import Page

    page = Page(results, table, is_unfinished, pictures)
    write_whole(to, page.html().encode("utf-8", "replace"))
