"""The design of a folder of results, and its session: what was searched there goes on."""

from __future__ import annotations

from pathlib import Path
from typing import Optional

from ..audit.bundle import Bundle
from ..audit.checked import Wrong
from .task import Bounds, Programs
from ..reading.design import Assertion, Design
from ..audit.manifest import FORMULAS, SCRIPT_OF_YOSYS
from ..audit.row import Row
from .session import Plan, Session
from ..audit.simulated import of_facts
from ..audit.timing import of_facts as timing_of
from aig.tools import Stop


def session_of(path: Path, programs: Programs, stop: Optional[Stop] = None) -> Session:
    """A session that writes a folder of results, with the bounds and the versions that it has."""
    bundle = Bundle(path)
    try:
        bounds = Bounds(**bundle.manifest["bounds"])
    except TypeError:
        raise Wrong("bounds of MANIFEST.json") from None
    left = {row.position for row in bundle.rows if row.is_left_out}
    only = {row.position for row in bundle.rows} - left if left else None
    session = Session(design_of(bundle), path, Plan(bounds, programs, only), stop)
    session.versions = {**session.versions, **bundle.manifest["versions"], "formulas": FORMULAS}
    session.simulated = of_facts(bundle.manifest["simulated"])
    return session


def design_of(bundle: Bundle) -> Design:
    """The design, as the folder has it."""
    manifest = bundle.manifest
    sources = {name: bundle.summed(f"sources/{name}") for name in manifest["sources"]}
    translated = {name: bundle.summed(f"translated/{name}") for name in manifest["translated"]}
    script = bundle.summed(SCRIPT_OF_YOSYS).decode("utf-8", "replace") if sources else ""
    timing = timing_of(manifest["timing"]) if manifest["timing"] else None
    return Design(manifest["name"], bundle.circuit(), [_assertion(row) for row in bundle.rows[1:]], manifest["notes"],
                  sources, translated, script, manifest["options"], timing, unread=bundle.unread)


def _assertion(row: Row) -> Assertion:
    return Assertion(row.position, row.kind, row.name, row.file, row.first, row.last, row.of)
