"""What `recheck` shows of a bundle: its own words, and of the sender nothing but names. Notes, versions, lines of sources
and what a simulator said there could be anything."""

from __future__ import annotations

from dataclasses import replace
from typing import Any, Dict, List, NamedTuple, Sequence

from .bundle import Bundle, Wrong
from .manifest import asked_of
from .properties import modules_and_signals
from .row import Row
from .simulated import Simulated
from .table import Table


class Audited(NamedTuple):
    """A bundle as its auditor sees it.

    manifest    its manifest, with the notes and versions of the auditor
    rows        its rows, without notes and origins
    is_own      whether the sources are the auditor's files
    """

    bundle: Bundle
    manifest: Dict[str, Any]
    rows: List[Row]
    is_own: bool

    def read(self, name: str) -> bytes:
        """The bytes of a file. Sources of the sender are not shown."""
        if name.startswith("sources/") and not self.is_own:
            raise Wrong(f"{name} is the sender's")
        return self.bundle.summed(name)


def audited(bundle: Bundle, aig: str, said: Simulated, is_own: bool, is_made_again: bool) -> Audited:
    """What is shown of a bundle that `aig`, in this version, has checked, and of which Yosys perhaps made the circuit again."""
    options = bundle.manifest["options"]
    has_choice = any(options.get(it) for it in ("defines", "free", "parameters", "asserts"))
    has_choice |= options.get("conditions") is False
    manifest = {**bundle.manifest, "versions": {"aig": aig}, "notes": [options_of(bundle, is_made_again)] if has_choice else [],
                "simulated": said.facts()}
    return Audited(bundle, manifest, [replace(row, notes=[], origin="") for row in bundle.rows], is_own)


def options_of(bundle: Bundle, is_made_again: bool) -> str:
    """How the sources are read: the sender says it, and it is so where Yosys made the circuit again in that way."""
    options = bundle.manifest["options"]
    macros, parameters = (", ".join(options.get(it, [])) for it in ("defines", "parameters"))
    free, signals = map(", ".join, modules_and_signals(options.get("free", [])))
    said = [f"as module {bundle.manifest['name']}", f"with the macros {macros}" if macros else "",
            f"with the parameters {parameters}" if parameters else "",
            f"without the bodies of the modules {free}" if free else "",
            f"with any value of {signals}" if signals else "",
            "without asking whether the conditions of assertions are ever true" if options.get("conditions") is False else "",
            f"with {', '.join(options['asserts'])} in module {options['module']}" if options.get("asserts") else ""]
    begin = "" if is_made_again else "the bundle says that "
    return f"{begin}the sources are read {', '.join(filter(None, said))}"


def table_of(bundle: Bundle, rows: Sequence[Row], simulated: Simulated = Simulated()) -> Table:
    """The table of a bundle, whose rows are these."""
    return Table.of(rows, bundle.circuit(), asked_of(bundle.manifest), bundle.unread, simulated)
