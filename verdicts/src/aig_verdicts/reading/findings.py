"""What is wrong with a circuit that Yosys made, and what a reader of its verdicts has to know."""

from __future__ import annotations

import re
from typing import Any, Dict, Iterator, List, NamedTuple, Sequence

from .misread import kept
from .text import rtlil
from .left_out import source_name
from .text.lax import (
    constant_outputs, drivers_of_a_bit, far_shifts, has_race, place, powers, signed_addresses, signs_of_addresses,
    unknown_items,
)
from .messages import nearest_place
from .misread.rules import SourceTree, used_modules
from .text.netlist import cells, inputs_of
from ..listing import places
from aig.tools import ToolFailed
from .versions import loses_assignments
from .warnings import shown
from .wiring import WAITS, undriven
from .yosys import Yosys

SEVERAL_CLOCKS = ("registers have several clocks or edges, or a clock that is computed or read as data: a frame is the time "
                  "between changes of clocks")
MOST_NOTES = 20
_INSIDE = re.compile(r"(?:sources/)?(.*?:\d+): Identifier `\\?(\S*\.\S*)' is implicitly declared")


class Finding(NamedTuple):
    """The places of what was found, if there are any, and the rest of the message."""

    at: Sequence[str]
    said: str


def look_at_sources(runs: Yosys) -> None:
    """Rejects what Yosys reads in another way, before anything is made of it."""
    tree = _tree(runs)
    for found, said in tree.misread():
        _reject(Finding(found, f": {said}"))
    for found, said in tree.lost():
        if loses_assignments(runs.version()):
            _reject(Finding(found, f": {said}"))


def look_at_instances(runs: Yosys) -> None:
    """Rejects a top module that is an instance below itself: values for its parameters would be those of the instance, too."""
    design = rtlil.read(runs.text("read.il"))
    tops = {source_name(module) for module in design.modules if rtlil.has_mark(module.attributes, "top")}
    same = {module.name for module in design.modules if source_name(module) in tops}
    found = [cell.place for module in design.modules for cell in module.of("cell") if cell.words[1] in same]
    _reject(Finding(found, ": an instance of the top module, and a value of its parameter would count here, too"))


def look(runs: Yosys, modules: Dict[str, Any], flat: Dict[str, Any]) -> None:
    """Rejects what would make a circuit of another design."""
    for match in filter(None, map(_INSIDE.match, runs.warnings)):
        raise ToolFailed(f"{match[1]}: {match[2]} is a name inside of an instance, and Yosys has implicitly declared a wire without a "
                         "driver: make it a port")
    for warning in runs.warnings:
        if "multiple conflicting drivers" in warning:
            raise ToolFailed(f"Yosys: {warning.splitlines()[0]} a wire has several drivers")
    runs.look_at_warnings()
    for finding in _of_wiring(runs, flat):
        _reject(finding)
    for finding in _of_meaning(runs, modules, flat):
        _reject(finding)


def _tree(runs: Yosys) -> SourceTree:
    return SourceTree(runs.text("tree").splitlines(), used_modules(runs.text("read.il")))


def _reject(finding: Finding) -> None:
    if finding.at:
        raise ToolFailed(f"{places(finding.at)}{finding.said}")


def _of_wiring(runs: Yosys, flat: Dict[str, Any]) -> Iterator[Finding]:
    yield Finding(undriven(runs.warnings, next(iter(flat.values()))),
                    " is a wire of Yosys' own that nothing drives: its circuit is not that of the source")
    twice = drivers_of_a_bit(rtlil.read(runs.text("flat.il"))) + constant_outputs(cell for _, cell in cells(flat))
    yield Finding(twice, " has several drivers, or is an input that is driven, and one of them is a constant")


def _of_meaning(runs: Yosys, modules: Dict[str, Any], flat: Dict[str, Any]) -> Iterator[Finding]:
    """What means something else in Verilog, as the modules and the flat one show it."""
    yield Finding(unknown_items(runs.text("read.il").splitlines()),
                    ": an item of a `case` has x or z, which no value is equal to: `casez` and `casex` have items with ?")
    signs = signs_of_addresses(runs.text("tree").splitlines())
    yield Finding([it for module in modules.values() for it in signed_addresses(module, signs)],
                    ": the address of a memory is signed, and Yosys reads a negative one as a positive one: write a 0 in front of one "
                    "without sign, as with {1'b0, a}")
    yield Finding(locals_read_first(runs),
                    " is read before it is written: it keeps its value from one call to the next, and Yosys makes it x: write it first")
    yield Finding(list(far_shifts(rtlil.read(runs.text("read.il")), (cell for _, cell in cells(flat)))),
                    ": a shift by a constant that is negative, or 2^31 or more, and Yosys shifts by another number: shift by less")
    yield Finding(list(powers(cell for _, cell in cells(flat))), ": `**` of values that are no constants: write a shift or a product")
    yield Finding([place(cell) for _, cell in cells(modules) if cell["type"] == "$check"],
                    ": a cell `$check` of Yosys is left, and no assertion was made of it")


def locals_read_first(runs: Yosys) -> List[str]:
    """Variables of tasks, functions and blocks that are read before they are written."""
    design = rtlil.read(runs.text("read.il"))
    if not kept.opened(design):
        return []
    runs.write("kept.il", design)
    warnings = list(runs.warnings)
    runs.run(kept.COMMANDS)
    runs.warnings = warnings
    return list(kept.read_before_written(runs.modules("kept.json")))


# -- what a reader of the verdicts has to know


def live_places(modules: Dict[str, Any]) -> List[str]:
    return [place(cell) for _, cell in cells(modules) if cell["type"] == "$live"]


def notes(runs: Yosys, modules: Dict[str, Any], flat: Dict[str, Any], has_one_clock: bool) -> List[str]:
    """The loudest first."""
    said = [] if has_one_clock else [SEVERAL_CLOCKS]
    said += [f"{places(at)}: {what}" for at, what in _lines(modules, flat, has_one_clock) if at]
    said += [f"{places(at)}: {what}" for at, what in _tree(runs).noted()]
    return said + shown(runs.warnings)[:MOST_NOTES]


def _lines(modules: Dict[str, Any], flat: Dict[str, Any], has_one_clock: bool) -> Iterator[Finding]:
    unknown = [nearest_place(module, cell) for module in modules.values() for cell in module["cells"].values()
               if cell["type"] in ("$eqx", "$nex") and any(bit in ("x", "z") for _, bits in inputs_of(cell) for bit in bits)]
    yield Finding(unknown, "compares with x or z. No value of a circuit is x, so `===` is 0 there and `!==` is 1, also for a register "
                             "without initial value")
    yield Finding(live_places(modules), "no row, for it asks for liveness")
    waits = [place(cell) for _, cell in cells(flat) if WAITS.match(cell["type"])]
    yield Finding(waits if has_one_clock else [], "asynchronous resets and latches follow their inputs once a frame")
    yield Finding([place(cell) for _, cell in cells(flat) if cell["type"] == "$mem_v2" and has_race(cell)],
                    "several blocks write a memory. Where two of them write one word at once, Verilog does not say which value it gets, "
                    "and the circuit takes one of them")
