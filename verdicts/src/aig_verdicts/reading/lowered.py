"""The assertions of a newer Yosys in the form of Yosys 0.23, before `proc` runs.

Since 0.37 Yosys writes an assertion as a cell `$check` beside the process that enables it, and `proc` then takes an
asynchronous reset for never active: an assertion under `if (!rst_n)` is lost, and one under its `else` is asserted in
reset too. Here each `$check` becomes an `$assert`, `$assume`, `$cover`, `$live` or `$fair`. At a clock it reads two
registers of the process, `$formal$FILE:LINE$K_CHECK` and `.._EN`, so `proc` gives them the resets of the process.
Nothing here guesses: a form that is not known ends with a ToolFailed."""

from __future__ import annotations

import re
from dataclasses import dataclass
from typing import Dict, Iterator, List

from .text.rtlil import Item, Module, Text, source_in
from aig.tools import ToolFailed

FLAVORS = ("assert", "assume", "cover", "live", "fair")
# What a cell `$check` has, and what the cells of Yosys 0.23 have. Another parameter or port may change what it means.
_PARAMETERS = {"FLAVOR", "TRG_ENABLE", "TRG_WIDTH", "TRG_POLARITY", "PRIORITY", "FORMAT", "ARGS_WIDTH"}
_PORTS = {"A", "EN", "TRG", "ARGS"}
_OLD_PORTS = {"A", "EN"}
_ALWAYS, _UNKNOWN = "1'1", "1'x"
_ASSIGNED = re.compile(r"( *)assign (\S+) 1'([01])")
_EVENT = re.compile(r"    sync (posedge|negedge|global)\b")


def lower(design: Text) -> None:
    """Makes the checks of all modules those of Yosys 0.23, and drops cells `$print`."""
    number = 0
    for module in design.modules:
        for cell in module.of("cell"):
            if cell.words[1][1:] in FLAVORS and set(cell.parts("connect")) != _OLD_PORTS:
                raise _unknown(cell, f"a cell {cell.words[1]} with other ports")
        cells = [cell for cell in module.of("cell") if cell.words[1] == "$check"]
        checks = [_Check.of(cell, number + k) for k, cell in enumerate(cells)]
        number += len(checks)
        module.items = [item for item in module.items if item.kind != "cell" or item.words[1] not in ("$check", "$print")]
        _lower(module, checks)


def _unknown(cell: Item, what: str) -> ToolFailed:
    return ToolFailed(f"{cell.place}: this Yosys writes an assertion in a form that aig-verdicts does not know: {what}")


@dataclass
class _Check:
    """A cell `$check`, and what its process says of it.

    assigned  how often the process says whether it is enabled
    clocks    the edges that the process waits for
    at_edges  whether it is about edges, of clocks or of the global clock
    """

    cell: Item
    flavor: str
    reads: str
    enable: str
    edges: int
    is_initial: bool
    stem: str
    assigned: int = 0
    clocks: int = 0
    at_edges: bool = False

    @staticmethod
    def of(cell: Item, number: int) -> _Check:
        """The parts of a cell of a form that is known."""
        parameters, ports = cell.parts("parameter"), cell.parts("connect")
        if set(parameters) != _PARAMETERS or set(ports) != _PORTS:
            raise _unknown(cell, "a cell $check with other parts")
        flavor = parameters["FLAVOR"].strip('"')
        if flavor not in FLAVORS:
            raise _unknown(cell, f"the kind {flavor}")
        edges = _number(cell, parameters["TRG_WIDTH"])
        is_initial = _number(cell, parameters["TRG_ENABLE"]) == 1 and edges == 0
        return _Check(cell, flavor, ports["A"], ports["EN"], edges, is_initial, f"$formal${cell.begin}${number}")

    def wire(self, ending: str) -> str:
        return f"{self.stem}_{ending}"

    def look(self) -> None:
        """Stops where its process is not one that is known."""
        is_always = self.enable == _ALWAYS and not self.is_initial
        if self.assigned < 2 and not is_always:
            raise _unknown(self.cell, "a process that does not say when it is enabled")
        if self.edges != self.clocks:
            raise _unknown(self.cell, f"{self.edges} edges beside a process with {self.clocks}")


def _number(cell: Item, text: str) -> int:
    """The number of a parameter, which is `3` or `32'00..011`."""
    match = re.fullmatch(r"(\d+)|\d+'([01]*)", text)
    if not match:
        raise _unknown(cell, f"the number {text}")
    return int(match[1]) if match[1] else int(match[2] or "0", 2)


def _lower(module: Module, checks: List[_Check]) -> None:
    enabled = {check.enable: check for check in checks if check.enable != _ALWAYS}
    module.items = [item for item in module.items if item.kind != "wire" or item.name not in enabled]
    for process in module.of("process"):
        process.lines = [*_with_registers(process.lines, enabled)]
    for check in checks:
        check.look()
        _declare(module, check)
        module.items += _cells(check)


def _with_registers(lines: List[str], enabled: Dict[str, _Check]) -> Iterator[str]:
    """The lines of a process that says too what its checks read, and keeps it at its edges."""
    own: List[_Check] = []
    for line in lines:
        assigned = _ASSIGNED.fullmatch(line)
        check = enabled.get(assigned[2]) if assigned else None
        if assigned and check:
            check.assigned += 1
            own += [] if check in own else [check]
            is_on = assigned[3] == "1"
            yield f"{assigned[1]}assign $0{check.wire('CHECK')} {check.reads if is_on else _UNKNOWN}"
            value = check.wire("START") if is_on and check.is_initial else f"1'{assigned[3]}"
            yield f"{assigned[1]}assign $0{check.wire('EN')} {value}"
            continue
        yield line
        event = _EVENT.match(line)
        for check in own if event else ():
            check.at_edges = True
            check.clocks += event is not None and event[1] != "global"
            for ending in ("CHECK", "EN"):
                yield f"      update {check.wire(ending)} $0{check.wire(ending)}"


def _declare(module: Module, check: _Check) -> None:
    """The wires of a check. Its registers are named after its place, as the names of signals are made of that."""
    place = [line for line in check.cell.attributes if source_in(line)]
    reads, enable = check.wire("CHECK"), check.wire("EN")
    for wire in [f"$0{reads}", f"$0{enable}"] * (check.assigned > 0) + [reads] * check.at_edges + [check.wire("START")] * check.is_initial:
        module.declare(wire, attributes=place)
    if check.at_edges:
        module.declare(enable, attributes=[*place, "  attribute \\init 1'0"])


def _cells(check: _Check) -> Iterator[Item]:
    start, reads, enable = check.wire("START"), check.wire("CHECK"), check.wire("EN")
    if not check.assigned:
        reads, enable = check.reads, check.enable
    elif not check.at_edges:
        reads, enable = f"$0{reads}", f"$0{enable}"
    if check.is_initial:
        yield Item([], [f"  cell $initstate {start}_cell", f"    connect \\Y {start}", "  end"])
    yield Item(check.cell.attributes, [
        f"  cell ${check.flavor} {check.cell.name}", f"    connect \\A {reads}", f"    connect \\EN {enable}", "  end"])
