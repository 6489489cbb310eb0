"""Finds the clocks and asynchronous resets of a module of Yosys."""

from __future__ import annotations

import re
from typing import Any, Dict, Iterator, List, Set, Tuple

from .text.netlist import clock_edges
from aig.waves.ranges import of_wire
from ..audit.timing import Timing

_STATES = re.compile(r"\$([a-z]*(dff|latch)|sr|ff|mem|any|assert|assume|cover|live|fair|initstate)")


def timing(flat: Dict[str, Any], is_cycle: bool) -> Timing:
    """The timing of a flat module of Yosys."""
    module = next(iter(flat.values()))
    inputs = {bit: name if len(port["bits"]) == 1 else f"{name}[{of_wire(port).index_of(at)}]" for name, port in module["ports"].items()
              if port["direction"] != "output" for at, bit in enumerate(port["bits"])}
    cells = module["cells"].values()
    edges = {edge for cell in cells for port in clock_edges(cell).values() for edge in port}
    resets = {(bit, edge) for cell in cells for bit, edge in _resets(cell) if bit in inputs}
    begins = sorted(f"{'posedge' if edge else 'negedge'} {inputs[bit]}" for bit, edge in resets)
    enables = {bit for cell in cells if "latch" in cell["type"] for bit in cell["connections"].get("EN", [])}
    if is_cycle:
        clock = next((f"{'posedge' if edge else 'negedge'} {inputs[bit]}" for bit, edge in edges), "")
        return Timing(True, clock, _names(module, enables, inputs), begins)
    return Timing(False, "", _names(module, enables | {bit for bit, _ in edges}, inputs), begins)


def _resets(cell: Dict[str, Any]) -> Iterator[Tuple[Any, int]]:
    """The bits of asynchronous resets, each with the value that is active."""
    for port in ("ARST", "SET", "CLR", "ALOAD"):
        for bit in cell["connections"].get(port, []) if re.match(r"\$(a|sr|dffsr|dlatchsr)", cell["type"]) else []:
            yield bit, int(str(cell["parameters"].get(f"{port}_POLARITY", "1"))[-1])


def _names(module: Dict[str, Any], bits: Set[Any], inputs: Dict[Any, str]) -> List[str]:
    """The inputs that these bits depend on, without a register between."""
    drivers: Dict[Any, List[Any]] = {}
    for cell in module["cells"].values():
        if not _STATES.match(cell["type"]):
            read = [bit for port, bits_of in cell["connections"].items() for bit in bits_of
                    if cell["port_directions"].get(port) != "output"]
            for port, bits_of in cell["connections"].items():
                if cell["port_directions"].get(port) == "output":
                    drivers.update((bit, read) for bit in bits_of)
    seen, left = set(), list(bits)
    while left:
        bit = left.pop()
        if bit not in seen:
            seen.add(bit)
            left += drivers.get(bit, [])
    return sorted({inputs[bit].partition("[")[0] for bit in seen if bit in inputs})
