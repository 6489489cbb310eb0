"""What `check` warns of in the flat module: wires of Yosys' own without a driver, and loops of gates."""

from __future__ import annotations

import re
from typing import Any, Dict, Iterator, List, Pattern, Sequence, Set

from .text.lax import place
from .text.rtlil import Module

_UNDRIVEN = re.compile(r"Wire .*?\.(\$\S+)(?: \[(\d+)\])? is used but has no driver")
_LOOP = "found logic loop in module"
_CELL = re.compile(r"cell (\S+) \(\S+\)")
# Cells whose outputs follow an input between two edges.
WAITS = re.compile(r"\$(adff|aldff|dffsr|dlatch|adlatch|sr)")
_Z = re.compile(r" \d+'[01x-]*z")
_CONSTANT = re.compile(r"(?<= )\d+'[01xz-]+(?= |$)")
_WIRE = re.compile(r"wire \\(\S+)")
# Cells that keep or judge what they read: registers, memories, assertions and the like.
_KEEPS = re.compile(r"\$(.*ff.*|.*latch.*|sr|mem.*|assert|assume|cover|live|fair|check|print|scopeinfo)")


def undriven(warnings: Sequence[str], module: Dict[str, Any]) -> List[str]:
    """The places of wires that Yosys made, that nothing drives and that something reads: the circuit has a free value
    there, where the source has another one."""
    found = []
    for match in filter(None, map(_UNDRIVEN.match, warnings)):
        wire = module["netnames"].get(match[1])
        if wire is None or _is_read(wire["bits"][int(match[2] or 0)], module):
            found.append(f"{place(wire) if wire else '?'}: {match[1]}")
    return found


def _is_read(first: Any, module: Dict[str, Any]) -> bool:
    """Whether a named wire, a register, a memory or an assertion depends on a bit."""
    named = {bit for name, wire in module["netnames"].items() if not name.startswith("$") for bit in wire["bits"]}
    readers: Dict[Any, List[Dict[str, Any]]] = {}
    for cell in module["cells"].values():
        for port, bits in cell["connections"].items():
            for bit in bits if cell["port_directions"].get(port) != "output" else ():
                readers.setdefault(bit, []).append(cell)
    seen: Set[Any] = {first}
    waiting = [first]
    while waiting:
        bit = waiting.pop()
        if bit in named:
            return True
        for cell in readers.get(bit, ()):
            if _KEEPS.fullmatch(cell["type"]) or not cell["type"].startswith("$"):
                return True
            new = set(_outputs(cell)) - seen
            seen |= new
            waiting += new
    return False


def _outputs(cell: Dict[str, Any]) -> Iterator[Any]:
    return (bit for port, bits in cell["connections"].items() if cell["port_directions"].get(port) == "output" for bit in bits)


def loops(of_words: Sequence[str], of_gates: Sequence[str], module: Dict[str, Any]) -> List[str]:
    """The places of the cells in loops of the flat module. A loop of words may be none of gates, and a loop of gates may go
    through a latch, which is none of words: it has the places of its wires."""
    found = [module["cells"].get(name.lstrip("\\")) for name in _in_loops(_CELL, of_words)]
    found = found or [module["netnames"].get(name) for name in _in_loops(_WIRE, of_gates)]
    return [place(it) for it in found if it]


def _in_loops(pattern: Pattern[str], warnings: Sequence[str]) -> List[str]:
    return [name for warning in warnings if _LOOP in warning for name in pattern.findall(warning)]


def has_loop(warnings: Sequence[str]) -> bool:
    return any(_LOOP in warning for warning in warnings)


def may_loop(warnings: Sequence[str], module: Dict[str, Any]) -> bool:
    """Whether the gates of a flat module of one clock may have a loop: where its words have one, or go through a latch or an
    asynchronous set or reset."""
    return has_loop(warnings) or any(WAITS.match(cell["type"]) for cell in module["cells"].values())


def driven_inouts(module: Dict[str, Any]) -> Set[str]:
    """The `inout` ports of a flat module that it drives: for a circuit they are outputs. If a driver is off, they have any
    value. Yosys would write them as inputs that are gates."""
    driven = {bit for cell in module["cells"].values() for port, bits in cell["connections"].items()
              if cell["port_directions"].get(port) == "output" for bit in bits}
    driven |= {bit for port in module["ports"].values() if port["direction"] == "input" for bit in port["bits"]}
    return {name for name, port in module["ports"].items()
            if port["direction"] == "inout" and any(bit in driven or isinstance(bit, str) for bit in port["bits"])}


def has_z(text: str) -> bool:
    """Whether a text in RTLIL may have a constant with a z."""
    return _Z.search(text) is not None


def free_z(module: Module) -> bool:
    """Makes each z of a flat module an x, and returns whether there was one. A driver that is off leaves any value, as
    an x does. Yosys 0.23 takes both for free values; since 0.52 it keeps a z, of which no circuit can be made."""
    freed = False
    for item in module.items:
        for at, line in enumerate(item.lines):
            if line.lstrip().startswith("connect ") and '"' not in line and _Z.search(line):
                item.lines[at] = _CONSTANT.sub(lambda it: it[0].replace("z", "x"), line)
                freed = True
    return freed
