"""Variables of tasks, functions and blocks that keep their value from one call to the next. Yosys makes them x before
each call. Where one is read before it is written, the circuit is that of another design."""

from __future__ import annotations

import re
from typing import Any, Dict, Iterator, Set

from ..text.lax import place
from ..text.rtlil import Text, has_mark

_X = re.compile(r"      update (\S+) \d+'x+")
_OF_CALL = re.compile(r"(?P<called>.*)\$func\$(?:sources/)?(?P<place>.*:\d+)\$\d+\.(?P<name>.*)")

# The commands that leave the cells that an output or another variable reads.
COMMANDS = [
    "read_rtlil kept.il", "proc_clean", "proc_rmdead", "proc_prune", "proc_init", "proc_arst", "proc_mux",
    "proc_dlatch", "proc_dff", "proc_memwr", "proc_clean", "opt_expr -keepdc", "expose w:* w:$* %d a:nosync %d o:* %d i:* %d",
    "opt_clean", "json -o kept.json", "design -reset",
]


def opened(design: Text) -> bool:
    """Takes out what makes such variables x, so that nothing drives what is read of them. Whether there are any."""
    has_any = False
    for module in design.modules:
        marked = [wire for wire in module.of("wire") if has_mark(wire.attributes, "nosync")]
        names = {wire.name for wire in marked if wire.name.startswith("\\")}
        for process in module.of("process") if names else ():
            left = [line for line in process.lines if not _is_reset(line, names)]
            has_any |= len(left) < len(process.lines)
            process.lines = left
    return has_any


def _is_reset(line: str, names: Set[str]) -> bool:
    match = _X.fullmatch(line)
    return match is not None and match[1] in names


def read_before_written(modules: Dict[str, Any]) -> Iterator[str]:
    """The variables that something reads and nothing drives, each with its place."""
    for module in modules.values():
        driven: Set[Any] = set()
        read: Set[Any] = set()
        for port in module["ports"].values():
            if port["direction"] != "output":
                driven.update(port["bits"])
            if port["direction"] != "input":
                read.update(port["bits"])
        for cell in module["cells"].values():
            for port, bits in cell["connections"].items():
                (driven if cell["port_directions"].get(port) == "output" else read).update(bits)
        for name, wire in module["netnames"].items():
            is_one = "nosync" in wire["attributes"] and not name.startswith("$")
            if is_one and any(bit in read and bit not in driven for bit in wire["bits"]):
                yield _described(name, wire)


def _described(name: str, wire: Dict[str, Any]) -> str:
    """The place of a variable, and its name. The result of a function has no place but that of the call."""
    match = _OF_CALL.fullmatch(name)
    if not match:
        return f"{place(wire)}: {name}"
    at = match["place"] if place(wire).endswith((":0", "?")) else place(wire)
    what = "the result" if match["name"] == "$result" else match["name"]
    return f"{at}: {what} of {match['called']}"
