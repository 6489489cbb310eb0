"""What Yosys says of a design, as the user reads it: one line, with the file and line of the source first."""

from __future__ import annotations

import re
from enum import Enum
from typing import Any, Dict, List, NamedTuple

from .text.lax import place
from aig.tools import Ran, ToolFailed

_ERROR = re.compile(r"^(?:(?P<place>[^\n]*?:\d+): )?ERROR: (?P<text>.*)$", re.MULTILINE)
_PLACE_OF_CELL = re.compile(r'attribute \\src "(?:[^"|]*\|)*(?P<place>[^"|]*?:\d+)\.')


class Reason(Enum):
    """Why Yosys reads no design, where something can be done about it; the value is in what it says of that."""

    SYNTAX = "syntax error"
    ENDS = "outside initial block is unsupported"  # `$finish` or `$stop` in a clocked block
    REPEATED = "Cannot add procedural assertion"  # two assertions have one name
    OTHER = ""


class Failure(NamedTuple):
    """Why Yosys stopped: a line for the user, and the reason."""

    said: str
    reason: Reason = Reason.OTHER


class NotMade(ToolFailed):
    """Yosys stopped, for this reason."""

    def __init__(self, said: str, reason: Reason = Reason.OTHER):
        super().__init__(said)
        self.reason = reason


def failure(ran: Ran) -> Failure:
    """Why Yosys stopped. An error about a cell of its own has many lines, and one of them has the cell's place."""
    said = (ran.err or ran.out).decode("utf-8", "replace")
    errors = list(_ERROR.finditer(said))
    if errors:
        error = errors[-1]
        found = error["place"] or next((it["place"] for it in _PLACE_OF_CELL.finditer(said, error.end())), "")
        said = f"Yosys: {_text(error['text'])}"
        return Failure(f"{found}: {said}" if found else said, _reason(error["text"]))
    if ran.status is not None and ran.status < 0:
        return Failure(f"yosys was ended by signal {-ran.status}")
    return Failure(f"yosys ended with status {ran.status}: {ran.said}")


def _reason(error: str) -> Reason:
    """The reason, by an error of Yosys without its place."""
    if error.startswith(Reason.SYNTAX.value):
        return Reason.SYNTAX
    return next(it for it in (Reason.ENDS, Reason.REPEATED, Reason.OTHER) if it.value in error)


def _text(error: str) -> str:
    return error.strip().rstrip(".:!")


def _is_known(place_of_cell: str) -> bool:
    return not place_of_cell.endswith((":0", "?"))


def nearest_place(module: Dict[str, Any], cell: Dict[str, Any]) -> str:
    """The place of a cell. Yosys gives line 0 to a few: the place is that of the nearest cell that reads it."""
    if _is_known(place(cell)):
        return place(cell)
    readers: Dict[Any, List[Dict[str, Any]]] = {}
    for other in module["cells"].values():
        for port, bits in other["connections"].items():
            if other["port_directions"].get(port) != "output":
                for bit in bits:
                    readers.setdefault(bit, []).append(other)
    seen, waiting = set(), [cell]
    for it in waiting:
        if _is_known(place(it)):
            return place(it)
        for port, bits in it["connections"].items():
            if it["port_directions"].get(port) == "output":
                waiting += [reader for bit in bits if bit not in seen for reader in readers.get(bit, [])]
                seen.update(bits)
    return place(cell)
