"""Names for the registers that Yosys makes of assertions and of `$past`. None has a line in it, so no comment moves
them: those of the assertion of row b3 are `value_3` and `when_3`, and that of the second `$past` is `past_2`."""

from __future__ import annotations

import re
from typing import Any, Dict, Mapping

_PAST = re.compile(r"(.*)\$past\$(.*\$\d+)\$(\d+)")
_CLOCKED = re.compile(r"(.*)\$formal\$.*:\d+\$\d+_(?:CHECK|EN)")
_PORTS = (("A", "value"), ("EN", "when"))
# The line in a name that Yosys made of a place in a copy of a source.
_LINE = re.compile(r"(?<!\S)\$\S*?\bsources/[^\s:$]*:\d+\$\S*")
_NUMBER = re.compile(r"(?<=:)\d+(?=\$)")
_DIGITS = 7


def with_even_lines(text: str) -> str:
    """RTLIL whose names have lines of seven digits. Yosys sorts by names: so cells and wires keep their order where a
    comment moves them."""
    return _LINE.sub(lambda it: _NUMBER.sub(lambda number: number[0].zfill(_DIGITS), it[0]), text)


def registers(flat: Mapping[str, Any], rows: Mapping[str, str]) -> Dict[str, str]:
    """The names of these registers, by their wires as `plain` has them. `rows` has the words of cells of assertions, covers
    and assumptions: their positions."""
    module = next(iter(flat.values()))
    return {**_of_past(module), **_of_checks(module, rows)}


def plain(wire: str) -> str:
    """A wire without the marks of `flatten`."""
    return wire.replace("$flatten\\", "")


def _of_checks(module: Mapping[str, Any], rows: Mapping[str, str]) -> Dict[str, str]:
    wires = {tuple(it["bits"]): plain(wire) for wire, it in module["netnames"].items() if _CLOCKED.fullmatch(plain(wire))}
    found = {}
    for cell, row in rows.items():
        for port, word in _PORTS:
            wire = wires.get(tuple(module["cells"][cell]["connections"][port]))
            match = _CLOCKED.fullmatch(wire or "")
            if wire and match:
                found[wire] = f"{match[1]}{word}_{row}"
    return found


def _of_past(module: Mapping[str, Any]) -> Dict[str, str]:
    """`past_1`, `past_2`, .. for each `$past` of an instance in the order of the sources, and `past_1_2` for what the
    first of them keeps for a second edge."""
    found: Dict[str, str] = {}
    numbers: Dict[str, Dict[str, int]] = {}
    for wire in sorted(filter(_PAST.fullmatch, map(plain, module["netnames"])), key=_natural):
        match = _PAST.fullmatch(wire)
        if match:
            calls = numbers.setdefault(match[1], {})
            number, edge = calls.setdefault(match[2], len(calls) + 1), int(match[3])
            found[wire] = f"{match[1]}past_{number}" + f"_{edge + 1}" * (edge > 0)
    return found


def _natural(wire: str) -> str:
    return re.sub(r"\d+", lambda number: number[0].zfill(9), wire)
