"""Comparisons that Yosys writes as wide as what is around them, as in `wire [3:0] y = s >= 0`. Of a signed `s >= 0` its pass
`opt_expr -fine` then makes the inverse of one bit in that width, and the upper bits are 1."""

from __future__ import annotations

import re

from .text.rtlil import Module

_COMPARED = ("$lt", "$le", "$ge", "$gt")
_WIDTH = re.compile(r"    parameter \\Y_WIDTH (\d+)")
_VALUE = re.compile(r"    connect \\Y (.*)")


def narrow(module: Module) -> None:
    """Gives each of them one bit, with zeros above it."""
    for number, cell in enumerate([*module.of("cell")]):
        width = int(next((match[1] for match in map(_WIDTH.fullmatch, cell.lines) if match), 1))
        if cell.words[1] in _COMPARED and width > 1:
            wire = f"$compared${number}"
            value = next(match[1] for match in map(_VALUE.fullmatch, cell.lines) if match)
            cell.lines = [_VALUE.sub(lambda _: f"    connect \\Y {wire}", _WIDTH.sub(r"    parameter \\Y_WIDTH 1", line)) for line in cell.lines]
            module.declare(wire)
            module.add(f"  connect {value} {{ {width - 1}'{'0' * (width - 1)} {wire} }}")
