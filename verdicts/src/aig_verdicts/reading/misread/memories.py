"""Memories that Yosys reads in another way than the standard of Verilog."""

from __future__ import annotations

from typing import Iterator, Set

from ..text.lax import addresses, ranges
from .scope import Scope, targets
from ..text.tree import Node

_FILES = ("$readmemh", "$readmemb")


def filled_before(scope: Scope) -> Iterator[str]:
    """Files that are read into a memory after an assignment to its words: `m[k] = 0` in a loop, then `$readmemh`."""
    filled: Set[str] = set()
    for block in scope.blocks():
        for node in block.all() if block.kind == "INITIAL" else ():
            if node.kind == "TCALL" and node.name in _FILES and any(it.name in filled for it in node.parts[1:2]):
                yield node.line
            elif node.kind in ("ASSIGN_EQ", "ASSIGN_LE"):
                filled |= {it.name for it in targets(node.parts[0])}


def negative_addresses(scope: Scope) -> Iterator[str]:
    """Memories that have words at negative addresses."""
    for node in scope.module.all():
        if node.kind == "MEMORY":
            bounds = [scope.value(it) for dimension in addresses(node) for it in dimension.parts]
            if any(it is not None and it < 0 for it in bounds):
                yield node.line


def inner_addresses(scope: Scope) -> Iterator[str]:
    """Addresses of a memory of several dimensions where one but the first may be out of its range. Yosys then takes a
    word of the next row."""
    for node in scope.module.all():
        declaration = scope.declarations.get(node.name) if node.kind == "IDENTIFIER" else None
        if declaration and declaration.kind == "MEMORY":
            for index, dimension in list(zip(ranges(node), addresses(declaration)))[1:]:
                if not scope.is_constant(index) and not _is_inside(scope, index.parts[-1], dimension):
                    yield node.line


def _is_inside(scope: Scope, index: Node, dimension: Node) -> bool:
    least, most = scope.bounds(index)
    ends = [scope.value(it) for it in dimension.parts]
    known = [it for it in ends if it is not None]
    if len(known) != len(ends) or least is None or most is None:
        return False
    first, last = (0, known[0] - 1) if len(known) == 1 else (min(known), max(known))
    return first <= least and most <= last
