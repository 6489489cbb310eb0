"""Blocks whose assignments Yosys takes in another order than the standard of Verilog, or in one of several."""

from __future__ import annotations

from typing import Iterator, Sequence, Set, Tuple

from .scope import EDGES, Scope, declared, targets
from ..text.tree import Node


def late_before_blocking(scope: Scope) -> Iterator[str]:
    """Blocking assignments after a nonblocking one of the same variable, in one block. In a loop, each is after the
    other."""
    for block in scope.blocks():
        late: Set[str] = set()
        loops = [it for it in block.all() if it.kind in ("FOR", "WHILE", "REPEAT")]
        for part in [block, *loops]:
            for write in scope.writes(part):
                if write.is_late:
                    late.add(write.name)
                elif write.name in late:
                    yield write.place


def races(scope: Scope) -> Iterator[str]:
    """Variables that a clocked block writes at once, and another one reads at the same edge, also through wires."""
    clocked = [_Clocked(scope, it) for it in scope.module.all() if it.kind == "ALWAYS" and _edges(it)]
    reads = [(_read(it), {to.name for to in targets(it.parts[0])}) for it in scope.module.all() if it.kind == "ASSIGN"]
    for it in scope.module.all():
        if it.kind == "ALWAYS" and not _edges(it):
            written = {write.name for write in scope.writes(it)}
            reads.append((_read(it) - written, written))
    for block in clocked:
        for write in block.at_once:
            reached = _reached({write.name}, reads)
            if any(other is not block and other.edges & block.edges and reached & other.read for other in clocked):
                yield write.place


class _Clocked:
    """A clocked block: its edges, what it writes at once, and what it reads and does not write."""

    def __init__(self, scope: Scope, block: Node):
        own = declared(block)
        writes = list(scope.writes(block))
        self.edges = _edges(block)
        self.at_once = [it for it in writes if not it.is_late and it.name not in own]
        self.read = _read(block) - own - {it.name for it in writes}


def _edges(block: Node) -> Set[Tuple[str, str]]:
    return {(it.kind, it.parts[0].name) for it in block.parts if it.kind in EDGES}


def _read(node: Node) -> Set[str]:
    """The names that a statement reads."""
    written = {id(to) for it in node.all() if it.kind.startswith("ASSIGN") and it.parts for to in targets(it.parts[0])}
    return {it.name for it in node.all() if it.kind == "IDENTIFIER" and id(it) not in written}


def _reached(names: Set[str], reads: Sequence[Tuple[Set[str], Set[str]]]) -> Set[str]:
    """The names that depend on these by wires."""
    reached, size = set(names), 0
    while len(reached) > size:
        size = len(reached)
        for read, written in reads:
            if reached & read:
                reached |= written
    return reached
