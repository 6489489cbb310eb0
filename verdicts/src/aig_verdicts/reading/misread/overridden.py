"""Assignments with <= that Yosys newer than 0.52 loses: inside of an `if` or a `case`, it lets an `if` or a `case` count
more than an assignment after it, unless the branch has one of the same bits before them."""

from __future__ import annotations

from typing import Dict, FrozenSet, Iterator, List, NamedTuple, Optional, Set

from ..text.lax import ranges
from .scope import Scope, names, targets
from ..text.tree import Node

_BRANCHES = ("COND", "CONDX", "CONDZ")
_LOOPS = ("FOR", "WHILE", "REPEAT")


class _Part(NamedTuple):
    """What an assignment writes.

    name      of the variable, or of a member of it, as `pair.first`
    is_whole  whether that is all of the name
    bits      the least and the greatest index, where they are known
    counter   the loop's variable that is the index
    """

    name: str
    is_whole: bool
    bits: Optional[range]
    counter: str

    def may_meet(self, other: _Part, again: FrozenSet[str]) -> bool:
        """Whether some bit may be one of both. In the next round of a loop, its variable has another value."""
        if self.name != other.name:
            return self.name.startswith(f"{other.name}.") or other.name.startswith(f"{self.name}.")
        if self.counter and self.counter == other.counter and self.counter in again:
            return False
        return self.bits is None or other.bits is None or _meet(self.bits, other.bits)

    def meets(self, other: _Part) -> bool:
        """Whether some bit is one of both, for sure."""
        if self.name != other.name:
            return (self.is_whole and other.name.startswith(f"{self.name}.")
                    or other.is_whole and self.name.startswith(f"{other.name}."))
        if self.is_whole or other.is_whole:
            return True
        return self.bits is not None and other.bits is not None and _meet(self.bits, other.bits)


class _Parts:
    """What was written, by its variable."""

    def __init__(self) -> None:
        self._found: Dict[str, Set[_Part]] = {}

    def add(self, part: _Part) -> None:
        self._found.setdefault(part.name.partition(".")[0], set()).add(part)

    def near(self, part: _Part) -> Set[_Part]:
        """What is of the same variable."""
        return self._found.get(part.name.partition(".")[0], set())


def lost(scope: Scope) -> Iterator[str]:
    """The assignments that an `if` or a `case` before them overrides."""
    tasks = [it for it in scope.subroutines.values() if it.kind == "TASK"]
    for block in [*scope.blocks(), *tasks]:
        for branch in block.all():
            if branch.kind in _BRANCHES:
                yield from _Branch(scope).lost(branch.parts, frozenset())


class _Branch:
    """A branch of an `if` or a `case`: what was written so far, by itself and by what is inside of it."""

    def __init__(self, scope: Scope):
        self._scope = scope
        self._own, self._inner = _Parts(), _Parts()
        self._called: List[str] = []
        self._changing = {*scope.variables} - scope.counters

    def lost(self, statements: List[Node], again: FrozenSet[str]) -> Iterator[str]:
        for it in statements:
            if it.kind == "ASSIGN_LE":
                yield from self._assigned(it, again)
            elif it.kind == "CASE":
                for part in self._written(it):
                    self._inner.add(part)
            elif it.kind == "BLOCK":
                yield from self.lost(it.parts, again)
            elif it.kind in _LOOPS:
                yield from self.lost(it.parts, again)
                yield from self.lost(it.parts, again | {to.name for to in _counters(it)})
            elif it.kind == "TCALL" and it.name in self._scope.subroutines and it.name not in self._called:
                self._called.append(it.name)
                yield from self.lost(self._scope.subroutines[it.name].parts, again)
                self._called.pop()

    def _assigned(self, node: Node, again: FrozenSet[str]) -> Iterator[str]:
        for part in self._parts(node):
            is_late = any(part.may_meet(it, again) for it in self._inner.near(part))
            if is_late and not any(part.meets(it) for it in self._own.near(part)):
                yield node.line
            self._own.add(part)

    def _written(self, node: Node) -> Iterator[_Part]:
        for body in [node, *(self._scope.subroutines[it] for it in self._scope.reached(node))]:
            for it in body.all():
                if it.kind == "ASSIGN_LE":
                    yield from self._parts(it)

    def _parts(self, node: Node) -> Iterator[_Part]:
        """What is written at an index that is a constant when loops are unrolled. Yosys takes other ones rightly."""
        for to in targets(node.parts[0]):
            found = ranges(to)[:1]
            if not any(names(it) & self._changing for it in found):
                ends = [self._scope.value(it) for each in found for it in each.parts if not names(it)]
                known = [it for it in ends if it is not None]
                is_known = found and len(known) == len(found[0].parts)
                bits = range(min(known), max(known) + 1) if is_known else None
                yield _Part(to.name, not found, bits, _counter(found))


def _counters(loop: Node) -> Iterator[Node]:
    return targets(loop.parts[0].parts[0]) if loop.kind == "FOR" else iter(())


def _counter(found: List[Node]) -> str:
    index = found[0].parts if found else []
    return index[0].name if len(index) == 1 and index[0].kind == "IDENTIFIER" and not index[0].parts else ""


def _meet(one: range, other: range) -> bool:
    return one.start < other.stop and other.start < one.stop
