"""Loops that Yosys unrolls in another way than the standard of Verilog."""

from __future__ import annotations

from typing import Iterator, NamedTuple, Sequence

from .contexts import COMPARISONS, TO_THE_RIGHT, grows, leaves, operators, roots
from .counted import Type, may_be_negative, types
from .scope import Scope, declared, names
from ..text.tree import Node

_BY_WIDTH = ("CONCAT", "REPLICATE", "REDUCE_AND", "TO_SIGNED")
_BY_WIDTH_BELOW_ZERO = ("TO_UNSIGNED", "REDUCE_XOR", "REDUCE_XNOR")
_OF_BITS = ("BIT_AND", "BIT_OR", "BIT_XOR")
_NEVER_NEGATIVE = ("ADD", "MUL", "SHIFT_LEFT", "SHIFT_SLEFT", *_OF_BITS)
_WRITES = ("ASSIGN", "ASSIGN_EQ", "ASSIGN_LE")


def changed_counters(scope: Scope) -> Iterator[str]:
    """Loops whose body changes the variable that they count with."""
    for loop in scope.module.all():
        if loop.kind == "FOR":
            counter, body = loop.parts[0].parts[0].name, loop.parts[3]
            if counter not in declared(body) and any(write.name == counter for write in scope.writes(body)):
                yield loop.line


class _Counter(NamedTuple):
    """A variable of a loop that has another type in some rounds than it is declared with. Where it may be negative, both
    types are signed."""

    name: str
    declared: Type
    read: Type
    is_negative: bool


def _of_other_type(scope: Scope, loop: Node) -> Iterator[_Counter]:
    """Yosys gives the variable the type of its first value in the first round, and in later ones that of its step. Only in
    a loop that generates may it become narrower."""
    name, first = (it for it in loop.parts[0].parts)
    others = [it for it in leaves(loop.parts[2].parts[1]) if it.name != name.name]
    for declared in types(scope, name.name):
        least = declared.width * (loop.kind == "FOR")
        in_first = Type(max(least, scope.own_width(first)), scope.signs.of(first) is not False)
        keeps_sign = False not in map(scope.signs.of, others)
        later = Type(max([declared.width, *map(scope.own_width, others)]), declared.is_signed and keeps_sign)
        is_negative = may_be_negative(scope, loop, declared)
        yield from (_Counter(name.name, declared, it, is_negative) for it in {in_first, later} if it != declared)


def odd_counters(scope: Scope) -> Iterator[str]:
    """Places in loops where the width or the sign of the loop's variable matters, which Yosys has forgotten."""
    cases = {id(item): it for it in scope.module.all() if it.kind == "CASE" for item in it.parts[1:]}
    for loop in scope.module.all():
        for counter in _of_other_type(scope, loop) if loop.kind in ("FOR", "GENFOR") else ():
            for above, root in roots(loop.parts[3]):
                within = cases.get(id(above), above)
                if _reads(counter, root) and not _Place(scope, counter, within, root).is_harmless():
                    yield root.line


def _reads(counter: _Counter, root: Node) -> bool:
    return any(_is_it(counter, it) for it in leaves(root))


def _is_it(counter: _Counter, leaf: Node) -> bool:
    """Whether a part of an expression is the whole variable, perhaps made unsigned, as what a shift shifts by is."""
    while leaf.kind in ("TO_UNSIGNED", "SELFSZ"):
        leaf = leaf.parts[0]
    return leaf.kind == "IDENTIFIER" and leaf.name == counter.name and not leaf.parts


class _Place:
    """An expression that reads the variable of a loop, with what it is compared with. No operator gives a width to it."""

    def __init__(self, scope: Scope, counter: _Counter, above: Node, root: Node):
        self._scope, self._counter, self._above = scope, counter, above
        self._sides = _sides(above, root)
        self._written = scope.own_width(above.parts[0]) if above.kind in _WRITES else 0
        self._others = [it for side in self._sides for it in leaves(side) if not _is_it(counter, it)]
        self._operators = {it.kind for side in self._sides for it in operators(side)}

    def is_harmless(self) -> bool:
        """Whether it has the same value with both types. The variable has the same number in both."""
        declared, read, is_negative = self._counter.declared, self._counter.read, self._counter.is_negative
        if is_negative and not all(self._scope.signs.of(it) is True for it in self._others):
            return False
        widest = max([self._written, *map(self._scope.own_width, self._others)])
        has_width = max(widest, declared.width) == max(widest, read.width)
        keeps_sign = declared.is_signed == read.is_signed or any(map(self._is_unsigned, self._others))
        negative = [it for it in self._others if self._may_be_negative(it)]
        if has_width and (keeps_sign or not negative and self._operators <= {*TO_THE_RIGHT, *_OF_BITS}):
            return True
        needed = self._written or max(widest, declared.width, read.width)
        if self._operators & {*TO_THE_RIGHT} or not keeps_sign and any(self._scope.own_width(it) < needed for it in negative):
            return False
        if has_width or self._written:
            return len(self._sides) == 1 or not negative and self._operators <= {*_NEVER_NEGATIVE}
        return (keeps_sign or not negative) and not any(map(grows, self._sides)) and not self._is_by_width(bool(negative))

    def _is_by_width(self, is_negative: bool) -> bool:
        """Whether one number has several values here, by the bits that it is written with."""
        kind = self._above.kind
        return kind in _BY_WIDTH or kind in _BY_WIDTH_BELOW_ZERO and (is_negative or self._counter.is_negative)

    def _is_unsigned(self, leaf: Node) -> bool:
        """Whether Yosys, too, has no sign for it."""
        return self._scope.signs.of(leaf) is False and leaf.name not in self._scope.counters

    def _may_be_negative(self, leaf: Node) -> bool:
        least = None if names(leaf) else self._scope.bounds(leaf)[0]
        return self._scope.signs.of(leaf) is not False and (least is None or least < 0)


def _sides(above: Node, root: Node) -> Sequence[Node]:
    """The expressions that have one width and one sign."""
    if above.kind == "CASE":
        return [above.parts[0], *(it for item in above.parts[1:] for it in item.parts if it.kind not in ("BLOCK", "DEFAULT"))]
    return above.parts if above.kind in COMPARISONS else [root]
