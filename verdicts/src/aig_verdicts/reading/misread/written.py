"""Writes of a part of a vector or of a memory's word that Yosys reads in another way than the standard of Verilog."""

from __future__ import annotations

from typing import Iterator, NamedTuple, Optional, Tuple

from .contexts import TO_THE_RIGHT, grows
from ..text.lax import OPERANDS
from .scope import CALLS, EDGES, Scope, names, targets
from ..text.tree import Node


def _index_above(part: Node) -> Optional[Node]:
    """The index of a part `[i -: n]`, which the tree has as one from i + 0 to i + 1 - n."""
    lowest = part.parts[-1]
    if lowest.kind == "SUB" and lowest.parts[0].kind == "ADD" and lowest.parts[0].parts[0].kind == "SELFSZ":
        return lowest.parts[0].parts[0]
    return None


def below(scope: Scope) -> Iterator[str]:
    """Writes of a part whose lowest bit may be below 0, at an index without sign: `q[i -: 2] <= a` for i = 0."""
    for to, part, is_word in scope.part_writes(scope.module):
        index = _index_above(part)
        if index and not scope.is_constant(part) and (is_word or not scope.signs.of(index.parts[0])):
            size, least = scope.value(part.parts[-1].parts[1]), scope.bounds(index)[0]
            if size is None or least is None or least < size - 1:
                yield to.line


def of_words(scope: Scope) -> Iterator[str]:
    """Writes of parts of a memory's words, at a signed index, or at one that may be below the word's lowest bit."""
    for to, part, is_word in scope.part_writes(scope.module):
        if is_word and not scope.is_constant(part):
            least, lowest = scope.bounds(part.parts[-1])[0], scope.lowest_bit(scope.declarations[to.name])
            if least is None or lowest is None or least < lowest:
                yield to.line


def of_ascending_words(scope: Scope) -> Iterator[str]:
    """Writes of parts of words of a memory such as `reg [0:7] m [0:3]`."""
    for to, _, is_word in scope.part_writes(scope.module):
        if is_word and scope.is_ascending(scope.declarations[to.name]):
            yield to.line


def of_latches(scope: Scope) -> Iterator[str]:
    """Parts of latches that have a lowest bit but 0, or count their bits upwards, or are written in part below it."""
    for block in scope.module.all():
        if block.kind == "ALWAYS" and not any(it.kind in EDGES for it in block.parts):
            whole = {to.name for top in block.parts for part in top.parts for it in [part, *part.parts]
                     if it.kind in ("ASSIGN_EQ", "ASSIGN_LE") for to in targets(it.parts[0]) if not to.parts}
            for to, part, is_word in scope.part_writes(block):
                declaration = scope.declarations[to.name]
                is_odd = scope.lowest_bit(declaration) != 0 or scope.is_ascending(declaration)
                least = scope.bounds(part.parts[-1])[0]
                is_below = len(part.parts) > 1 and (least is None or least < 0)
                if not is_word and to.name not in whole and not scope.is_constant(part) and (is_odd or is_below):
                    yield to.line


# -- values that have another width than what they are written to


class _Alone(NamedTuple):
    """How the standard computes a value: its width and sign. Yosys computes it in a larger width, where signed operands
    keep their signs or do not."""

    width: int
    is_signed: bool
    keeps_signs: bool


def _differs(scope: Scope, value: Node, needed: int, alone: _Alone) -> bool:
    """Whether so many of its low bits are others in the larger width."""
    if value.kind not in OPERANDS:
        return alone.is_signed and not alone.keeps_signs and scope.own_width(value) < needed
    if value.kind in TO_THE_RIGHT:
        by = scope.value(value.parts[1]) if value.kind.startswith("SHIFT") else None
        if by is None or needed + by > alone.width:
            return alone.is_signed or any(grows(value.parts[k]) for k in OPERANDS[value.kind])
        needed += by
    if value.kind == "POW" and alone.is_signed:
        return True
    return any(_differs(scope, value.parts[k], needed, alone) for k in OPERANDS[value.kind])


def _width_of_part(scope: Scope, part: Node) -> Optional[int]:
    """The width of a part: `[i]`, `[5:2]`, `[i +: n]` or `[i -: n]`."""
    if len(part.parts) == 1 or scope.is_constant(part):
        return scope.width(part)
    if _index_above(part):
        return scope.value(part.parts[-1].parts[1])
    above = part.parts[0]  # i + n - 1
    return scope.value(above.parts[0].parts[1]) if above.kind == "SUB" and above.parts[0].kind == "ADD" else None


def _is_lost(scope: Scope, value: Node, written: Tuple[Node, Node, bool]) -> bool:
    """Whether Yosys writes other bits than those of a value to a part. In a vector it computes the value without a sign, in
    the vector's width. In a memory's word it does so with the sign in the word's width, or else in the value's own."""
    to, part, is_word = written
    width, own = _width_of_part(scope, part) or 0, scope.own_width(value)
    is_signed = scope.signs.of(value) is not False
    if is_word and own < width and (is_signed or value.kind in OPERANDS):
        return True
    if not is_word and scope.is_constant(part):
        return False
    whole = scope.width_of_declaration(scope.declarations[to.name])
    alone = _Alone(max(own, width), is_signed, is_word)
    is_larger = whole is None or whole > alone.width
    return (is_larger or is_signed and not is_word) and _differs(scope, value, width, alone)


def narrow(scope: Scope) -> Iterator[str]:
    """Values that Yosys computes in another width than the standard, for the part that they are written to."""
    for node in scope.module.all():
        if node.kind in ("ASSIGN_EQ", "ASSIGN_LE") and node.parts[0].kind == "IDENTIFIER":
            yield from (it[0].line for it in scope.part_writes(node) if _is_lost(scope, node.parts[1], it))
        elif node.kind in CALLS:
            for argument, given in scope.outputs_given(node):
                width = scope.width_of_declaration(argument) or 0
                for to, part, _ in scope.parts_in(given):
                    if argument.is_signed and not scope.is_constant(part) and width < (_width_of_part(scope, part) or width + 1):
                        yield to.line


# -- braces on the left of an assignment


def _braces(scope: Scope, block: Node, kinds: Tuple[str, ...]) -> Iterator[Node]:
    """Assignments to braces that have no word of a memory: Yosys writes the names of others one by one."""
    for node in block.all():
        if node.kind in kinds and node.parts[0].kind == "CONCAT":
            found = (scope.declarations.get(it.name) for it in targets(node.parts[0]))
            if not any(it is not None and it.kind == "MEMORY" for it in found):
                yield node


def in_braces(scope: Scope) -> Iterator[str]:
    """Parts at a variable index among braces that are written: `{q[i], r} = a`."""
    for node in _braces(scope, scope.module, ("ASSIGN", "ASSIGN_EQ", "ASSIGN_LE")):
        if any(not names(part) <= scope.constants for to in targets(node.parts[0]) for part in to.parts):
            yield node.line


def also_in_braces(scope: Scope) -> Iterator[str]:
    """Braces with a variable that its block also writes at a variable index, and another that it does not: `{r, q} <= a;
    q[i] <= b`."""
    for block in scope.blocks():
        late = [it for it in block.all() if it.kind == "ASSIGN_LE" and it.parts[0].kind == "IDENTIFIER"]
        parts = {to.name for it in late for to, part, is_word in scope.parts_in(it.parts[0])
                 if not is_word and not names(part) <= scope.constants}
        for node in _braces(scope, block, ("ASSIGN_LE",)):
            if len({it.name in parts for it in targets(node.parts[0])}) == 2:
                yield node.line
