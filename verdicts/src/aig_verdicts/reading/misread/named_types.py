"""Types with a name and enums that Yosys reads in another way than the standard of SystemVerilog."""

from __future__ import annotations

from typing import Dict, Iterator, Sequence

from .contexts import COMPARISONS, leaves, operators, roots
from ..text.lax import ranges
from .scope import UNSIZED, Scope
from ..text.tree import Node

_NEVER_NEGATIVE = ("ADD", "MUL", "SHIFT_LEFT", "SHIFT_SLEFT", "BIT_AND", "BIT_OR", "BIT_XOR", "TERNARY")


def _types(scope: Scope) -> Dict[str, Node]:
    """What each name of a type is declared as: a variable, a struct or a union."""
    return {it.name: it.parts[0] for it in scope.module.all() if it.kind == "TYPEDEF" and it.parts}


def _resolved(declaration: Node, types: Dict[str, Node]) -> Node:
    """What a declaration has as its type in the end."""
    seen = set()
    while True:
        name = next((it.name for it in declaration.parts if it.kind == "WIRETYPE"), "")
        if name not in types or name in seen:
            return declaration
        seen.add(name)
        declaration = types[name]


def packed(scope: Scope) -> Iterator[str]:
    """Packed arrays of a named type, as `byte_t [1:0] a`."""
    for node in scope.module.all():
        if node.kind == "WIRE" and {"WIRETYPE", "RANGE"} <= {it.kind for it in node.parts}:
            yield node.line


def arrays_of_structs(scope: Scope) -> Iterator[str]:
    """Arrays of a struct or a union, as `pair_t q [0:1]`: Yosys takes `q[0]` for a bit."""
    types = _types(scope)
    for node in scope.module.all():
        if node.kind == "MEMORY" and _resolved(node, types).kind in ("STRUCT", "UNION"):
            yield node.line


def odd_members(scope: Scope) -> Iterator[str]:
    """Parts of members of a struct that do not end with bit 0, or count their bits upwards, as `logic [4:1] m`."""
    odd = {it.name for it in scope.module.all() if it.kind == "STRUCT_ITEM" and (scope.lowest_bit(it) != 0 or scope.is_ascending(it))}
    for node in scope.module.all() if odd else ():
        if node.kind == "IDENTIFIER" and "." in node.name and node.name.split(".")[-1] in odd and ranges(node):
            yield node.line


def negative_enums(scope: Scope) -> Iterator[str]:
    """Enums with a negative value and no type of their own: they are signed, and those of Yosys are not."""
    for item in scope.module.all():
        value = scope.value(item.parts[0]) if item.kind == "ENUM_ITEM" else None
        if value is not None and value < 0 and not item.is_signed:
            yield item.line


def _is_open(declaration: Node) -> bool:
    """Whether a variable or an item is of an enum without a type: its range has the sign, and it has none."""
    return not declaration.is_signed and any(it.is_signed for it in ranges(declaration))


def signed_enums(scope: Scope) -> Iterator[str]:
    """Operators that have an enum without a type among signed values: it is signed, and that of Yosys is not."""
    types = _types(scope)
    open_names = {it.name for it in scope.module.all() if it.kind in ("WIRE", "ENUM_ITEM") and _is_open(_resolved(it, types))}
    for above, root in roots(scope.module) if open_names else ():
        sides = above.parts if above.kind in COMPARISONS else [root]
        found = [it for side in sides for it in leaves(side)]
        others = [it for it in found if not (it.kind == "IDENTIFIER" and it.name in open_names)]
        if len(others) < len(found) and not any(scope.signs.of(it) is False for it in others):
            used = [it for side in sides for it in operators(side)]
            if _matters(scope, above, others) or above.kind in COMPARISONS and any(it.kind not in _NEVER_NEGATIVE for it in used):
                yield root.line


def _matters(scope: Scope, above: Node, others: Sequence[Node]) -> bool:
    """Whether one of the other values may be negative, and is made wider or compared."""
    least = [scope.bounds(it)[0] for it in others]
    is_wider = any(scope.own_width(it) < UNSIZED for it in others) or above.kind in COMPARISONS
    return is_wider and any(it is None or it < 0 for it in least)
