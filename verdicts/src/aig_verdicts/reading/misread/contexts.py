"""Where an expression gets its width and its sign: from itself alone, or from what is around it."""

from __future__ import annotations

from typing import Iterator, Optional, Tuple

from ..text.lax import OPERANDS
from ..text.tree import Node

COMPARISONS = ("LT", "LE", "EQ", "NE", "EQX", "NEX", "GE", "GT")
TO_THE_RIGHT = ("SHIFT_RIGHT", "SHIFT_SRIGHT", "DIV", "MOD")
_GROWING = ("ADD", "SUB", "MUL", "POW", "NEG", "BIT_NOT", "BIT_XNOR", "SHIFT_LEFT", "SHIFT_SLEFT")
_GROWING_WITH_SIGN = ("SHIFT_RIGHT", "DIV")


def roots(node: Node) -> Iterator[Tuple[Node, Node]]:
    """The expressions below a node that no operator gives a width to, each with what it is a part of."""
    for it in node.all():
        operands = OPERANDS.get(it.kind, ())
        yield from ((it, part) for k, part in enumerate(it.parts) if k not in operands)


def operators(root: Node) -> Iterator[Node]:
    """An expression's operators whose operands have its width and its sign."""
    if root.kind in OPERANDS:
        yield root
        for k in OPERANDS[root.kind]:
            yield from operators(root.parts[k])


def leaves(root: Node) -> Iterator[Node]:
    """The operands that these operators have in the end."""
    if root.kind in OPERANDS:
        for k in OPERANDS[root.kind]:
            yield from leaves(root.parts[k])
    else:
        yield root


def grows(root: Node, sign: Optional[bool] = False) -> bool:
    """Whether the high bits of an expression of this sign depend on the width that it is computed in."""
    kinds = _GROWING if sign is False else _GROWING + _GROWING_WITH_SIGN
    return any(it.kind in kinds for it in operators(root))
