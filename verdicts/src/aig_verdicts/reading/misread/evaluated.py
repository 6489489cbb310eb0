"""Functions that get constants alone. Yosys then runs them by itself, and reads some of what is in them in another way
than the standard of Verilog."""

from __future__ import annotations

from typing import Callable, Iterator, List, Sequence, Set

from .contexts import COMPARISONS, TO_THE_RIGHT, grows, leaves, operators, roots
from ..text.lax import ranges
from .scope import UNSIZED, Scope, declared, names, targets
from ..text.tree import Node

_WILD_ITEMS = ("CONDZ", "CONDX")
_WRITES = ("ASSIGN_EQ", "ASSIGN_LE")
# Operands that have no sign for Yosys if they have none in the standard.
_PLAIN = ("CONSTANT", "CONCAT", "REPLICATE", "IDENTIFIER")
# Where an expression stands whose sign and width change nothing around it.
_ALONE = ("CONCAT", "REPLICATE", "RANGE", "SELFSZ", "TO_SIGNED", "TO_UNSIGNED", "TERNARY", "SHIFT_LEFT", "SHIFT_SLEFT",
          "SHIFT_RIGHT", "SHIFT_SRIGHT")


def _items(case: Node) -> List[Node]:
    return [it for item in case.parts[1:] for it in item.parts if it.kind not in ("BLOCK", "DEFAULT")]


def _calls(scope: Scope, finds: Callable[[Scope, Node], bool]) -> Iterator[str]:
    """Calls that may get constants alone, of functions in which something is found, or that call such."""
    found = {name for name, it in scope.subroutines.items() if it.kind == "FUNCTION" and finds(scope, it)}
    for call in scope.module.all() if found else ():
        if call.kind == "FCALL" and scope.reached(call) & found and all(names(it) <= scope.constants for it in call.parts):
            yield call.line


# -- what is wrong in a function


def _has_wildcards(_: Scope, function: Node) -> bool:
    return any(it.kind in _WILD_ITEMS and any(set(item.bits) & set("?xz") for item in it.parts) for it in function.all())


def _has_signed_part(scope: Scope, function: Node) -> bool:
    """Whether a part of a signed variable is where its sign matters: Yosys takes the part for a signed value."""
    signed = {it.name for it in function.all() if it.kind == "WIRE" and it.is_signed}
    for above, root in roots(function):
        parts = [it for it in leaves(root) if it.kind == "IDENTIFIER" and it.name in signed and ranges(it)]
        is_written = above.kind in _WRITES and root is above.parts[0]
        if parts and not is_written and not _is_alone(scope, above, root) and not _has_no_sign(scope, above, root, parts):
            return True
    return False


def _has_no_sign(scope: Scope, above: Node, root: Node, parts: Sequence[Node]) -> bool:
    """Whether another operand of an expression or comparison has no sign: then the parts have none there, for Yosys too."""
    sides = above.parts if above.kind in COMPARISONS else [root]
    others = [it for side in sides for it in leaves(side) if not any(it is part for part in parts)]
    is_power = any(it.kind == "POW" for side in sides for it in operators(side))
    return not is_power and any(it.kind in _PLAIN and scope.signs.of(it) is False and not ranges(it) for it in others)


def _is_alone(scope: Scope, above: Node, root: Node) -> bool:
    """Whether the sign of a part in an expression changes nothing."""
    widths = {scope.own_width(it) for it in leaves(root)}
    if len(widths) > 1 or any(it.kind in TO_THE_RIGHT or it.kind == "POW" for it in operators(root)):
        return False
    if above.kind in _WRITES:
        return scope.own_width(above.parts[0]) <= max(widths)
    return above.kind in _ALONE or above.kind.startswith(("REDUCE_", "LOGIC_"))


def _has_ascending_part(scope: Scope, function: Node) -> bool:
    """Whether a part of a variable such as `reg [0:7] v` is read or written. Yosys takes other bits, or bits of nothing."""
    ascending = {it.name for it in function.all() if it.kind == "WIRE" and scope.is_ascending(it)}
    return any(it.name in ascending and len(part.parts) > 1 for it in function.all() if it.kind == "IDENTIFIER" for part in ranges(it))


def _has_uneven_case(scope: Scope, function: Node) -> bool:
    """Whether items of a `case` have other widths and signs together than alone: Yosys compares each of them alone."""
    for case in function.all():
        if case.kind == "CASE":
            compared = [case.parts[0], *_items(case)]
            width = max(map(scope.own_width, compared))
            signs = [scope.signs.of(it) for it in compared]
            is_mixed = any(it is not True for it in signs)
            for it, sign in zip(compared, signs):
                if scope.own_width(it) < width and (grows(it) or is_mixed and sign is not False):
                    return True
    return False


def _has_narrow_call(scope: Scope, function: Node) -> bool:
    """Whether a function gets an expression that is narrower than its input: Yosys leaves out the width of the input."""
    for call in function.all():
        if call.kind == "FCALL" and not call.name.startswith("$"):
            for width, given in scope.inputs_given(call):
                if scope.own_width(given) < (width or UNSIZED) and grows(given, scope.signs.of(given)):
                    return True
    return False


def _reads_first(_: Scope, function: Node) -> bool:
    """Whether a variable or the result is read that may keep its value from the call before. A part that is written
    counts as the whole, and a body of a loop as one that is run."""
    own = declared(function) | {function.name}
    written = {it.name for it in function.parts if it.is_input}
    read: Set[str] = set()
    for it in function.parts:
        written = _after(it, own, written, read)
    return bool(read) or function.name not in written


def _after(node: Node, own: Set[str], written: Set[str], read: Set[str]) -> Set[str]:
    """The variables that are written after a statement. Adds those that it reads before to `read`."""
    if node.kind in ("WIRE", "LOCALPARAM"):
        return written
    if node.kind in _WRITES:
        read |= (names(node.parts[1]) | {name for to in targets(node.parts[0]) for it in to.parts for name in names(it)}) & own - written
        return written | {to.name for to in targets(node.parts[0])}
    if node.kind == "CASE":
        read |= {name for it in [node.parts[0], *_items(node)] for name in names(it)} & own - written
        ends = [_after(item.parts[-1], own, written, read) for item in node.parts[1:]]
        has_default = any(it.kind == "DEFAULT" for item in node.parts[1:] for it in item.parts)
        return set.intersection(*ends) if has_default else written
    if node.kind in ("BLOCK", "FOR", "WHILE", "REPEAT"):
        in_order = [node.parts[k] for k in (0, 1, 3, 2)] if node.kind == "FOR" else node.parts
        for it in in_order:
            written = _after(it, own, written, read)
        return written
    read |= names(node) & own - written
    return written


# -- the rules


def endless(scope: Scope) -> Iterator[str]:
    """Calls of functions that call themselves, with no constant that could end it."""
    found = {name for name, it in scope.subroutines.items() if name in scope.reached(it)}
    for call in scope.module.all() if found else ():
        if call.kind == "FCALL" and call.name in found and not any(names(it) <= scope.constants for it in call.parts):
            yield call.line


def wildcards(scope: Scope) -> Iterator[str]:
    return _calls(scope, _has_wildcards)


def signed_parts(scope: Scope) -> Iterator[str]:
    return _calls(scope, _has_signed_part)


def ascending_parts(scope: Scope) -> Iterator[str]:
    return _calls(scope, _has_ascending_part)


def uneven_cases(scope: Scope) -> Iterator[str]:
    return _calls(scope, _has_uneven_case)


def narrow_calls(scope: Scope) -> Iterator[str]:
    return _calls(scope, _has_narrow_call)


def read_first(scope: Scope) -> Iterator[str]:
    return _calls(scope, _reads_first)
