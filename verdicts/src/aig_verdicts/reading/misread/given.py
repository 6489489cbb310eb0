"""What tasks, functions, instances and items of a `case` get, and Yosys reads in another way than the standard of Verilog:
it computes constant expressions, and those at ports, in their own width."""

from __future__ import annotations

from typing import Iterator, Optional, Sequence, Tuple

from .contexts import grows
from ..text.lax import ranges
from .scope import CALLS, UNSIZED, Scope
from ..text.tree import Node


def lost_results(scope: Scope) -> Iterator[str]:
    """`inout` arguments of tasks and functions: Yosys copies them in, and never out."""
    for subroutine in scope.subroutines.values():
        yield from (it.line for it in subroutine.parts if it.kind == "WIRE" and it.is_input and it.is_output)


def narrow_arguments(scope: Scope) -> Iterator[str]:
    """Constant expressions that a function or task gets. Yosys computes them in their own width: of `f(~2'd1)` the
    input is 2, and not 6."""
    for call in scope.module.all():
        if call.kind in CALLS and not call.name.startswith("$"):
            yield from (it.line for it in call.parts if scope.is_narrow(it, UNSIZED))


def narrow_items(scope: Scope) -> Iterator[str]:
    """Items of a `case` that are constant expressions, and narrower than its selector or another item."""
    for case in scope.module.all():
        if case.kind == "CASE":
            items = [it for item in case.parts[1:] for it in item.parts if it.kind not in ("BLOCK", "DEFAULT")]
            width = max(scope.own_width(it) for it in [case.parts[0], *items])
            yield from (it.line for it in items if scope.is_narrow(it, width))


def given_parameters(each: Sequence[Scope]) -> Iterator[Tuple[Scope, Node, Node]]:
    """The values that instances give to parameters, each with the scope of the instance and the declaration."""
    declared = {scope.module.name: [it for it in scope.module.parts if it.kind == "PARAMETER"] for scope in each}
    for scope in each:
        for cell in scope.module.all():
            if cell.kind == "CELL":
                parameters = declared.get(cell.parts[0].name, [])
                for position, value in enumerate(it for it in cell.parts if it.kind == "PARASET"):
                    found = [it for it in parameters if it.name == value.name] or parameters[position:position + 1]
                    yield from ((scope, value.parts[0], it) for it in found)


def narrow_parameters(each: Sequence[Scope]) -> Iterator[str]:
    """Constant expressions for a parameter with a wider range."""
    for scope, value, parameter in given_parameters(each):
        if ranges(parameter) and scope.is_narrow(value, scope.width(ranges(parameter)[0]) or UNSIZED):
            yield value.line


def _connections(each: Sequence[Scope]) -> Iterator[Tuple[Scope, Node, Optional[int]]]:
    """What instances connect to ports, each with the scope of the instance and the width of the port."""
    widths = {scope.module.name: [(it.name, scope.width_of_declaration(it)) for it in scope.module.parts
                                  if it.kind == "WIRE" and (it.is_input or it.is_output)] for scope in each}
    for scope in each:
        for cell in scope.module.all():
            ports = widths.get(cell.parts[0].name, []) if cell.kind == "CELL" else []
            for position, given in enumerate(it for it in cell.parts if it.kind == "ARGUMENT"):
                named = [it for it in ports if it[0] == given.name] if given.name else ports[position:position + 1]
                yield from ((scope, given.parts[0], width) for _, width in named if given.parts)


def narrow_connections(each: Sequence[Scope]) -> Iterator[str]:
    """Expressions at an input port that is wider than they are. Yosys computes them in their own width: the carry of
    `a + b` is lost."""
    for scope, value, width in _connections(each):
        is_narrow = width is not None and scope.own_width(value) < width
        if is_narrow and grows(value, scope.signs.of(value)) and not scope.fits(value):
            yield value.line


def untyped_parameters(each: Sequence[Scope]) -> Iterator[str]:
    """Values without sign for a parameter that is declared `signed` and has no range. They become signed, and not so in
    Yosys."""
    for scope in each:
        own = (it for it in scope.module.all() if it.kind in ("PARAMETER", "LOCALPARAM") and it.is_signed and it.parts)
        yield from (it.line for it in own if not ranges(it) and scope.sign_of_constant(it.parts[0]) is False)
    for scope, value, parameter in given_parameters(each):
        if parameter.is_signed and not ranges(parameter) and scope.signs.of(value) is not True:
            yield value.line
