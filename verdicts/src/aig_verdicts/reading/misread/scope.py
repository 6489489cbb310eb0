"""A module of the sources: its variables, tasks and functions, who writes what, and the values of expressions."""

from __future__ import annotations

import re
from typing import Callable, Dict, Iterator, List, NamedTuple, Optional, Sequence, Set, Tuple

from .contexts import grows
from ..text.lax import OPERANDS, Signs, addresses, ranges
from ..text.tree import Node

EDGES = ("POSEDGE", "NEGEDGE")
CALLS = ("TCALL", "FCALL")
UNSIZED = 32  # bits
_ONE_BIT = re.compile("REDUCE_.*|LOGIC_.*|LT|LE|EQ|NE|EQX|NEX|GE|GT")
Bounds = Tuple[Optional[int], Optional[int]]


def targets(node: Node) -> Iterator[Node]:
    """The names on the left of an assignment."""
    if node.kind == "CONCAT":
        for part in node.parts:
            yield from targets(part)
    elif node.kind == "IDENTIFIER":
        yield node


def declared(node: Node) -> Set[str]:
    """The names that are declared below a node."""
    return {it.name for it in node.all() if it.kind in ("WIRE", "MEMORY")}


def names(node: Node) -> Set[str]:
    """The names in an expression."""
    return {it.name for it in node.all() if it.kind == "IDENTIFIER"}


class Write(NamedTuple):
    """A variable that a statement writes. A nonblocking assignment is a late one."""

    name: str
    is_late: bool
    place: str


class Scope:
    """A module, with its tasks and functions, its parameters, and its variables that are constants where Yosys unrolls
    loops."""

    def __init__(self, module: Node):
        self.module = module
        self.subroutines = {it.name: it for it in module.all() if it.kind in ("TASK", "FUNCTION")}
        self.variables: Dict[str, List[Node]] = {}  # those of a name, also of blocks, tasks and functions
        for it in module.all():
            if it.kind in ("WIRE", "MEMORY") and it.name:
                self.variables.setdefault(it.name, []).append(it)
        self.declarations = {name: each[-1] for name, each in self.variables.items()}
        self.signs = Signs(list(module.all()))
        constants = [it for it in module.all() if it.kind in ("PARAMETER", "LOCALPARAM") and it.parts]
        self._declared_parameters = {it.name: it for it in constants}
        self.parameters: Dict[str, int] = {}
        for name, node in self._declared_parameters.items():
            value = self.value(node.parts[0])
            if value is not None:
                self.parameters[name] = value
        self.counters = {it.parts[0].parts[0].name for it in module.all() if it.kind in ("FOR", "GENFOR")}
        self.constants = self._constants()

    # -- statements

    def reached(self, node: Node) -> Set[str]:
        """The tasks and functions that a node calls, directly or not."""
        found: Set[str] = set()
        waiting = [it.name for it in node.all() if it.kind in CALLS]
        while waiting:
            name = waiting.pop()
            if name in self.subroutines and name not in found:
                found.add(name)
                waiting += [it.name for it in self.subroutines[name].all() if it.kind in CALLS]
        return found

    def writes(self, node: Node) -> Iterator[Write]:
        """What a statement writes, in the order of the source. What a task writes is written where it is called."""
        for it in node.all():
            if it.kind in ("ASSIGN_EQ", "ASSIGN_LE"):
                yield from (Write(to.name, it.kind == "ASSIGN_LE", it.line) for to in targets(it.parts[0]))
            elif it.kind in CALLS:
                for name in sorted(self.reached(it)):
                    own = declared(self.subroutines[name]) | {name}
                    outer = (to for to in self._own_writes(name) if to.name not in own)
                    yield from (to._replace(place=it.line) for to in outer)
                yield from (Write(to.name, False, it.line) for _, given in self.outputs_given(it) for to in targets(given))

    def _own_writes(self, name: str) -> Iterator[Write]:
        for it in self.subroutines[name].all():
            if it.kind in ("ASSIGN_EQ", "ASSIGN_LE"):
                yield from (Write(to.name, it.kind == "ASSIGN_LE", it.line) for to in targets(it.parts[0]))

    def outputs_given(self, call: Node) -> Iterator[Tuple[Node, Node]]:
        """The outputs of the task or function that is called, and what gets each of them."""
        called = self.subroutines.get(call.name)
        arguments = [it for it in called.parts if it.is_input or it.is_output] if called else []
        yield from ((argument, given) for argument, given in zip(arguments, call.parts) if argument.is_output)

    def parts_in(self, given: Node) -> Iterator[Tuple[Node, Node, bool]]:
        """The names on the left of an assignment that are written in part, the range of the part, and whether it is one
        of a word of a memory."""
        for to in targets(given):
            declaration, found = self.declarations.get(to.name), ranges(to)
            words = len(addresses(declaration)) if declaration else len(found)
            if len(found) > words:
                yield to, found[-1], words > 0

    def part_writes(self, below: Node) -> Iterator[Tuple[Node, Node, bool]]:
        """What is written in part by assignments and by outputs of tasks and functions."""
        for node in below.all():
            if node.kind in ("ASSIGN_EQ", "ASSIGN_LE"):
                yield from self.parts_in(node.parts[0])
            elif node.kind in CALLS:
                for _, given in self.outputs_given(node):
                    yield from self.parts_in(given)

    def inputs_given(self, call: Node) -> Iterator[Tuple[Optional[int], Node]]:
        """What a function or task gets, each with the width of the input."""
        called = self.subroutines.get(call.name)
        if called is None:
            yield from ((None, given) for given in call.parts)
            return
        inputs = [it for it in called.parts if it.is_input or it.is_output]
        yield from ((self.width_of_declaration(it), given) for it, given in zip(inputs, call.parts) if it.is_input)

    def _constants(self) -> Set[str]:
        """The names that Yosys may have constants for: parameters, variables of loops, and inputs of tasks and functions
        that get such."""
        found, size = {*self._declared_parameters, *self.counters}, -1
        calls = [it for it in self.module.all() if it.kind in CALLS and it.name in self.subroutines]
        while len(found) > size:
            size = len(found)
            for call in calls:
                inputs = [it for it in self.subroutines[call.name].parts if it.is_input or it.is_output]
                found |= {it.name for it, given in zip(inputs, call.parts) if names(given) <= found}
        return found

    def blocks(self) -> Iterator[Node]:
        return (it for it in self.module.all() if it.kind in ("ALWAYS", "INITIAL"))

    # -- values

    def value(self, node: Node) -> Optional[int]:
        """The value of a constant expression, with the parameters' own values."""
        low, high = self.bounds(node)
        return low if low == high else None

    def is_constant(self, node: Node) -> bool:
        """Whether Yosys has a constant in place of an expression, when loops are unrolled."""
        return names(node) <= {*self.parameters, *self.counters}

    def bounds(self, node: Node) -> Bounds:
        """The least and the greatest value of an expression, as far as that is known."""
        if node.kind == "CONSTANT":
            return (_number(node), _number(node)) if set(node.bits) <= {"0", "1"} else (None, None)
        if node.kind == "IDENTIFIER":
            return self._bounds_of_name(node)
        if node.kind in ("SELFSZ", "TO_UNSIGNED"):
            low, high = self.bounds(node.parts[0])
            return (low, high) if node.kind == "SELFSZ" or low is not None and low >= 0 else (0, None)
        if node.kind == "CONCAT":
            return self.bounds(node.parts[0])[0], None
        if node.kind in ("ADD", "SUB", "MUL", "MOD", "NEG", "SHIFT_LEFT", "POW", "TERNARY"):
            return _combined(node.kind, [self.bounds(part) for part in node.parts])
        return (None if self.signs.of(node) else 0), None

    def _bounds_of_name(self, node: Node) -> Bounds:
        if node.name in self.parameters and not node.parts:
            return self.parameters[node.name], self.parameters[node.name]
        selected = ranges(node)
        declaration = self.declarations.get(node.name)
        width = None
        if selected or declaration:
            width = self.width(selected[-1]) if selected else self.width_of_declaration(self.declarations[node.name])
        if self.signs.of(node):
            return None, None
        return 0, None if width is None else (1 << width) - 1

    def width(self, node: Node) -> Optional[int]:
        """The width of a range."""
        if len(node.parts) == 1:
            return 1
        left, right = (self.value(part) for part in node.parts)
        return None if left is None or right is None else abs(left - right) + 1

    def _ends(self, declaration: Node) -> List[Optional[int]]:
        """The first and the last bit of a word, as they are declared."""
        found = ranges(declaration)[:len(ranges(declaration)) - len(addresses(declaration))]
        return [self.value(it) for it in found[0].parts] if found else []

    def lowest_bit(self, declaration: Node) -> Optional[int]:
        """The lowest bit of a variable or of a memory's word, if that is known."""
        ends = self._ends(declaration)
        known = [it for it in ends if it is not None]
        return None if len(known) < len(ends) else min(known, default=0)

    def is_ascending(self, declaration: Node) -> bool:
        ends = self._ends(declaration)
        return len(ends) == 2 and ends[0] is not None and ends[1] is not None and ends[0] < ends[1]

    def width_of_declaration(self, node: Node) -> Optional[int]:
        found = ranges(node)
        return self.width(found[0]) if found else None if any(it.kind == "WIRETYPE" for it in node.parts) else 1

    def own_width(self, node: Node) -> int:
        """The width that an expression has alone, or that of an unsized one where that is not known."""
        if node.kind == "CONSTANT":
            return len(node.bits)
        if node.kind in OPERANDS:
            return max(self.own_width(node.parts[k]) for k in OPERANDS[node.kind])
        if node.kind in ("TO_SIGNED", "TO_UNSIGNED", "SELFSZ"):
            return self.own_width(node.parts[0])
        if node.kind == "CONCAT":
            return sum(self.own_width(part) for part in node.parts)
        if node.kind == "IDENTIFIER":
            return self._width_of_name(node) or UNSIZED
        if node.kind == "FCALL" and node.name in self.subroutines:
            results = [it for it in self.subroutines[node.name].parts if it.kind == "WIRE" and it.name == node.name]
            return results and self.width_of_declaration(results[0]) or UNSIZED
        return 1 if _ONE_BIT.fullmatch(node.kind) else UNSIZED

    def _width_of_name(self, node: Node) -> Optional[int]:
        selected, declaration = ranges(node), self.declarations.get(node.name)
        if selected:
            return self.width(selected[-1])
        if declaration:
            return self.width_of_declaration(declaration)
        parameter = self._declared_parameters.get(node.name)
        if parameter is None:
            return None
        return self.width(ranges(parameter)[0]) if ranges(parameter) else self.own_width(parameter.parts[0])

    def sign_of_constant(self, node: Node) -> Optional[bool]:
        """Whether a constant expression is signed. A parameter without a range has the sign of its own value."""
        parameter = self._declared_parameters.get(node.name) if node.kind == "IDENTIFIER" and not node.parts else None
        if parameter is None or parameter.is_signed or ranges(parameter):
            return self.signs.of(node)
        return self.sign_of_constant(parameter.parts[0])

    def is_narrow(self, node: Node, width: int) -> bool:
        """Whether an expression is a constant that Yosys computes in its own width, and that needs a larger one."""
        is_constant = names(node) <= {*self._declared_parameters} or names(node) <= self.constants and grows(node, self.signs.of(node))
        return node.kind in OPERANDS and is_constant and self.own_width(node) < width and not self.fits(node)

    def fits(self, node: Node) -> bool:
        """Whether an expression of numbers has its value in its own width, too: `-3'sd1` and `4'd3 + 4'd7` do."""
        if any(it.kind == "IDENTIFIER" for it in node.all()):
            return False
        value, width, is_signed = self.value(node), self.own_width(node), self.signs.of(node) is True
        low, high = (-1 << width - 1, 1 << width - 1) if is_signed else (0, 1 << width)
        return value is not None and low <= value < high


def _number(node: Node) -> int:
    value = int(node.bits or "0", 2)
    return value - (1 << len(node.bits)) if node.is_signed and node.bits.startswith("1") else value


def _power(base: int, exponent: int) -> int:
    result: int = base ** exponent
    return result


def _before(value: int) -> int:
    return value - 1


_TWO_SIDED: Dict[str, Callable[[int, int], int]] = {
    "ADD": int.__add__, "MUL": int.__mul__, "SHIFT_LEFT": int.__lshift__, "POW": _power,
}
_MOST_SHIFTED = 64  # bits: more than any width


def _combined(kind: str, parts: Sequence[Bounds]) -> Bounds:
    """The bounds of an operator's value. Those of products, powers and the like are known where nothing is negative."""
    (low, high), (other_low, other_high) = parts[0], parts[-1]
    if kind == "NEG":
        return _each(int.__neg__, high), _each(int.__neg__, low)
    if kind == "SUB":
        return _each(int.__sub__, low, other_high), _each(int.__sub__, high, other_low)
    if kind == "TERNARY":
        return _each(min, parts[1][0], other_low), _each(max, parts[1][1], other_high)
    if kind != "ADD" and (low is None or other_low is None or low < 0 or other_low < 0):
        return None, None
    if kind == "MOD":
        return 0, _each(_before, other_high)
    if kind in ("SHIFT_LEFT", "POW") and (other_high is None or other_high > _MOST_SHIFTED):
        return None, None
    return _each(_TWO_SIDED[kind], low, other_low), _each(_TWO_SIDED[kind], high, other_high)


def _each(of: Callable[..., int], *values: Optional[int]) -> Optional[int]:
    known = [it for it in values if it is not None]
    return of(*known) if len(known) == len(values) else None
