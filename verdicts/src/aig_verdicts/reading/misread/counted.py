"""Loops that Yosys counts in another way than the standard of Verilog. It keeps the variable of a loop in the width and
with the sign that its first value and its step have, and not as it is declared."""

from __future__ import annotations

import operator
from typing import Callable, Dict, Iterator, NamedTuple, Optional, Sequence, Set

from .contexts import grows, leaves
from .given import given_parameters
from .scope import UNSIZED, Scope, names
from ..text.tree import Node

_COMPARED: Dict[str, Callable[[int, int], bool]] = {
    "LT": operator.lt, "LE": operator.le, "GT": operator.gt, "GE": operator.ge, "NE": operator.ne}
_TURNED = {"LT": "GT", "LE": "GE", "GT": "LT", "GE": "LE", "NE": "NE"}
_STEPS: Dict[str, Callable[[int, int], int]] = {
    "ADD": operator.add, "SUB": operator.sub, "MUL": operator.mul, "SHIFT_LEFT": operator.lshift}
_WITH_SIDES = ("ADD", "MUL")
# A loop of more rounds is none that Yosys would unfold.
_MOST_ROUNDS = 1 << 20
_LARGEST_SHIFT = 64  # bits


class Type(NamedTuple):
    """A width and a sign."""

    width: int
    is_signed: bool

    def has(self, value: int) -> bool:
        low, high = (-1 << self.width - 1, 1 << self.width - 1) if self.is_signed else (0, 1 << self.width)
        return low <= value < high


def types(scope: Scope, name: str) -> Set[Type]:
    """The types of the variables of a name; a variable of a loop that generates has that of an `integer`."""
    found = scope.variables.get(name, [])
    return {Type(scope.width_of_declaration(it) or UNSIZED, it.is_signed) for it in found} or {Type(UNSIZED, True)}


class _Side(NamedTuple):
    """What the variable is compared with, or changed by: the operator, the other side, and its value where that is known."""

    kind: str
    other: Node
    value: Optional[int]


class _Loop:
    """A loop that counts: the type that its variable is declared with, its first value, its condition and its step. Of the
    names in `given`, instances give others than the values that are known."""

    def __init__(self, scope: Scope, node: Node, declared: Type, given: Set[str]):
        self._scope, self._declared, self._given = scope, declared, given
        self._name = node.parts[0].parts[0].name
        self._first, self._condition, self._next = node.parts[0].parts[1], node.parts[1], node.parts[2].parts[1]

    def is_right(self) -> bool:
        """Whether Yosys counts it as the standard does."""
        return self._has_own_type() or self._is_counted()

    def stays_above_zero(self) -> bool:
        """Whether no round has a negative value, as it counts upwards, or down to a bound."""
        bound, step, first = self._bound(), self._step(), self._known(self._first)
        if first is None or first < 0 or bound is None or step is None:
            return False
        is_up = step.kind != "SUB" and step.value is not None and step.value >= 0
        return is_up or bound.kind in ("GT", "GE") and bound.value is not None and bound.value >= 0

    def _has_own_type(self) -> bool:
        """Whether the first value and the step have the type of the variable."""
        others = [it for it in leaves(self._next) if it.name != self._name]
        signs = {self._scope.signs.of(it) for it in [self._first, *others * self._declared.is_signed]}
        keeps_sign = False not in signs if self._declared.is_signed else signs == {False}
        first = self._scope.own_width(self._first)
        widest = max([first, *map(self._scope.own_width, others)])
        return keeps_sign and widest == self._declared.width and (first == widest or not grows(self._first))

    def _is_counted(self) -> bool:
        """Whether the variable and the types that Yosys has in its place have each of its values, also the last one."""
        bound, step, first = self._bound(), self._step(), self._known(self._first)
        if bound is None or step is None or first is None:
            return False
        width = self._scope.own_width(self._first)
        is_signed = self._is_signed(self._first)
        start = Type(width, is_signed or self._declared.is_signed)
        if step.kind != "SHIFT_LEFT":
            width, is_signed = max(width, self._scope.own_width(step.other)), is_signed and self._is_signed(step.other)
        later = Type(width, is_signed)
        if not start.has(first):
            return False
        if bound.value is None or step.value is None:
            return self._declared.has(first) and width >= self._declared.width and self._goes_up(first, bound, step)
        return self._holds(first, bound, step, later)

    def _goes_up(self, first: int, bound: _Side, step: _Side) -> bool:
        """Whether it counts one by one up to a bound that is not known. A variable that is too narrow would have no end."""
        least = self._scope.bounds(bound.other)[0]
        is_up = step.kind == "ADD" and step.value == 1 and bound.kind in ("LT", "LE")
        return is_up and first >= 0 and least is not None and least >= 0

    def _holds(self, value: int, bound: _Side, step: _Side, later: Type) -> bool:
        """Whether both types have all values of the loop, and no sign is needed that one of them has not."""
        assert bound.value is not None and step.value is not None
        needs_sign = min(value, bound.value, step.value) < 0
        goes_on, following = _COMPARED[bound.kind], _STEPS[step.kind]
        for _ in range(_MOST_ROUNDS):
            needs_sign |= value < 0
            if not self._declared.has(value) or not later.has(value) or needs_sign and not self._is_all_signed(bound, step):
                return False
            if not goes_on(value, bound.value):
                return True
            value = following(value, step.value)
        return False

    def _is_all_signed(self, bound: _Side, step: _Side) -> bool:
        return self._declared.is_signed and all(map(self._is_signed, (self._first, bound.other, step.other)))

    def _is_signed(self, node: Node) -> bool:
        return self._scope.sign_of_constant(node) is True

    # -- the parts of its head

    def _is_variable(self, node: Node) -> bool:
        return node.kind == "IDENTIFIER" and node.name == self._name and not node.parts

    def _bound(self) -> Optional[_Side]:
        kind = self._condition.kind
        if kind not in _COMPARED:
            return None
        left, right = self._condition.parts
        if self._is_variable(right):
            left, right, kind = right, left, _TURNED[kind]
        return self._side(kind, left, right)

    def _step(self) -> Optional[_Side]:
        kind = self._next.kind
        if kind not in _STEPS:
            return None
        left, right = self._next.parts
        if self._is_variable(right) and kind in _WITH_SIDES:
            left, right = right, left
        found = self._side(kind, left, right)
        is_far = kind == "SHIFT_LEFT" and found is not None and not 0 <= (found.value or 0) <= _LARGEST_SHIFT
        return None if is_far else found

    def _side(self, kind: str, variable: Node, other: Node) -> Optional[_Side]:
        while other.kind in ("TO_UNSIGNED", "SELFSZ"):
            other = other.parts[0]
        if not self._is_variable(variable) or self._name in names(other):
            return None
        return _Side(kind, other, self._known(other))

    def _known(self, node: Node) -> Optional[int]:
        """The value of a constant that no instance changes, and that is the same in each width."""
        is_wide = self._scope.own_width(node) >= UNSIZED
        return None if names(node) & self._given or grows(node) and not is_wide else self._scope.value(node)


def may_be_negative(scope: Scope, node: Node, declared: Type) -> bool:
    """Whether the variable of a loop may be negative in it, whatever instances give to parameters."""
    return declared.is_signed and not _Loop(scope, node, declared, {*scope.parameters}).stays_above_zero()


def _given(module: Node, parameters: Set[int]) -> Set[str]:
    """The constants of a module that depend on these parameters."""
    found: Set[str] = set()
    for it in module.all():
        if it.kind in ("PARAMETER", "LOCALPARAM") and (id(it) in parameters or it.parts and names(it.parts[0]) & found):
            found.add(it.name)
    return found


def other_values(each: Sequence[Scope]) -> Iterator[str]:
    """Loops whose variable gets a value that it cannot hold, as in `reg [2:0] k; for (k = 4'd6; k > 2; k = k + 4'd2)`."""
    parameters = {id(it) for _, _, it in given_parameters(each)}
    for scope in each:
        given = _given(scope.module, parameters)
        for node in scope.module.all():
            if node.kind in ("FOR", "GENFOR"):
                loops = [_Loop(scope, node, it, given) for it in types(scope, node.parts[0].parts[0].name)]
                if not all(it.is_right() for it in loops):
                    yield node.line
