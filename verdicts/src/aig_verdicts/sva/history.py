"""What an expression with `$past` and its like is at the first edges of a clock: IEEE 1800-2017, 16.5.1 and 16.9.3.

Before the first edge a signal is x, or has the value of its declaration. Then an expression is *true*, *false*, or
*x*, by Verilog's tables, and x is not true. A value that comes from x has risen, fallen, changed. Each expression
becomes two texts, that it is true and that it is false; in between it is x. What the tables do not say is rejected.

Text that is put into an expression of the user never changes its width: a call becomes a choice between the call and a
value of the same width."""

from __future__ import annotations

from dataclasses import dataclass
from typing import Callable, Dict, List, Optional

from .constants import constant
from .defaults import Default, Defaults
from .expressions import BRACKETS, CHANGES, CHOICE, HISTORY, PAST, PRIMARY, UNARY, Node, expression
from .model import Module
from .truth import ALWAYS, NEVER, Truth, both, either
from .words import Rejected, Word, has_any, text_of

# How far `$past` may look back.
MOST_PAST = 64
_ARITHMETIC = frozenset({"+", "-", "*", "/", "%"})
_EQUAL, _SAME = frozenset({"==", "!="}), frozenset({"===", "!=="})
_ORDER = frozenset({"<", "<=", ">", ">="})
_REDUCTION = frozenset(UNARY + it for it in ("&", "|", "^", "~&", "~|", "~^", "^~"))
_OF_ONE_BIT = _EQUAL | _SAME | _ORDER | _REDUCTION | {"&&", "||", UNARY + "!"}


@dataclass(frozen=True)
class _Past:
    """A call of `$past` whose value is x until so many edges were."""

    node: Node
    depth: int
    default: Default


class History:
    """The expressions of one assertion. `depth` is how many edges have to be counted, in the register `begun`.

    need  takes each constant that the texts rely on
    """

    def __init__(self, module: Module, defaults: Defaults, clock: str, begun: str,
                 need: Callable[[List[Word], int], None]):
        self._module, self._defaults, self._clock, self._begun = module, defaults, clock, begun
        self._need = need
        self._texts: Dict[int, str] = {}  # what replaces a call, by the place of its first word
        self._pasts: Dict[int, _Past] = {}  # calls whose value is x at first
        self.depth = 0

    def truth(self, words: List[Word]) -> Truth:
        """When an expression is true, and when it is false."""
        if not has_any(words, HISTORY):
            return self._without_history(words)
        root = expression(words)
        self._texts, self._pasts = {}, {}
        self._calls(root)
        return self._truth(root)

    def _without_history(self, words: List[Word]) -> Truth:
        text = text_of(words)
        try:
            return Truth(self._one_bit(expression(words), text), f"!({text})")
        except Rejected:  # Yosys says whether it is one
            return Truth(f"(|({text}))", f"!({text})")

    # -- calls

    def _calls(self, node: Node) -> None:
        """Finds what each call is at the first edges."""
        if not node.has_history:
            return
        if node.is_call:
            self._call(node)
        elif node.operator == PRIMARY:
            raise Rejected(node.at, "a function of the past inside of this is not translated")
        for part in node.parts:
            self._calls(part)

    def _call(self, node: Node) -> None:
        name, arguments = node.at, node.arguments
        most = 2 if name.text == PAST else 1
        if len(arguments) > most or not all(arguments) or any(it.text == "@" for it in node.words):
            raise Rejected(name, "with a clock or a gate is not translated")
        if has_any(node.words[1:], HISTORY):
            raise Rejected(name, "of a function of the past is not translated")
        inner = expression(arguments[0])
        if name.text == "$sampled":
            if inner.operator != PRIMARY or not inner.at.is_name:
                raise Rejected(name, "of an expression is not translated")
            self._texts[id(node)] = f"({text_of(inner.words)})"
        elif name.text == PAST:
            self._past(node, inner, self._steps(node, arguments))
        else:
            self._texts[id(node)] = self._change(node, inner)

    def _steps(self, node: Node, arguments: List[List[Word]]) -> int:
        if len(arguments) == 1:
            return 1
        found = constant(arguments[1], self._module.numbers)
        if found is None or not 1 <= found <= MOST_PAST:
            raise Rejected(node.at, f"the number of edges is no constant from 1 to {MOST_PAST} that is known here")
        self._need(arguments[1], found)
        return found

    def _past(self, node: Node, inner: Node, depth: int) -> None:
        default = self._defaults.of(inner)
        self.depth = max(self.depth, depth)
        call = f"$past({text_of(inner.words)}{f', {depth}' if depth > 1 else ''})"
        if default.value:
            self._texts[id(node)] = f"({self._ok(depth)} ? {call} : {default.value})"
        else:
            self._texts[id(node)] = call
            self._pasts[id(node)] = _Past(node, depth, default)

    def _change(self, node: Node, inner: Node) -> str:
        """A change between two edges: two values, true or false, one bit wide."""
        text = text_of(inner.words)
        call = f"{node.at.text}({text})"
        if not self._defaults.signals.is_known_at_first(inner.words, self._clock):
            return call  # the history before the first edge is any
        default = self._defaults.of(inner)
        self.depth = max(self.depth, 1)
        now, was, was_not = f"((({text}) & 1'b1) != 0)", default.true, default.false
        same = either(both(was, now), both(was_not, f"!{now}"))
        if default.value:
            was, was_not = (f"((({default.value}) & 1'b1) {sign} 0)" for sign in ("!=", "=="))
            same = f"(({text}) == {default.value})"
        first = {"$rose": both(now, f"!{was}"), "$fell": both(f"!{now}", f"!{was_not}"),
                 "$stable": same, "$changed": f"!{same}"}
        return f"({self._ok(1)} ? {call} : {first[node.at.text]})"

    def _ok(self, depth: int) -> str:
        """That so many edges were before this one."""
        return f"{self._begun}[{depth - 1}]"

    # -- texts

    def _text(self, node: Node) -> str:
        """An expression with what replaces its calls."""
        if id(node) in self._texts:
            return self._texts[id(node)]
        if not node.parts or not node.has_history:
            return text_of(node.words)
        inner = [self._text(it) for it in node.parts]
        if node.operator == BRACKETS:
            return f"({inner[0]})"
        if node.operator == CHOICE:
            return f"{inner[0]} ? {inner[1]} : {inner[2]}"
        if len(inner) == 1:
            return f"{node.at.text} {inner[0]}"
        return f"{inner[0]} {node.operator} {inner[1]}"

    def _unknown(self, node: Node) -> List[_Past]:
        """The calls in an expression whose value is x at first."""
        mine = [self._pasts[id(node)]] if id(node) in self._pasts else []
        return mine + [it for part in node.parts for it in self._unknown(part)]

    def _depth(self, node: Node) -> int:
        return max((it.depth for it in self._unknown(node)), default=0)

    # -- truth

    def _truth(self, node: Node) -> Truth:
        operator, text = node.operator, self._text(node)
        if not self._unknown(node):
            return Truth(self._one_bit(node, text), f"!({text})")
        if id(node) in self._pasts:
            past = self._pasts[id(node)]
            ok, early = self._ok(past.depth), f"!{self._ok(past.depth)}"
            return Truth(either(both(ok, text), both(early, past.default.true)),
                         either(both(ok, f"!{text}"), both(early, past.default.false)))
        if operator == BRACKETS:
            return self._truth(node.parts[0])
        if operator == UNARY + "!":
            return self._truth(node.parts[0]).opposite
        if operator in ("&&", "||"):
            left, right = (self._truth(it) for it in node.parts)
            if operator == "&&":
                return Truth(both(left.true, right.true), either(left.false, right.false))
            return Truth(either(left.true, right.true), both(left.false, right.false))
        if operator == CHOICE:
            return self._choice(node)
        if operator in _EQUAL:
            return self._equal(node)
        return self._same(node) if operator in _SAME else self._whole(node)

    def _one_bit(self, node: Node, text: str) -> str:
        """That an expression is not 0, as one bit."""
        while node.operator == BRACKETS:
            node = node.parts[0]
        signal = self._defaults.signals.of(node.at.text) if len(node.words) == 1 else None
        if signal is not None and signal.width == 1 and not signal.is_array:
            return text_of(node.words)
        return f"({text})" if node.operator in _OF_ONE_BIT else f"(|({text}))"

    def _choice(self, node: Node) -> Truth:
        condition, true, false = (self._truth(it) for it in node.parts)
        if self._unknown(node.parts[0]):
            for it in node.parts[1:]:
                self._expect_one_bit(it)
        yes, no = condition.true, condition.false
        return Truth(
            either(both(yes, true.true), both(no, false.true), both(true.true, false.true)),
            either(both(yes, true.false), both(no, false.false), both(true.false, false.false)))

    def _expect_one_bit(self, node: Node) -> None:
        if node.operator == BRACKETS:
            self._expect_one_bit(node.parts[0])
        elif node.operator not in _OF_ONE_BIT and node.at.text not in ("1'b0", "1'b1"):
            raise Rejected(node.at, "chosen by a condition that is x at the first edges, and not known to be one bit")

    def _whole(self, node: Node) -> Truth:
        """An expression that is x as long as one of its operands is."""
        if not (self._is_all_x(node) or node.operator in _ORDER or node.operator in _REDUCTION | {UNARY + "~"}):
            raise Rejected(node.at, "with a function of the past, whose first values are not known here")
        for part in node.parts:
            self._expect_x(part)
        if node.operator in _REDUCTION | {UNARY + "~"}:
            self._expect_plain(node.parts[0])
        ok, text = self._ok(self._depth(node)), self._text(node)
        return Truth(both(ok, f"({text})"), both(ok, f"!({text})"))

    def _is_all_x(self, node: Node) -> bool:
        """Whether all bits are x as long as an operand has an x."""
        if node.operator == BRACKETS:
            return self._is_all_x(node.parts[0])
        return node.operator in _ARITHMETIC or node.operator in (UNARY + "-", UNARY + "+")

    def _expect_x(self, node: Node) -> None:
        """That an operand is known, or has an x for sure until its edges were."""
        if not self._unknown(node):
            return
        if self._is_all_x(node):
            for part in node.parts:
                self._expect_x(part)
        elif node.operator == BRACKETS:
            self._expect_x(node.parts[0])
        else:
            self._expect_plain(node)

    def _plain(self, node: Node) -> Optional[_Past]:
        """The call that an expression is, if it is one and its bits are all x at first."""
        while node.operator == BRACKETS:
            node = node.parts[0]
        found = self._pasts.get(id(node))
        return found if found is not None and found.default.is_x else None

    def _expect_plain(self, node: Node) -> None:
        if self._plain(node) is None:
            raise Rejected(node.at, "with a function of the past, whose first values are not known here")

    def _equal(self, node: Node) -> Truth:
        left, right = node.parts
        self._expect_x(left)
        self._expect_x(right)
        ok, text = self._ok(self._depth(node)), self._text(node)
        early = either(self._differs(left, right), self._differs(right, left))
        if node.operator == "==":
            return Truth(both(ok, f"({text})"), either(both(ok, f"!({text})"), early))
        return Truth(either(both(ok, f"({text})"), early), both(ok, f"!({text})"))

    def _differs(self, node: Node, other: Node) -> str:
        """That an operand whose bits are x is not equal to another one, as that has bits beyond its width."""
        past, depth = self._plain(node), self._depth(other)
        if past is None or depth >= past.depth:
            return NEVER
        beyond = self._defaults.beyond(past.default, self._text(other), past.node.at)
        return both(f"!{self._ok(past.depth)}", self._ok(depth) if depth else ALWAYS, beyond)

    def _same(self, node: Node) -> Truth:
        """`===`, which is never x: an x is not the same as a value without one."""
        left, right = node.parts
        if self._unknown(left) and self._unknown(right):
            raise Rejected(node.at, "between two values of the past is not translated")
        for side in node.parts:
            self._expect_x(side)
            if any("x" in it.text.lower() and "'" in it.text for it in side.words):
                raise Rejected(node.at, "with x is not translated")
        ok, text = self._ok(self._depth(node)), self._text(node)
        if node.operator == "===":
            return Truth(both(ok, f"({text})"), either(f"!{ok}", f"!({text})"))
        return Truth(either(f"!{ok}", f"({text})"), both(ok, f"!({text})"))
