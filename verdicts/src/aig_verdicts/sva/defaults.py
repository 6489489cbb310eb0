"""The values of expressions before the first edge of a clock: those that `$past` has there."""

from __future__ import annotations

from dataclasses import dataclass, replace
from typing import Optional

from .constants import literal
from .declared import Signal, Signals
from .expressions import BRACKETS, PRIMARY, UNARY, Node
from .truth import ALWAYS, NEVER, both, either
from .words import Kind, Rejected, Word, split, text_of

_NOT_KNOWN = "in a function of the past, whose value before the first edge is not known here"
_REDUCTION = frozenset(UNARY + it for it in ("&", "|", "^"))


@dataclass(frozen=True)
class Default:
    """A value before the first edge.

    value        the text of a known value, as wide as the expression; else empty, and some of its bits are x
    true, false  texts: that it is true, and that it is false. If neither, it is x
    mask         of a value whose bits are all x, the text of as many ones
    is_signed    whether it is extended by its sign
    inner        the words of the expression
    """

    value: str
    true: str = NEVER
    false: str = NEVER
    mask: str = ""
    is_signed: bool = False
    inner: str = ""

    @property
    def is_x(self) -> bool:
        """Whether all of its bits are x: it is neither true nor false, whatever the known operands are."""
        return not self.value and self.true == self.false == NEVER


class Defaults:
    """The values of the expressions of a module."""

    def __init__(self, signals: Signals):
        self.signals = signals

    def of(self, node: Node) -> Default:
        if node.operator == BRACKETS:
            return self.of(node.parts[0])
        if node.operator == PRIMARY:
            return self._primary(node)
        if node.operator == UNARY + "!":
            return self._opposite(replace(self.of(node.parts[0]), inner=text_of(node.words)))
        if node.operator in ("&&", "||"):
            return self._logic(node)
        if node.operator in ("==", "!="):
            found = self._equal(node)
            return found if node.operator == "==" else self._opposite(found)
        if node.operator in _REDUCTION | {UNARY + "~"} and self._is_all_x(node.parts[0]):
            mask = f"{{$bits({text_of(node.words)}){{1'b1}}}}" if node.operator == UNARY + "~" else "1'b1"
            return Default("", mask=mask, is_signed=node.operator == UNARY + "~", inner=text_of(node.words))
        if node.operator in ("&", "|", "^") and all(map(self._is_bit, node.parts)):
            return Default("", mask="1'b1", inner=text_of(node.words))
        raise Rejected(node.at, _NOT_KNOWN)

    def beyond(self, default: Default, other: str, word: Word) -> str:
        """That a value has bits above those of one whose bits are all x."""
        if other == default.inner:
            return NEVER
        if default.is_signed or not default.mask:
            raise Rejected(word, "compared, and its first value is not known here")
        return f"(|(({other}) & ~{default.mask}))"

    def _opposite(self, it: Default) -> Default:
        """One bit, and the other value."""
        return Default(f"(!{it.value})" if it.value else "", it.false, it.true, "1'b1", inner=it.inner)

    # -- primaries

    def _primary(self, node: Node) -> Default:
        words, text = node.words, text_of(node.words)
        if node.at.kind is Kind.NUMBER or self.signals.is_constant(node.at.text) and len(words) == 1:
            if node.at.kind is Kind.NUMBER and literal(text) is None:
                raise Rejected(node.at, "a number with x, or a negative one, in a function of the past")
            return Default(f"({text})", f"(({text}) != 0)", f"(({text}) == 0)", inner=text)
        if node.at.text == "{":
            return self._braces(node)
        signal = self.signals.of(node.at.text) if node.at.is_name else None
        if signal is None:
            raise Rejected(node.at, "its declaration is not read: its value before the first edge is not known")
        if any(it.text == "(" for it in words[1:]):
            raise Rejected(node.at, "a call inside of a function of the past")
        is_known = not signal.is_net and (signal.is_two_state or bool(signal.initial))
        if is_known:
            value = self._initial(signal, node)
            return Default(value, f"({value} != 0)", f"({value} == 0)", inner=text)
        if signal.is_two_state:
            raise Rejected(node.at, "a net of two states in a function of the past")
        is_signed = signal.is_signed and (len(words) == 1 or signal.is_array) or any(it.text == "." for it in words)
        return Default("", mask=f"{{$bits({text}){{1'b1}}}}", is_signed=is_signed, inner=text)

    def _initial(self, signal: Signal, node: Node) -> str:
        """The value of a declaration, as wide as the variable."""
        text, words = text_of(node.words), signal.initial
        value = literal(text_of(words)) if words else 0
        if text_of(words) == "'0":
            value = 0
        if value == 0 and not signal.is_array and not self._has_variable_index(node):
            return f"({text} ^ {text})"
        is_whole = len(node.words) == 1 and not signal.is_array
        if is_whole and signal.is_enum and len(words) == 1 and self.signals.is_constant(words[0].text):
            return f"({words[0].text})"
        if is_whole and value is not None and not signal.is_signed and self._fits(value, signal.width):
            return f"(({text} ^ {text}) | {max(value.bit_length(), 1)}'d{value})"
        bit = self._bit_at(signal, node)
        if bit is not None and value is not None and self._fits(value, signal.width):
            return f"1'b{value >> bit & 1}"
        raise Rejected(node.at, "its value in the declaration is not read here")

    def _fits(self, value: int, width: Optional[int]) -> bool:
        return value == 1 or width is not None and value < 1 << width

    def _bit_at(self, signal: Signal, node: Node) -> Optional[int]:
        """Which bit of a vector is taken, where 0 is the least significant one; None if it is none in numbers."""
        width, least = signal.bits
        index = literal(node.words[2].text) if [it.text for it in node.words[1::2]] == ["[", "]"] else None
        if index is None or width is None or least is None or signal.is_array:
            return None
        return index - least if least <= index < least + width else None

    def _has_variable_index(self, node: Node) -> bool:
        others = [it for it in node.words[1:] if it.text not in ("[", "]", ":")]
        return not all(it.kind is Kind.NUMBER or self.signals.is_constant(it.text) for it in others)

    def _braces(self, node: Node) -> Default:
        """`{a, b}` of signals whose bits are all x."""
        for part in split(node.words[1:-1]):
            single = Node(PRIMARY, (), tuple(part), part[0]) if part else node
            if not part or not part[0].is_name or not self._is_all_x(single):
                raise Rejected(node.at, _NOT_KNOWN)
        return Default("", inner=text_of(node.words))

    # -- operators

    def _is_all_x(self, node: Node) -> bool:
        while node.operator == BRACKETS:
            node = node.parts[0]
        if node.operator != PRIMARY or not node.at.is_name:
            return False
        return self.of(node).is_x

    def _is_bit(self, node: Node) -> bool:
        """Whether an operand is one bit, and x."""
        while node.operator == BRACKETS:
            node = node.parts[0]
        if not self._is_all_x(node):
            return False
        signal = self.signals.of(node.at.text)
        return signal is not None and not signal.is_array and signal.width == 1 and len(node.words) == 1

    def _logic(self, node: Node) -> Default:
        left, right = (self.of(it) for it in node.parts)
        pairs = (("&&", left.true, right.true, left.false, right.false),
                 ("||", left.false, right.false, left.true, right.true))
        for operator, one, other, this, that in pairs:
            if node.operator == operator:
                all_of, any_of = both(one, other), either(this, that)
                true, false = (all_of, any_of) if operator == "&&" else (any_of, all_of)
        return self._settled(true, false, node)

    def _settled(self, true: str, false: str, node: Node) -> Default:
        """One bit, which has a value if its operands are known."""
        is_known = all(self.of(it).value for it in node.parts)
        return Default(f"({true})" if is_known else "", true, false, "1'b1", inner=text_of(node.words))

    def _equal(self, node: Node) -> Default:
        left, right = (self.of(it) for it in node.parts)
        if left.value and right.value:
            text = f"({left.value} == {right.value})"
            return Default(text, text, f"!{text}", "1'b1", inner=text_of(node.words))
        unknown, known = (left, right) if not left.value else (right, left)
        if not unknown.is_x:
            raise Rejected(node.at, _NOT_KNOWN)
        false = self.beyond(unknown, known.value, node.at) if known.value else NEVER
        return Default("", NEVER, false, ALWAYS, inner=text_of(node.words))
