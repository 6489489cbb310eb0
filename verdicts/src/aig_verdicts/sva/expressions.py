"""Expressions of the source as trees, as deep as the past of their operands matters."""

from __future__ import annotations

from dataclasses import dataclass
from typing import List, Sequence, Tuple

from .words import Kind, Rejected, Word, closing, split

# Functions of sampled values.
PAST = "$past"
CHANGES = frozenset({"$rose", "$fell", "$stable", "$changed"})
HISTORY = frozenset({PAST, "$sampled"}) | CHANGES
# From the one that binds least.
_LEVELS: Tuple[Tuple[str, ...], ...] = (
    ("||",), ("&&",), ("|",), ("^", "~^", "^~"), ("&",), ("==", "!=", "===", "!==", "==?", "!=?"),
    ("<", "<=", ">", ">="), ("<<", ">>", "<<<", ">>>"), ("+", "-"), ("*", "/", "%"), ("**",),
)
_UNARY = frozenset({"!", "~", "&", "|", "^", "~&", "~|", "~^", "^~", "+", "-"})
BRACKETS, CHOICE, PRIMARY, UNARY = "()", "?:", "primary", "unary "


@dataclass(frozen=True)
class Node:
    """An operator with its operands. A primary has none; its words are a name with its selects, a call, a number or
    braces. The operator of a unary one has `unary ` before it."""

    operator: str
    parts: Tuple["Node", ...]
    words: Tuple[Word, ...]
    at: Word

    @property
    def has_history(self) -> bool:
        return any(it.text in HISTORY for it in self.words)

    @property
    def is_call(self) -> bool:
        """Whether it is a call of a function of the past."""
        return self.operator == PRIMARY and self.words[0].text in HISTORY

    @property
    def arguments(self) -> List[List[Word]]:
        """Those of a call."""
        if len(self.words) < 3 or self.words[1].text != "(":
            raise Rejected(self.at, "has no argument")
        return split(self.words[2:-1])


class _Reader:
    def __init__(self, words: Sequence[Word]):
        self._words, self._at = list(words), 0

    def whole(self) -> Node:
        node = self._choice()
        if self._at < len(self._words):
            raise Rejected(self._words[self._at], "an expression that is not understood beside a function of the past")
        return node

    def _text(self) -> str:
        return self._words[self._at].text if self._at < len(self._words) else ""

    def _node(self, operator: str, parts: Tuple[Node, ...], begin: int, at: Word) -> Node:
        return Node(operator, parts, tuple(self._words[begin:self._at]), at)

    def _choice(self) -> Node:
        begin, condition = self._at, self._level(0)
        if self._text() != "?":
            return condition
        at = self._words[self._at]
        self._at += 1
        true = self._choice()
        if self._text() != ":":
            raise Rejected(at, "has no :")
        self._at += 1
        return self._node(CHOICE, (condition, true, self._choice()), begin, at)

    def _level(self, level: int) -> Node:
        if level == len(_LEVELS):
            return self._unary()
        begin, left = self._at, self._level(level + 1)
        while self._text() in _LEVELS[level]:
            at = self._words[self._at]
            self._at += 1
            right = self._level(level + 1)
            left = self._node(at.text, (left, right), begin, at)
        return left

    def _unary(self) -> Node:
        begin = self._at
        if self._text() not in _UNARY:
            return self._primary()
        at = self._words[self._at]
        self._at += 1
        return self._node(UNARY + at.text, (self._unary(),), begin, at)

    def _primary(self) -> Node:
        begin = self._at
        if begin >= len(self._words):
            raise Rejected(self._words[-1] if self._words else None, "expected an expression")
        at = self._words[begin]
        if at.text == "(":
            end = closing(self._words, begin)
            inner = expression(self._words[begin + 1:end])
            self._at = end + 1
            return self._node(BRACKETS, (inner,), begin, at)
        if at.kind not in (Kind.NAME, Kind.NUMBER, Kind.TEXT) and at.text != "{":
            raise Rejected(at, "expected an expression")
        self._at = closing(self._words, begin) + 1 if at.text == "{" else begin + 1
        while at.is_name and self._text() in ("(", "[", ".", "::"):
            is_group = self._text() in ("(", "[")
            self._at = closing(self._words, self._at) + 1 if is_group else self._at + 2
        return self._node(PRIMARY, (), begin, at)


def expression(words: Sequence[Word]) -> Node:
    """The tree of an expression."""
    return _Reader(words).whole()
