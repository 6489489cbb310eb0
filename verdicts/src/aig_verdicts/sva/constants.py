"""Constants of a source that are known without Yosys: whole numbers, and sums, products and the like of them."""

from __future__ import annotations

import re
from typing import List, Mapping, Optional, Sequence

from .words import Word

_LITERAL = re.compile(r"([\d_]+)?'([sS]?)([bodhBODH])([0-9a-fA-F_]+)")
_BASES = {"b": 2, "o": 8, "d": 10, "h": 16}
# No constant is larger: a range of so many edges is rejected anyway.
_MOST = 1 << 64
_LEVELS = (("<<", ">>"), ("+", "-"), ("*", "/", "%"))


def literal(text: str) -> Optional[int]:
    """The value of a number without x that is not negative."""
    found = _LITERAL.fullmatch(text)
    try:
        if found:
            width = min(int(found[1] or 32), 64)
            value = int(found[4].replace("_", ""), _BASES[found[3].lower()]) & ((1 << width) - 1)
            return None if found[2] and value >> (width - 1) else value
        return int(text.replace("_", "")) if re.fullmatch(r"\d[\d_]*", text) else None
    except ValueError:
        return None


class _Unknown(Exception):
    """A word that is no constant."""


class _Reader:
    """Computes a constant expression."""

    def __init__(self, words: Sequence[Word], known: Mapping[str, int]):
        self._words: List[Word] = list(words)
        self._known, self._at = known, 0

    def value(self) -> int:
        found = self._level(0)
        if self._at < len(self._words):
            raise _Unknown
        return found

    def _next(self) -> str:
        return self._words[self._at].text if self._at < len(self._words) else ""

    def _take(self, wanted: str) -> None:
        if self._next() != wanted:
            raise _Unknown
        self._at += 1

    def _level(self, level: int) -> int:
        if level == len(_LEVELS):
            return self._primary()
        value = self._level(level + 1)
        while self._next() in _LEVELS[level]:
            sign = self._next()
            self._at += 1
            value = _computed(sign, value, self._level(level + 1))
        return value

    def _primary(self) -> int:
        text = self._next()
        self._at += 1
        if text == "(":
            value = self._level(0)
            self._take(")")
            return value
        if text == "$clog2":
            self._take("(")
            value = self._level(0)
            self._take(")")
            return max(value - 1, 0).bit_length()
        found = self._known.get(text, literal(text))
        if found is None:
            raise _Unknown
        return found


def _computed(sign: str, left: int, right: int) -> int:
    if sign in ("/", "%") and right == 0 or sign in ("<<", ">>") and right > 64:
        raise _Unknown
    value = {"+": left + right, "-": left - right, "*": left * right, "/": left // (right or 1),
             "%": left % (right or 1), "<<": left << min(right, 64), ">>": left >> min(right, 64)}[sign]
    if not 0 <= value < _MOST:
        raise _Unknown
    return value


def constant(words: Sequence[Word], known: Mapping[str, int]) -> Optional[int]:
    """The value of an expression, if it is a constant that is not negative."""
    try:
        return _Reader(words, known).value() if words else None
    except (_Unknown, RecursionError):
        return None
