"""Where the statements of a procedure end."""

from __future__ import annotations

from typing import List, Sequence

from .model import KINDS
from .words import CLOSE, OPEN, Rejected, Word, closing

_BLOCKS = ("begin", "fork", "case", "casez", "casex", "randcase")
_ENDS = ("end", "join", "join_any", "join_none", "endcase")


def semicolon(words: Sequence[Word], at: int) -> int:
    """The next `;` that is in no brackets."""
    level = 0
    for k in range(at, len(words)):
        text = words[k].text
        level += (text in OPEN) - (text in CLOSE)
        if text == ";" and level <= 0:
            return k
    raise Rejected(words[at], "has no ;")


def after_word(words: Sequence[Word], at: int, wanted: str) -> int:
    for k in range(at, len(words)):
        if words[k].text == wanted:
            return k + 1
    raise Rejected(words[at], f"has no {wanted}")


def after_statement(words: List[Word], at: int) -> int:
    """What comes after the statement that begins here."""
    text = words[at].text
    if text in _BLOCKS:
        return _after_block(words, at)
    if text in ("unique", "unique0", "priority", "forever"):
        return after_statement(words, at + 1)
    if text in ("@", "#"):
        return after_statement(words, closing(words, at + 1) + 1 if words[at + 1].text == "(" else at + 2)
    if text in ("if", "for", "while", "repeat", "foreach", "wait"):
        after = after_statement(words, closing(words, at + 1) + 1)
        return after_statement(words, after + 1) if text == "if" and _text(words, after) == "else" else after
    if words[at].is_name and words[at + 1].text == ":" and words[at + 2].text in ("begin", *KINDS):
        return after_statement(words, at + 2)
    if text in KINDS:
        bracket = next(k for k in range(at, len(words)) if words[k].text == "(")
        return after_action(words, closing(words, bracket) + 1)
    return semicolon(words, at) + 1


def _after_block(words: List[Word], at: int) -> int:
    level = 0
    while True:
        level += (words[at].text in _BLOCKS) - (words[at].text in _ENDS)
        at += 1
        if level == 0:
            break
    return at + 2 if _text(words, at) == ":" and words[at - 1].text != "endcase" else at


def after_action(words: List[Word], at: int) -> int:
    """What comes after the actions of an assertion, which are between its property and its end."""
    if words[at].text == "else":
        return after_statement(words, at + 1)
    if words[at].text == ";":  # an `else` after it is that of an `if` around
        return at + 1
    after = after_statement(words, at)
    return after_statement(words, after + 1) if _text(words, after) == "else" else after


def _text(words: Sequence[Word], at: int) -> str:
    return words[at].text if at < len(words) else ""
