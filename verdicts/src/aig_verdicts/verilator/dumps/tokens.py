"""Words and signs of a preprocessed text, and the parentheses and brackets that they are in."""

from __future__ import annotations

import re
from typing import List, NamedTuple, Optional, Tuple

TOKEN = re.compile(r'"(?:[^"\\\n]|\\.)*"|\\\S+|`line[^\n]*|[A-Za-z_$][\w$]*|\d[\w.\']*'
                   r"|'[sS]?[bodhBODH][0-9a-fA-FxXzZ?_]+|\S")
# A line of the preprocessor: the number of the next line, and its file.
DIRECTIVE = re.compile(r'`line\s+(\d+)\s+"((?:[^"\\]|\\.)*)"\s+[012]\s*')
# Verilator 5.006 writes columns modulo 676.
LONGEST = 600


class Token(NamedTuple):
    """A word or a sign of the text."""

    text: str
    start: int
    end: int


def tokens_of(text: str) -> List[Token]:
    """The words and signs of a text, without the lines of the preprocessor."""
    return [Token(it[0], it.start(), it.end()) for it in TOKEN.finditer(text) if not it[0].startswith("`line")]


def pieces(line: str) -> List[str]:
    """A line, in pieces of at most 600 characters if it has more. It is cut at blanks alone: && must not become & &."""
    made = []
    while len(line) > LONGEST:
        starts = [it.start() for it in TOKEN.finditer(line) if 0 < it.start() <= LONGEST and line[it.start() - 1] in " \t"]
        cut = max(starts, default=0)
        if not cut:
            break
        made.append(line[:cut])
        line = line[cut:]
    return made + [line]


def closing(tokens: List[Token], k: int) -> int:
    """The parenthesis that closes the one at token k."""
    deep = 0
    while k < len(tokens):
        deep += {"(": 1, ")": -1}.get(tokens[k].text, 0)
        if not deep:
            break
        k += 1
    return k


def bracket_of(tokens: List[Token], k: int) -> Optional[int]:
    """The bracket that a token is in, if there is one."""
    deep = 0
    for at in range(k - 1, -1, -1):
        it = tokens[at].text
        if it in (";", "begin", "end"):
            return None
        deep += {"]": 1, "[": -1}.get(it, 0)
        if deep < 0:
            return at
    return None


def has_width(tokens: List[Token], k: int) -> bool:
    """Whether the brackets at token k have +: or -: in them. Verilator folds constants before these."""
    deep = 0
    for it, after in zip(tokens[k:], tokens[k + 1:]):
        deep += {"[": 1, "(": 1, "{": 1, "]": -1, ")": -1, "}": -1}.get(it.text, 0)
        if not deep:
            return False
        if deep == 1 and it.text in "+-" and after.text == ":":
            return True
    return False


def cast(tokens: List[Token], k: int) -> Tuple[int, int]:
    """The first and the last token of a cast; token k is its tick, or ends with it."""
    first = k if tokens[k].text != "'" else k - 1
    if tokens[first].text == ")":
        deep = 0
        while first >= 0:
            deep += {")": 1, "(": -1}.get(tokens[first].text, 0)
            if not deep:
                break
            first -= 1
        if first > 0 and re.match(r"[A-Za-z_$\\]", tokens[first - 1].text):  # $clog2(N)'(x)
            first -= 1
    while first > 2 and tokens[first - 1].text == ":" and tokens[first - 2].text == ":":
        first -= 3
    return first, closing(tokens, k + 1)


def null_action(tokens: List[Token], k: int) -> Optional[int]:
    """After `assert`: the semicolon right after its condition, if there is one."""
    while k < len(tokens) and tokens[k].text in ("property", "final", "sequence", "#", "0", "#0"):
        k += 1
    if k >= len(tokens) or tokens[k].text != "(":
        return None
    k = closing(tokens, k) + 1
    return k if k < len(tokens) and tokens[k].text == ";" else None
