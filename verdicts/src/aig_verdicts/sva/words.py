"""Words of SystemVerilog with their places. A file stays its bytes."""

from __future__ import annotations

import enum
import re
from dataclasses import dataclass
from typing import FrozenSet, List, Optional, Sequence

_WORD = re.compile(r"""
  (?P<skip>\s+|//[^\n]*|/\*.*?\*/|\(\*(?!\s*\)).*?\*\))
 |(?P<define>`define\b(?:\\\r?\n|[^\n])*)
 |(?P<text>"(?:\\.|[^"\\])*")
 |(?P<directive>`[A-Za-z_]\w*)
 |(?P<number>(?:\d[\d_]*\s*)?'[sS]?[bBoOdDhH]\s*[0-9a-fA-FxXzZ?_]+|'[01xXzZ]|\d[\d_]*(?:\.\d+)?)
 |(?P<name>[A-Za-z_][\w$]*|\\\S+|\$\w+)
 |(?P<sign>\|->|\|=>|\#-\#|\#=\#|\#\#|\[\s*\*|\[\s*=|\[\s*->|\[\s*\+\s*\]|<<<=?|>>>=?|===|!==|==\?|!=\?|->>|->|<->
   |&&&|&&|\|\||==|!=|<=|>=|<<|>>|~&|~\||~\^|\^~|\*\*|\+\+|--|[-+*/%&|^]=|\+:|-:|::|.)
""", re.DOTALL | re.VERBOSE)


class Kind(enum.Enum):
    """What a word is."""

    DEFINE = "define"
    TEXT = "text"
    DIRECTIVE = "directive"
    NUMBER = "number"
    NAME = "name"
    SIGN = "sign"


@dataclass(frozen=True)
class Word:
    """A word of a source.

    start, end  its bytes in the file; of a word that a macro made, those of the use of the macro
    use         the number of the use of a macro that it comes from, or 0
    """

    kind: Kind
    text: str
    file: str
    line: int
    start: int
    end: int
    use: int = 0

    @property
    def is_name(self) -> bool:
        return self.kind is Kind.NAME


class Rejected(Exception):
    """What is not translated: the place, the word and why."""

    def __init__(self, word: Optional[Word], why: str):
        self.word, self.why = word, why
        super().__init__((f"{word.file}:{word.line}: `{word.text}`: " if word else "") + why)


class Live(Rejected):
    """An assertion that asks for liveness: nothing is wrong with it, and nobody here decides it."""


OPEN = frozenset({"(", "[", "{", "[*", "[=", "[->"})
CLOSE = frozenset({")", "]", "}"})
# Words between parts of sequences and properties.
INFIX = frozenset({
    "##", "|->", "|=>", "#-#", "#=#", "throughout", "within", "intersect", "and", "or", "iff", "implies", "until",
    "until_with", "s_until", "s_until_with", "[*", "[=", "[->", "[+]",
})
# Those that Yosys reads by itself, before an expression.
EVENTUALLY = frozenset({"s_eventually", "eventually"})
# Words that ask for liveness.
LIVE = frozenset({"s_always", "s_until", "s_until_with", "s_nexttime"}) | EVENTUALLY
# Words of properties that have no translation.
OTHER = frozenset({"case", "accept_on", "reject_on", "sync_accept_on", "sync_reject_on"})
# Words that begin a sequence or a property.
PREFIX = frozenset({"not", "always", "nexttime", "first_match", "strong", "weak", "if"}) | LIVE | OTHER
_SIGNS = frozenset("&|~^!=<>+-*/%#@:?")


def words_of(text: str, file: str) -> List[Word]:
    """The words of a text, but for comments and attributes."""
    found, line = [], 1
    for it in _WORD.finditer(text):
        kind = it.lastgroup or "sign"
        if kind != "skip":
            word = re.sub(r"\s", "", it[0]) if kind in ("sign", "number") else it[0]
            found.append(Word(Kind(kind), word, file, line, it.start(), it.end()))
        line += it[0].count("\n")
    return found


def text_of(words: Sequence[Word]) -> str:
    """Words as a text that has the same words."""
    out = ""
    for it in words:
        last = out[-1:]
        are_names = re.match(r"[\w$]", last) and re.match(r"[\w$`'\\]", it.text[0])
        are_signs = last in _SIGNS and it.text[0] in _SIGNS
        out += (" " if last and (are_names or are_signs) else "") + it.text + (" " if it.text.startswith("\\") else "")
    return out


def closing(words: Sequence[Word], at: int) -> int:
    """Where the bracket at this place ends."""
    level = 0
    for k in range(at, len(words)):
        level += (words[k].text in OPEN) - (words[k].text in CLOSE)
        if level == 0:
            return k
    raise Rejected(words[at] if at < len(words) else None, "a bracket that does not end")


def stripped(words: Sequence[Word]) -> List[Word]:
    """Words without the brackets around all of them."""
    while len(words) > 1 and words[0].text == "(" and closing(words, 0) == len(words) - 1:
        words = words[1:-1]
    return list(words)


def split(words: Sequence[Word], sign: str = ",") -> List[List[Word]]:
    """The parts between signs that are in no brackets."""
    parts: List[List[Word]] = [[]]
    level = 0
    for it in words:
        level += (it.text in OPEN) - (it.text in CLOSE)
        if it.text == sign and level == 0:
            parts.append([])
        else:
            parts[-1].append(it)
    return parts


def has_any(words: Sequence[Word], texts: FrozenSet[str]) -> bool:
    return any(it.text in texts for it in words)
