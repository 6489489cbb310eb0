"""The types that sources name, and the words that types are made of."""

from __future__ import annotations

from dataclasses import dataclass, field
from typing import Iterator, Sequence, Set

from .words import OPEN, Word, closing

PORTS = ("input", "output", "inout")
NETS = frozenset({"wire", "tri", "wand", "wor", "tri0", "tri1", "triand", "trior", "uwire", "supply0", "supply1"})
FOUR_STATES = frozenset({"reg", "logic", "integer"})
TWO_STATES = frozenset({"bit", "int", "byte", "shortint", "longint"})
REALS = frozenset({"real", "realtime", "shortreal", "time", "event", "string"})
COMPOUND = frozenset({"struct", "union", "enum"})
WORDS_OF_TYPES = frozenset(PORTS) | NETS | FOUR_STATES | TWO_STATES | frozenset({
    "var", "signed", "unsigned", "static", "automatic"})


@dataclass
class Types:
    """The types that `typedef` names: those of four states. `values` has the names of values of enums, and `signed`
    the types that are signed, or have a part that is."""

    enums: Set[str] = field(default_factory=set)
    signed: Set[str] = field(default_factory=set)
    others: Set[str] = field(default_factory=set)
    values: Set[str] = field(default_factory=set)

    @property
    def names(self) -> Set[str]:
        return self.enums | self.others


def types_of(words: Sequence[Word]) -> Types:
    """The types that sources name."""
    found = Types()
    for k, word in enumerate(words):
        if word.text == "enum":
            found.values.update(_values(words, k))
        if word.text == "typedef":
            end = end_of_statement(words, k)
            inner = {it.text for it in words[k:end]}
            name = words[end - 1].text
            found.signed |= {name} if "signed" in inner else set()
            if name in found.names or inner & (TWO_STATES | REALS) or not inner & {"logic", "reg"}:
                found.enums.discard(name)
                found.others.discard(name)
            elif "enum" in inner:
                found.enums.add(name)
            elif not _has_types(words[k:end], found.names):
                found.others.add(name)
    return found


def _has_types(words: Sequence[Word], names: Set[str]) -> bool:
    """Whether a type has members of types with names: two names follow each other."""
    return any(a.is_name and b.is_name and a.text not in WORDS_OF_TYPES | COMPOUND | {"typedef", "packed"}
               for a, b in zip(words, words[1:]))


def _values(words: Sequence[Word], at: int) -> Iterator[str]:
    begin = next((k for k in range(at, len(words)) if words[k].text in ("{", ";")), len(words))
    if begin < len(words) and words[begin].text == "{":
        inner = words[begin:closing(words, begin)]
        yield from (it.text for before, it in zip(inner, inner[1:]) if before.text in ("{", ",") and it.is_name)


def end_of_statement(words: Sequence[Word], at: int) -> int:
    """Where the statement ends that begins here; braces are skipped."""
    while at < len(words) and words[at].text != ";":
        at = closing(words, at) + 1 if words[at].text in OPEN else at + 1
    return at
