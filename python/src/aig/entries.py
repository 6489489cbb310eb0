"""The entries of a circuit, and how signals are named."""

from __future__ import annotations

import json
import re
from functools import cached_property
from typing import Any, Dict, Iterable, List, Mapping, NamedTuple, Optional, Tuple, Union

Signal = Union[str, int]
# A bit of a vector.
_BIT = re.compile(r"(.*)\[(0|[1-9][0-9]*)\]", re.DOTALL)
SECTIONS = {
    "i": "inputs", "l": "latches", "o": "outputs", "b": "bad", "c": "constraints", "j": "justice", "f": "fairness",
}


class Entry(NamedTuple):
    """An input, a latch, an output or a property of a circuit.

    letter    i, l, o, b, c, j or f, for the section
    position  its position in the section, counted from 0
    literal   its literal; None for a justice property, which has several
    name      its symbol; empty if it has none. A byte that is not UTF-8 is a lone surrogate (`surrogateescape`).
    """

    letter: str
    position: int
    literal: Optional[int]
    name: str

    @property
    def place(self) -> str:
        """The section and the position, as in `i0`."""
        return f"{self.letter}{self.position}"

    @property
    def words(self) -> List[str]:
        """The names in the symbol."""
        return [word for word in self.name.split(" ") if word]

    @property
    def label(self) -> str:
        """The symbol, or the place if there is none."""
        return self.name or self.place


def readable(name: str) -> str:
    """A symbol, or a piece of one, with a mark in place of each byte that is not UTF-8."""
    return name.encode("utf-8", "surrogateescape").decode("utf-8", "replace")


def listed(said: bytes) -> List[Entry]:
    """The entries that `aig info --names --json` prints."""
    return [_entry(it) for it in objects(said)]


def objects(said: bytes) -> List[Dict[str, Any]]:
    """The objects that `aig` prints in lines."""
    found: List[Dict[str, Any]] = json.loads(b"[%s]" % b",".join(said.split(b"\n")[:-1]))
    return found


def _entry(it: Dict[str, Any]) -> Entry:
    name = it["name"] or ""
    text = name if isinstance(name, str) else bytes(name).decode("utf-8", "surrogateescape")
    return Entry(it["letter"], it["position"], it["literal"], text)


class Ambiguous(KeyError):
    """A name of two literals."""


class Entries:
    """All entries of a circuit, by name and by place."""

    def __init__(self, entries: Iterable[Entry]):
        self.all = list(entries)
        self._by_place = {entry.place: entry for entry in self.all}
        self._by_name: Dict[str, List[Entry]] = {}
        self._by_word: Dict[str, List[Entry]] = {}
        for entry in self.all:
            if entry.name:
                self._by_name.setdefault(entry.name, []).append(entry)
            for word in entry.words:
                self._by_word.setdefault(word, []).append(entry)

    def section(self, letter: str) -> List[Entry]:
        return [entry for entry in self.all if entry.letter == letter]

    def find(self, name: Signal, sections: str) -> Entry:
        """The entry of this symbol among these sections, or with this name in its symbol, or at this place or position."""
        if isinstance(name, int):
            return self._at(f"{sections[0]}{name}", f"there is no {SECTIONS[sections[0]]} {name}")
        found = [entry for entry in self._by_name.get(name, []) if entry.letter in sections]
        found = found or [entry for entry in self._by_word.get(name, []) if entry.letter in sections]
        if len({entry.literal for entry in found}) > 1:
            raise Ambiguous(f"{name!r} names {' and '.join(entry.place for entry in found)}: use one of these")
        if found:
            return found[0]
        return self._at(name if name[:1] in sections else "", f"there is no signal {name!r}")

    def literal(self, signal: Signal) -> int:
        """The literal of a name, of `!` and a name, or a literal itself."""
        if isinstance(signal, int):
            return signal
        try:
            found = self.find(signal, "ilobcf").literal
        except KeyError:
            if not signal.startswith("!"):
                raise
            return self.literal(signal[1:]) ^ 1
        assert found is not None  # only justice properties have no literal
        return found

    def literals(self, signal: Signal) -> List[int]:
        """The literal of a signal, or those of a vector, the least significant first; `!` negates each."""
        try:
            return [self.literal(signal)]
        except Ambiguous:
            raise
        except KeyError:
            name = str(signal)
            negated = name.startswith("!") and not self.vector(name)
            bits = self.vector(name[negated:])
            if not bits:
                raise
        return [(it.literal or 0) ^ negated for it in bits]

    def bits(self, name: Signal, section: str) -> List[Entry]:
        """The entry of this name in a section, or those of a vector, the least significant first."""
        try:
            return [self.find(name, section)]
        except Ambiguous:
            raise
        except KeyError:
            found = self.vector(str(name), section)
            if not found:
                raise
            return found

    def vector(self, name: str, sections: str = "ilo") -> List[Entry]:
        """The entries of the signals `NAME[n]`, `NAME[n+1]`, .. of one section, the least significant first; none if
        there is no such vector. A vector [0:7] of Verilog has its bits in the other order, and is rejected: put its bits
        together yourself."""
        for letter in sections:
            bits = self._vectors.get((name, letter), {})
            rising = sorted(bits)
            if bits and rising == list(range(rising[0], rising[0] + len(bits))):
                found = [bits[at] for at in rising]
                places = [it.position for it in found]
                if len(bits) > 1 and places == sorted(places, reverse=True):
                    raise KeyError(f"{name!r} has falling indices: its bit {rising[-1]} may be the least significant one")
                return found
        return []

    @cached_property
    def _vectors(self) -> Dict[Tuple[str, str], Dict[int, Entry]]:
        """The entries of `NAME[n]` by NAME and section, and by n."""
        found: Dict[Tuple[str, str], Dict[int, Entry]] = {}
        for entry in self.all:
            for match in map(_BIT.fullmatch, entry.words):
                if match:
                    found.setdefault((match[1], entry.letter), {})[int(match[2])] = entry
        return found

    def with_outputs(self, literals: Mapping[int, int]) -> Entries:
        """These entries, where outputs at some positions have other literals."""
        return Entries(it._replace(literal=literals[it.position]) if it.letter == "o" and it.position in literals else it
                       for it in self.all)

    def _at(self, place: str, why: str) -> Entry:
        if place not in self._by_place:
            raise KeyError(why)
        return self._by_place[place]
