"""The names of a circuit's signals, as `aig why` forms them. Bits with falling indices are a vector too, as those of a
vector [2:9] of Verilog come so."""

from __future__ import annotations

import re
from typing import Dict, Iterable, Iterator, List, NamedTuple, Sequence, Tuple

from ..entries import Entry

# A name of one bit. Longer numbers are no index.
_BIT = re.compile(r"(.+)\[(0|[1-9][0-9]{0,17})\]")

# A section and a position there.
Place = Tuple[str, int]


class Signal(NamedTuple):
    """An input, a latch, an output or a vector of them: its name, and the places of its bits, the least significant
    first. Two signals may have one name."""

    name: str
    letter: str
    positions: Tuple[int, ...]

    @property
    def key(self) -> Tuple[str, Tuple[int, ...]]:
        """What no other signal of the circuit has."""
        return self.letter, self.positions

    @property
    def places(self) -> List[Place]:
        return [(self.letter, position) for position in self.positions]


class Names:
    """The signals of a circuit; one object serves all its runs.

    all    in their order: inputs, latches, outputs; no output that has the name of an earlier signal
    words  the signals that have a word in their symbols
    at     the signal of each of their places
    """

    def __init__(self, entries: Iterable[Entry]):
        self.all: List[Signal] = []
        self.words: Dict[str, List[Signal]] = {}
        self.at: Dict[Place, Signal] = {}
        sections: Dict[str, List[Entry]] = {"i": [], "l": [], "o": []}
        for entry in entries:
            if entry.letter in sections:
                sections[entry.letter].append(entry)
        seen = set()
        for letter in "lio":
            for signal in _signals(letter, sections[letter]):
                if letter != "o" or signal.name not in seen:
                    seen.add(signal.name)
                    self._add(signal, [sections[letter][at].name for at in signal.positions])
        self.all.sort(key=lambda it: "ilo".index(it.letter))

    def _add(self, signal: Signal, symbols: Sequence[str]) -> None:
        self.all.append(signal)
        self.at.update((place, signal) for place in signal.places)
        words = {re.sub(r"\[[0-9]+\]$", "", word) for symbol in symbols for word in symbol.split(" ")}
        for word in sorted(words | {signal.name}):
            self.words.setdefault(word, []).append(signal)


def labels(signals: Sequence[Signal]) -> List[str]:
    """What a picture calls these signals: their names. Where several have one, all but the first have their places in
    it, as in `q(l3)`."""
    seen = set()
    found = []
    for name, letter, positions in signals:
        found.append(name if name not in seen else f"{name}({letter}{positions[0]})")
        seen.add(name)
    return found


def _signals(letter: str, entries: Sequence[Entry]) -> List[Signal]:
    """The signals of a section: neighbours `X[n]`, `X[n+1]`, .. are a vector."""
    firsts = [_first(entry) for entry in entries]
    groups: List[List[int]] = []
    following = None
    for position, first in enumerate(firsts):
        if first == following:
            groups[-1].append(position)
        else:
            groups.append([position])
        match = _BIT.fullmatch(first)
        following = f"{match[1]}[{int(match[2]) + 1}]" if match else None
    vectors: Dict[str, int] = {}
    for group in groups:
        if len(group) > 1:
            base = firsts[group[0]].rpartition("[")[0]
            vectors[base] = vectors.get(base, 0) + 1
    found = [Signal(_name(firsts[group[0]], len(group), vectors), letter, tuple(group)) for group in groups]
    return list(_with_falling(found))


def _with_falling(signals: Sequence[Signal]) -> Iterator[Signal]:
    """The signals, with a vector in place of single bits `X[n]`, `X[n-1]`, .. that follow each other."""
    waiting: List[Signal] = []
    for signal in [*signals, None]:
        last = _BIT.fullmatch(waiting[-1].name) if waiting else None
        if signal and last and len(signal.positions) == 1 and signal.name == f"{last[1]}[{int(last[2]) - 1}]":
            waiting.append(signal)
            continue
        if last and len(waiting) > 1:
            most = waiting[0].name.rpartition("[")[2]
            positions = tuple(it.positions[0] for it in waiting)
            yield Signal(f"{last[1]}[{last[2]}:{most}", waiting[0].letter, positions)
        else:
            yield from waiting
        waiting = []
        if signal and len(signal.positions) == 1:
            waiting = [signal]
        elif signal:
            yield signal


def _name(first: str, bits: int, vectors: Dict[str, int]) -> str:
    match = _BIT.fullmatch(first)
    if bits == 1 or match is None:
        return first
    base, least = match[1], int(match[2])
    return base if least == 0 and vectors[base] == 1 else f"{base}[{least + bits - 1}:{least}]"


def _first(entry: Entry) -> str:
    """The first name of an entry."""
    readable = re.sub(r"[^\x20-\x7e]", "_", entry.name.encode("utf-8", "surrogateescape").decode("latin-1"))
    return next((word for word in readable.split(" ") if word), entry.place)
