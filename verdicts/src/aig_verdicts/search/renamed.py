"""What an old circuit has, in the words of a new one: its runs and its certificates. Inputs and latches are found by
their names, and those that have a new name by their width and order among those that are left. Nothing here is
trusted: a mistake makes a run or a certificate that `aig` rejects."""

from __future__ import annotations

import re
from typing import Dict, Iterable, List, Optional, Sequence, Tuple

from aig.parts import Parts, parts_of
from aig.program import run as aig
from aig.entries import Entry, listed

# A section and a position there.
Place = Tuple[str, int]
_BIT = re.compile(r"\[\d+\]$")
_SHARED = "= "


class _Named:
    """A circuit with the names of its inputs and latches."""

    def __init__(self, circuit: bytes):
        self.entries: List[Entry] = [it for it in listed(aig("info", "--names", "--json", files=[circuit]))
                                     if it.letter in "il"]
        self.parts: Parts = parts_of(aig("toaig", "--to", "aag", files=[circuit]))
        self.by_word: Dict[Tuple[str, str], Entry] = {}
        for entry in self.entries:
            for word in entry.words:
                self.by_word.setdefault((entry.letter, word), entry)

    def initial(self, position: int) -> str:
        """The reset of a latch as a witness has it: `x` if it starts at any value."""
        literal, _, reset = self.parts.latches[position]
        return "x" if reset == literal else str(reset)


class Renamed:
    """From the inputs and latches of an old circuit to those of a new one."""

    def __init__(self, old: bytes, new: bytes):
        self._old, self._new = _Named(old), _Named(new)
        self.to: Dict[Place, Entry] = {}
        taken = set()
        for entry in self._old.entries:
            found = next((self._new.by_word[entry.letter, it] for it in entry.words
                          if (entry.letter, it) in self._new.by_word), None)
            if found is not None and found.place not in taken:
                self.to[entry.letter, entry.position] = found
                taken.add(found.place)
        for letter in "il":
            lost = _vectors(it for it in self._old.entries
                            if it.letter == letter and (letter, it.position) not in self.to)
            free = _vectors(it for it in self._new.entries if it.letter == letter and it.place not in taken)
            self._by_width(lost, free)

    def _by_width(self, lost: Sequence[List[Entry]], free: Sequence[List[Entry]]) -> None:
        """Pairs vectors of one width in their order."""
        for width in {len(it) for it in lost}:
            pairs = zip((it for it in lost if len(it) == width), (it for it in free if len(it) == width))
            self.to.update(((one.letter, one.position), other) for was, now in pairs for one, other in zip(was, now))

    def witness(self, text: bytes, position: int) -> Optional[bytes]:
        """A run of the old circuit as one of the new. What it does not say is x, or the reset of a latch."""
        _, _, states, *frames = text.decode("ascii", "replace").split("\n")
        latches = [self._new.initial(at) for at in range(len(self._new.parts.latches))]
        for at, value in enumerate(states):
            to = self.to.get(("l", at))
            if to is not None and latches[to.position] == "x":
                latches[to.position] = value
        lines = ["1", f"b{max(position, 0)}", "".join(latches)]
        for frame in frames[:-2]:
            values = ["x"] * len(self._new.parts.inputs)
            for at, value in enumerate(frame):
                to = self.to.get(("i", at))
                if to is not None:
                    values[to.position] = value
            lines.append("".join(values))
        return "\n".join([*lines, ".", ""]).encode()

    def certificate(self, text: bytes) -> Optional[bytes]:
        """A certificate of the old circuit for the new one, without the claims that read a lost latch; nothing if no
        claim is left, or if it is none that `aig-verdicts` makes."""
        found = _Certificate.of(text)
        if found is None:
            return None
        now = {entry.literal: self.to.get((entry.letter, entry.position)) for entry in self._old.entries}
        shared: Dict[int, Optional[int]] = {}
        for at, literal in found.shared.items():
            to = now.get(literal)
            shared[at] = to.literal if to is not None else None
        return found.renamed(shared)


def _vectors(entries: Iterable[Entry]) -> List[List[Entry]]:
    """Bits `X[n]` of one name are a vector."""
    found: Dict[str, List[Entry]] = {}
    for it in entries:
        found.setdefault(_BIT.sub("", it.words[0]) if it.words else it.place, []).append(it)
    return list(found.values())


class _Certificate:
    """A certificate as abc.py makes it: `shared` has the literals of the circuit by the positions of its inputs."""

    def __init__(self, heading: Sequence[int], lines: Sequence[str], symbols: Dict[str, str], shared: Dict[int, int]):
        self._most, self._inputs, self._latches, _, self._gates, self._claims = heading
        self._lines, self._symbols, self.shared = lines, symbols, shared

    @staticmethod
    def of(text: bytes) -> Optional[_Certificate]:
        first, *lines = text.decode("ascii", "replace").split("\n")
        words = first.split()[1:]
        if not first.startswith("aag ") or len(words) != 6 or words[3] != "0" or not all(map(str.isdigit, words)):
            return None
        heading = [int(word) for word in words]
        count = heading[1] + heading[2] + heading[4] + heading[5]
        symbols = dict(line.split(" ", 1) for line in lines[count:] if " " in line)
        shared = {at: symbols.get(f"i{at}", "")[len(_SHARED):] for at in range(heading[1])}
        if len(lines) < count or "c" in lines[count:] or not all(map(str.isdigit, shared.values())):
            return None
        return _Certificate(heading, lines[:count], symbols, {at: int(literal) for at, literal in shared.items()})

    def renamed(self, shared: Dict[int, Optional[int]]) -> Optional[bytes]:
        """The same with other literals of the circuit. An input without one is the certificate's own, and no claim
        that is kept reads it."""
        begin = self._inputs + self._latches
        heads, body = self._lines[:begin], self._lines[begin:]
        claims, gates = body[: self._claims], body[self._claims :]
        lost = {int(heads[at]) for at, literal in shared.items() if literal is None}
        for gate in gates:
            made, *read = map(int, gate.split())
            if any(literal & ~1 in lost for literal in read):
                lost.add(made)
        kept = [claim for claim in claims if int(claim) & ~1 not in lost]
        if not kept:
            return None
        heading = f"aag {self._most} {self._inputs} {self._latches} 0 {self._gates} {len(kept)}"
        names = [f"i{at} {_SHARED}{literal}" for at, literal in shared.items() if literal is not None]
        names += [f"{place} {name}" for place, name in self._symbols.items() if place.startswith("l")]
        return "\n".join([heading, *heads, *kept, *gates, *names, ""]).encode()
