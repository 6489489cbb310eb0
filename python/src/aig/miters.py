"""Two circuits side by side, to ask whether they do the same."""

from __future__ import annotations

from typing import Dict, List, Tuple

from .parts import parts_of
from .circuit import Circuit
from .entries import Entry

Pairs = List[Tuple[Entry, Entry]]


def miter(left: Circuit, right: Circuit, by: str = "name", starts: bool = False) -> Circuit:
    """The circuit whose one property, `differ`, is that an output of the two circuits differs, while the constraints of
    both are kept. Both get the same inputs. Its outputs and latches are those of both, as `left.NAME` and `right.NAME`.

    by      how inputs and outputs are matched: by `name`, or by `position`
    starts  whether uninitialised latches are matched, too. Each then starts at the same value as its match; else each
            starts at any value by itself

    A ValueError says what has no match, or several.
    """
    if by not in ("name", "position"):
        raise ValueError(f"circuits are matched by name or by position, and not by {by!r}")
    both = _Both(left, right, _matched(left, right, "i", by))
    outputs = _matched(left, right, "o", by)
    if not outputs:
        raise ValueError("the circuits have no outputs: nothing can differ")
    return both.circuit(outputs, _matched(left, right, "l", by, uninitialised=True) if starts else [])


def _matched(left: Circuit, right: Circuit, letter: str, by: str, uninitialised: bool = False) -> Pairs:
    """The entries of one section in pairs, in the order of the first circuit."""
    sides = []
    for side in (left, right):
        entries = [entry for entry in side.entries if entry.letter == letter]
        if uninitialised:
            latches = parts_of(side.to("aag")).latches
            entries = [entry for entry in entries if latches[entry.position][0] == latches[entry.position][2]]
        sides.append(_by_key(entries, by))
    ours, theirs = sides
    for key in [*ours, *theirs]:
        if key not in ours or key not in theirs:
            which, entry = ("first", ours[key]) if key in ours else ("second", theirs[key])
            raise ValueError(f"{entry.label!r} of the {which} circuit has no match in the other")
    return [(entry, theirs[key]) for key, entry in ours.items()]


def _by_key(entries: List[Entry], by: str) -> Dict[object, Entry]:
    found: Dict[object, Entry] = {}
    for entry in entries:
        key = entry.label if by == "name" else entry.position
        if key in found:
            raise ValueError(f"two entries have the name {key!r}: match by position")
        found[key] = entry
    return found


class _Both:
    """The parts of both circuits, over one numbering."""

    def __init__(self, left: Circuit, right: Circuit, inputs: Pairs):
        self._sides = [("left", left), ("right", right)]
        self._parts = [parts_of(side.to("aag")) for _, side in self._sides]
        self._inputs = inputs
        self._last = 0
        self._new: List[Dict[int, int]] = [{0: 0}, {0: 0}]
        self._gates: List[Tuple[int, int, int]] = []
        for pair in inputs:
            literal = self._next()
            for side, entry in enumerate(pair):
                self._new[side][self._parts[side].inputs[entry.position]] = literal
        for section in ("latches", "gates"):
            for side, parts in enumerate(self._parts):
                for row in getattr(parts, section):
                    self._new[side][row[0]] = self._next()

    def _next(self) -> int:
        self._last += 1
        return 2 * self._last

    def _of(self, side: int, literal: int) -> int:
        """The literal in the new numbering."""
        return self._new[side][literal & ~1] ^ literal & 1

    def _both(self, one: int, other: int) -> int:
        gate = self._next()
        self._gates.append((gate, one, other))
        return gate

    def _all(self, literals: List[int]) -> int:
        """A literal that is 1 if all these are: a tree of gates."""
        while len(literals) > 1:
            pairs = [literals[at : at + 2] for at in range(0, len(literals), 2)]
            literals = [self._both(*pair) if len(pair) == 2 else pair[0] for pair in pairs]
        return literals[0] if literals else 1

    def _same(self, one: int, other: int) -> int:
        return self._both(self._both(one, other ^ 1) ^ 1, self._both(one ^ 1, other) ^ 1)

    def _copied(self) -> List[str]:
        """The latches of both, as lines; their gates are made."""
        lines = []
        for side, parts in enumerate(self._parts):
            for literal, following, reset in parts.latches:
                start = reset if reset < 2 else self._of(side, reset)
                lines.append(f"{self._of(side, literal)} {self._of(side, following)} {start}")
            for gate, one, two in parts.gates:
                self._gates.append((self._of(side, gate), self._of(side, one), self._of(side, two)))
        return lines

    def _literals(self, section: str) -> List[int]:
        """The literals of a section of both."""
        return [self._of(side, it) for side, parts in enumerate(self._parts) for it in getattr(parts, section)]

    def _all_same(self, pairs: Pairs, section: str) -> int:
        """A literal that is 1 if the entries of each pair have the same value."""
        literals: List[int] = []
        for pair in pairs:
            found = (getattr(self._parts[side], section)[entry.position] for side, entry in enumerate(pair))
            one, other = (self._of(side, it if section == "outputs" else it[0]) for side, it in enumerate(found))
            literals.append(self._same(one, other))
        return self._all(literals)

    def _tied(self, latches: Pairs, lines: List[str]) -> List[int]:
        """The constraint that these latches start at the same values: a latch is 0 at the start only."""
        if not latches:
            return []
        started = self._next()
        lines.append(f"{started} 1 0")
        return [self._both(started ^ 1, self._all_same(latches, "latches") ^ 1) ^ 1]

    def circuit(self, outputs: Pairs, latches: Pairs) -> Circuit:
        lines = self._copied()
        constraints = self._literals("constraints") + self._tied(latches, lines)
        differ = self._all_same(outputs, "outputs") ^ 1
        shown = self._literals("outputs")
        counts = [self._last, len(self._inputs), len(lines), len(shown), len(self._gates), 1, len(constraints)]
        body = ["aag " + " ".join(map(str, counts))]
        body += [str(2 * (position + 1)) for position in range(len(self._inputs))] + lines
        body += map(str, [*shown, differ, *constraints])
        body += (f"{gate} {one} {other}" for gate, one, other in self._gates)
        text = "\n".join([*body, *self._symbols(bool(latches)), ""])
        return Circuit(text.encode("utf-8", "surrogateescape"))

    def _symbols(self, tied: bool) -> List[str]:
        lines = [f"i{position} {entry.name}" for position, (entry, _) in enumerate(self._inputs) if entry.name]
        for letter in "lo":
            position = 0
            for name, side in self._sides:
                for entry in (it for it in side.entries if it.letter == letter):
                    words = " ".join(f"{name}.{word}" if word else "" for word in entry.label.split(" "))
                    lines.append(f"{letter}{position} {words}")
                    position += 1
            if tied and letter == "l":
                lines.append(f"l{position} started")
        return lines + ["b0 differ"]
