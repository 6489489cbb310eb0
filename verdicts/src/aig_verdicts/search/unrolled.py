"""Which gate of a circuit, at which frame, each variable of a formula of `aig cnf` is. Nothing of this is trusted: a
mistake makes a core that `aig refute` rejects."""

from __future__ import annotations

from functools import lru_cache
from typing import Collection, Dict, List, NamedTuple, Optional, Set, Tuple

from aig.parts import Parts, parts_of
from ..audit.pieces import ASSUMED, NEXT, RESET, Cut


class Layout:
    """A circuit whose sections are found by their variables.

    order  the places of the gates, by their levels and then by their variables, as `aig unroll` orders them
    rank   the place of each gate in that order, from 1
    """

    def __init__(self, parts: Parts):
        self.parts = parts
        self.order = _by_level(parts)
        self.rank = dict(zip([parts.gates[at][0] >> 1 for at in self.order], range(1, len(self.order) + 1)))
        self.inputs = {literal >> 1: k for k, literal in enumerate(parts.inputs, 1)}
        self.latches = {latch[0] >> 1: latch for latch in parts.latches}
        self.all_latches = [latch[0] for latch in parts.latches]


@lru_cache(maxsize=4)
def layout_of(text: bytes) -> Layout:
    """Of a circuit in the format aag. Many rows are about one."""
    return Layout(parts_of(text))


def _by_level(circuit: Parts) -> List[int]:
    levels: Dict[int, int] = {0: 0}
    levels.update((literal >> 1, 0) for literal in circuit.inputs)
    levels.update((literal >> 1, 0) for literal, _, _ in circuit.latches)
    try:
        for gate, left, right in circuit.gates:  # each comes after its sides in most files
            one, two = levels[left >> 1], levels[right >> 1]
            levels[gate >> 1] = (one if one > two else two) + 1
    except KeyError:
        _in_any_order(circuit, levels)
    by_variable = sorted(range(len(circuit.gates)), key=[gate for gate, _, _ in circuit.gates].__getitem__)
    return sorted(by_variable, key=[levels[gate >> 1] for gate, _, _ in circuit.gates].__getitem__)


def _in_any_order(circuit: Parts, levels: Dict[int, int]) -> None:
    """Finds the levels of the gates that have none yet."""
    sides = {gate[0] >> 1: (gate[1] >> 1, gate[2] >> 1) for gate in circuit.gates}
    for root in sides:
        left = [root]
        while left:
            variable = left[-1]
            missing = [it for it in sides[variable] if it not in levels] if variable not in levels else []
            left += missing
            if not missing:
                left.pop()
                if variable not in levels:
                    levels[variable] = 1 + max(levels[it] for it in sides[variable])


class Side(NamedTuple):
    """A side of a gate of the unrolled circuit: its literal there, what it reads of the circuit, if that is a literal of
    it, and the constraint that it is of, or -1."""

    literal: int
    read: int = -1
    constraint: int = -1


class Left(NamedTuple):
    """A circuit of which only some pieces are kept, or all of it, and the properties that its formulas are about."""

    layout: Layout
    kept: Optional[Collection[Cut]]
    bad: List[int]

    def has(self, cut: Cut) -> bool:
        """Whether what a line would cut is kept."""
        return self.kept is None or cut in self.kept


class Unrolled:
    """The literals of a circuit without some pieces that is unrolled for some frames, from the resets or from any state."""

    def __init__(self, circuit: Left, frames: int, from_any: bool):
        self.layout, self.bad = circuit.layout, circuit.bad
        self._from_any, parts = from_any, circuit.layout.parts
        self.constraints = [it if circuit.has((ASSUMED, at)) else 1 for at, it in enumerate(parts.constraints)]
        free = [] if circuit.kept is None else [it for it in circuit.layout.all_latches if (NEXT, it) not in circuit.kept]
        self._fresh = dict(zip(free, range(len(parts.inputs) + 1, len(parts.inputs) + len(free) + 1)))
        self._inputs = len(parts.inputs) + len(free)
        fixed = {} if from_any else {latch: reset for latch, _, reset in parts.latches
                                     if reset in (0, 1) and circuit.has((RESET, latch))}
        first = [latch for latch in circuit.layout.all_latches if latch not in fixed] if fixed else circuit.layout.all_latches
        count = self._inputs * frames
        self._first: Dict[int, int] = dict(zip(first, range(2 * count + 2, 2 * (count + len(first)) + 2, 2)))
        self._first.update(fixed)
        self._base = count + len(first)
        self._count = len(parts.gates) + (len(parts.constraints) + len(self.bad)) * bool(parts.constraints)

    def _literal(self, frame: int, literal: int) -> int:
        """The literal that one of the circuit is at a frame."""
        sign, variable, layout = literal & 1, literal >> 1, self.layout
        while variable in layout.latches:
            latch, following, _ = layout.latches[variable]
            if frame == 0:
                return self._first[latch] ^ sign
            frame -= 1
            if latch in self._fresh:
                return 2 * (frame * self._inputs + self._fresh[latch]) ^ sign
            sign, variable = sign ^ (following & 1), following >> 1
        if variable in layout.rank:
            return 2 * (self._base + frame * self._count + layout.rank[variable]) ^ sign
        return (2 * (frame * self._inputs + layout.inputs[variable]) if variable else 0) ^ sign

    def _chain(self, frame: int, position: int) -> int:
        """The gate that says that the constraints are 1 up to this one, at this frame and at all before."""
        return 2 * (self._base + frame * self._count + len(self.layout.order) + position + 1)

    def gate(self, variable: int) -> Tuple[int, List[Side]]:
        """The frame of a gate, by its variable in the unrolled circuit, and its sides."""
        frame, at = divmod(variable - self._base - 1, self._count)
        order, last = self.layout.order, len(self.constraints) - 1
        if at < len(order):
            return frame, [Side(self._literal(frame, it), it) for it in self.layout.parts.gates[order[at]][1:]]
        position = at - len(order)
        if position > last:
            bad = self.bad[position - last - 1]
            return frame, [Side(self._literal(frame, bad), bad), Side(self._chain(frame, last))]
        kept = self.constraints[position]
        before = (self._chain(frame, position - 1) if position else
                  self._chain(frame - 1, last) if frame else 1)
        return frame, [Side(self._literal(frame, kept), kept, position), Side(before)]

    def reads(self, frame: int, literal: int) -> Set[Cut]:
        """What a literal at a frame rests on: the next state of a latch, what that reads if it is a latch, and so on."""
        found: Set[Cut] = set()
        while literal >> 1 in self.layout.latches:
            latch, following, reset = self.layout.latches[literal >> 1]
            if frame == 0:
                if not self._from_any and reset != latch:
                    found.add((RESET, latch))
                break
            found.add((NEXT, latch))
            if latch in self._fresh:
                break
            frame, literal = frame - 1, following
        return found

    def of_side(self, frame: int, side: Side) -> Set[Cut]:
        """The cuts that would change a side."""
        found = self.reads(frame, side.read) if side.read >= 0 else set()
        return found | {(ASSUMED, side.constraint)} if side.constraint >= 0 else found
