"""Runs of a circuit that are drawn at random, many side by side. What they reach, no proof rules out, so no solver is asked
for one. Nothing of this is trusted: a mistake leaves a core larger than it might be."""

from __future__ import annotations

import random
from functools import lru_cache
from typing import Dict, FrozenSet, List, NamedTuple, Optional

from aig.parts import Parts
from .unrolled import Layout, layout_of

# So many runs are drawn, of so many frames, over circuits of at most so many gates.
COUNT, FRAMES, MOST_GATES = 512, 2, 1_000_000


class Reached(NamedTuple):
    """The positions of properties that are 1 somewhere.

    anywhere     in any state in which the assumptions are kept
    unassuming   in a run from the resets that may break the assumptions
    """

    anywhere: FrozenSet[int]
    unassuming: FrozenSet[int]


@lru_cache(maxsize=4)
def reached_by(text: bytes) -> Reached:
    """Of a circuit in the format aag."""
    layout = layout_of(text)
    if len(layout.parts.gates) > MOST_GATES:
        return Reached(frozenset(), frozenset())
    drawn = _Drawn(layout)
    values = drawn.frame(None, {})
    kept = drawn.all_ones
    for literal in layout.parts.constraints:
        kept &= values[literal]
    anywhere = drawn.bad(values, kept)
    unassuming: FrozenSet[int] = frozenset()
    before: Optional[List[int]] = None
    for _ in range(FRAMES):
        before = values = drawn.frame(before, drawn.resets)
        unassuming |= drawn.bad(values, drawn.all_ones)
    return Reached(anywhere, unassuming)


class _Drawn:
    """The values of a circuit in runs side by side: a bit of an integer is one run."""

    def __init__(self, layout: Layout):
        self._parts: Parts = layout.parts
        self._gates = [layout.parts.gates[at] for at in layout.order]
        self._size = 1 + max([0, *layout.inputs, *layout.latches, *layout.rank])
        self._chance = random.Random(1)  # the same runs each time
        self.all_ones = (1 << COUNT) - 1
        self.resets = {latch: self.all_ones * reset for latch, _, reset in self._parts.latches if reset in (0, 1)}

    def bad(self, values: List[int], among: int) -> FrozenSet[int]:
        """The properties that are 1 in one of these runs."""
        return frozenset(at for at, it in enumerate(self._parts.bad) if values[it] & among)

    def frame(self, before: Optional[List[int]], first: Dict[int, int]) -> List[int]:
        """The values of all literals at a frame, after one or at the first, where some latches have these values."""
        parts, ones = self._parts, self.all_ones
        values = [0, ones] * self._size
        for literal in parts.inputs:
            values[literal] = self._chance.getrandbits(COUNT)
            values[literal + 1] = values[literal] ^ ones
        for latch, following, _ in parts.latches:
            values[latch] = before[following] if before is not None else (
                first[latch] if latch in first else self._chance.getrandbits(COUNT))
            values[latch + 1] = values[latch] ^ ones
        for gate, left, right in self._gates:
            values[gate] = values[left] & values[right]
            values[gate + 1] = values[gate] ^ ones
        return values
