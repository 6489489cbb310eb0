"""Gates of a circuit without those that are twice there, constant, read by nobody, or seen to be simpler by what they read: in
one pass, where Yosys goes round for each level of gates."""

from __future__ import annotations

from typing import Collection, Dict, Iterable, List, Mapping, Optional, Sequence, Set, Tuple

# A gate: its literal, and the two that it is the AND of.
Gate = Tuple[int, int, int]


class Hashed:
    """The gates of a circuit, each after those that it reads."""

    def __init__(self, gates: Sequence[Gate]):
        self._means: Dict[int, int] = {}  # of a gate that is none any more, the literal that has its value
        self._gates: Dict[Tuple[int, int], int] = {}
        self._read: Dict[int, Tuple[int, int]] = {}  # what each gate reads
        for literal, one, other in gates:
            self._means[literal] = self._conjunction(literal, self.literal(one), self.literal(other))

    def _conjunction(self, literal: int, one: int, other: int) -> int:
        """A literal that has the value of the AND of two: the one given, if none is there yet."""
        low, high = sorted((one, other))
        if low == 0 or high == low ^ 1:
            return 0
        if low in (1, high):
            return high
        found = self._gates.get((low, high))
        if found is None:
            found = self._of_one(literal, low, high)
        if found is None:
            found = self._of_one(literal, high, low)
        if found is None:
            found = self._of_both(low, high)
        if found is None:
            self._gates[low, high], self._read[literal], found = literal, (low, high), literal
        return found

    def _of_one(self, literal: int, one: int, gate: int) -> Optional[int]:
        """What the AND of a literal and a gate is, if the gate reads that literal."""
        read = self._read.get(gate & ~1, ())
        if one ^ 1 in read:
            return one if gate & 1 else 0
        if one not in read:
            return None
        return self._conjunction(literal, one, sum(read) - one ^ 1) if gate & 1 else gate

    def _of_both(self, one: int, other: int) -> Optional[int]:
        """What the AND of two gates is, if they read a literal and its opposite."""
        read, others = self._read.get(one & ~1, ()), self._read.get(other & ~1, ())
        if not any(it ^ 1 in others for it in read):
            return None
        if not one & other & 1:
            return (other if one & 1 else one) if (one | other) & 1 else 0
        common = [it for it in read if it in others]
        return common[0] ^ 1 if common else None

    def literal(self, literal: int) -> int:
        """The literal that has the value of this one."""
        return self._means.get(literal & ~1, literal & ~1) ^ (literal & 1)

    def read_by(self, roots: Iterable[int], latches: Mapping[int, int]) -> Set[int]:
        """The positive literals that these need, also through latches, whose next states are given by their literals."""
        found: Set[int] = set()
        waiting = [self.literal(it) & ~1 for it in roots]
        while waiting:
            it = waiting.pop()
            if it not in found:
                found.add(it)
                waiting += [read & ~1 for read in self._read.get(it, ())]
                waiting += [self.literal(latches[it]) & ~1] if it in latches else []
        return found

    def gates(self, needed: Collection[int]) -> List[Gate]:
        """Those gates, each after those that it reads."""
        return [(literal, low, high) for (low, high), literal in self._gates.items() if literal in needed]
