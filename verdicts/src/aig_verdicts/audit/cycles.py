"""At which cycle a run violates its assertion. An assertion at a clock's edge is about the values that the edge
samples, and its property is 1 one frame later. The names of the registers that Yosys has for it tell the two kinds
apart."""

from __future__ import annotations

import re
from functools import lru_cache
from typing import Dict, NamedTuple, Optional

from aig.parts import parts_of
from aig.program import run as call
from aig.entries import listed
from .row import Row

# A register of an assertion at an edge, as names.py calls it; one of a design with several clocks.
_SAMPLE = re.compile(r"(.*\.)?(value|when)_\d+(_next)?(_before)?(_\d+)?")
_OF_SEVERAL_CLOCKS = re.compile(r"\S+_before(_\d+)?(\[\d+\])?")
# What a literal reads: registers of an assertion at an edge, other inputs and latches.
_SAMPLES, _OTHERS = 1, 2


class Moment(NamedTuple):
    """When a run violates an assertion, or reaches a cover.

    number  that of the cycle, or of the frame where there are several clocks
    seen    the frame of the run at which the property is 1
    """

    unit: str
    number: int
    seen: int

    def __str__(self) -> str:
        return f"{self.unit} {self.number}"


class Cycles:
    """The moments of the runs of a circuit."""

    def __init__(self, circuit: bytes):
        in_order = call("toaig", "--to", "aig", files=[circuit])  # each gate after those that it reads
        entries = [it for it in listed(call("info", "--names", "--json", files=[in_order])) if it.literal is not None]
        registers = [it for it in entries if it.letter == "l"]
        has_several_clocks = any(_OF_SEVERAL_CLOCKS.fullmatch(it.name) for it in registers)
        self._unit = "frame" if has_several_clocks else "cycle"
        reads: Dict[int, int] = {0: 0}
        for it in entries:
            if it.letter in "il" and it.literal is not None:
                is_sample = it.letter == "l" and _SAMPLE.fullmatch(it.name) is not None
                reads[it.literal] = _SAMPLES if is_sample else _OTHERS
        if _SAMPLES in reads.values():
            for gate, left, right in parts_of(call("toaig", "--to", "aag", files=[in_order])).gates:
                reads[gate] = reads[left & ~1] | reads[right & ~1]
        bad = {it.position: it.literal for it in entries if it.letter == "b" and it.literal is not None}
        self._reads = {position: reads.get(literal & ~1, _OTHERS) for position, literal in bad.items()}

    def at(self, row: Row) -> Optional[Moment]:
        """The moment of a row of a run; None where the property also reads other values than those of one edge."""
        seen, reads = row.frames - 1, self._reads.get(row.position)
        if reads == _SAMPLES and seen > 0:
            return Moment(self._unit, seen - 1, seen)
        return None if reads is None or reads & _SAMPLES else Moment(self._unit, seen, seen)


@lru_cache(maxsize=1)
def cycles_of(circuit: bytes) -> Cycles:
    """The same for the same circuit: while a search goes on, its page is written often."""
    return Cycles(circuit)
