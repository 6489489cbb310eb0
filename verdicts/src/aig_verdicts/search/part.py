"""The part of a circuit that a property reads: `aig cnf` makes a formula of that part alone. Nothing of this is trusted, as
nothing in unrolled.py is."""

from __future__ import annotations

from typing import List, Set

from ..audit.pieces import ASSUMED, NEXT
from .unrolled import Layout, Left


def part_of(circuit: Left, at: int) -> Left:
    """What the property at a position and the assumptions read: in their frame, and through registers in the frames before.
    It has that one property, and all assumptions."""
    read, parts = _read(circuit, at), circuit.layout.parts
    return Left(Layout(parts._replace(
        inputs=[literal for literal in parts.inputs if literal >> 1 in read],
        latches=[latch for latch in parts.latches if latch[0] >> 1 in read],
        gates=[gate for gate in parts.gates if gate[0] >> 1 in read],
    )), circuit.kept, [circuit.bad[at]])


def _read(circuit: Left, at: int) -> Set[int]:
    """The variables that are read. A register whose next state is cut reads nothing."""
    layout = circuit.layout
    found: Set[int] = set()
    left: List[int] = [circuit.bad[at]]
    left += [literal for k, literal in enumerate(layout.parts.constraints) if circuit.has((ASSUMED, k))]
    while left:
        variable = left.pop() >> 1
        if variable in found:
            continue
        found.add(variable)
        if variable in layout.rank:
            left += layout.parts.gates[layout.order[layout.rank[variable] - 1]][1:]
        elif variable in layout.latches and circuit.has((NEXT, 2 * variable)):
            left.append(layout.latches[variable][1])
    return found
