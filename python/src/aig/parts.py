"""The numbers of a circuit, as its text has them."""

from __future__ import annotations

from itertools import islice
from typing import Iterator, List, NamedTuple, Tuple


class Parts(NamedTuple):
    """The sections of a circuit.

    latches  each with its literal, its next state and its reset: 0, 1, or the literal itself for any value
    gates    each with its literal and its two right sides
    """

    inputs: List[int]
    latches: List[Tuple[int, int, int]]
    outputs: List[int]
    bad: List[int]
    constraints: List[int]
    gates: List[Tuple[int, int, int]]


def parts_of(text: bytes) -> Parts:
    """The sections of a file in the format aag that the program wrote."""
    lines = iter(text.split(b"\n"))
    counts = [*map(int, next(lines).split()[2:]), 0, 0, 0, 0]
    inputs, latches, outputs, gates, bad, constraints, justice, fairness = counts[:8]

    def numbers(count: int) -> Iterator[List[int]]:
        return ([*map(int, next(lines).split())] for _ in range(count))

    def literals(count: int) -> List[int]:
        return [row[0] for row in numbers(count)]

    of_inputs = literals(inputs)
    of_latches = [(row[0], row[1], row[2] if len(row) > 2 else 0) for row in numbers(latches)]
    of_properties = literals(outputs), literals(bad), literals(constraints)
    literals(sum(literals(justice)) + fairness)
    of_gates = [*map(int, b" ".join(islice(lines, gates)).split())]
    return Parts(of_inputs, of_latches, *of_properties, [*zip(of_gates[0::3], of_gates[1::3], of_gates[2::3])])
