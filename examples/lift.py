#!/usr/bin/env python3
"""Lifts a state of a counterexample: from a frame on, the latches and inputs that the failure does not need become x.

usage: lift.py CIRCUIT WITNESS FRAME

Each latch of that frame and each input from it on becomes x in turn, and gets its value back if the property or a
constraint is no longer 1. A bench evaluates only what such an edit changes. Beside it, the same is done by evaluating
each gate at each frame again. At the end `aig check` confirms that any state and inputs that are left fail."""

import sys
import time
from array import array

import aig


class Edits:
    """Changes one value: the bench follows."""

    def __init__(self, bench, rows):
        self.bench, self.rows = bench, list(rows)

    def put(self, latch, frame, position, value):
        if latch is not None:
            self.bench.reset(latch, value)
        else:
            self.bench.set(position, frame, value)


class Anew(Edits):
    """Changes one value, and evaluates all again."""

    def put(self, latch, frame, position, value):
        if latch is not None:
            self.bench.reset(latch, value)
        else:
            row = self.rows[frame]
            self.rows[frame] = f"{row[:position]}{value}{row[position + 1:]}"
        self.bench.replace_rows(self.rows)


def bench_at(circuit, witness, frame):
    """A bench that starts in the state of this frame of a witness's run."""
    start = circuit.bench(witness.rows)
    latches = circuit.signals.section("l")
    for latch, value in zip(latches, witness.start):
        start.reset(latch.literal, value)
    state = start.trace().states[frame]
    start.close()
    bench = circuit.bench(witness.rows[frame:])
    for latch, value in zip(latches, state):
        bench.reset(latch.literal, value)
    return bench, state


def lift(changer, cells, values):
    """Frees what the cells do not need to be 1, and returns how many values are free then."""
    ones, free = b"\1" * (len(cells) // 2), 0
    for latch, frame, position, value in values:
        changer.put(latch, frame, position, "x")
        if changer.bench.values(cells) == ones:
            free += 1
        else:
            changer.put(latch, frame, position, value)
    return free


def main():
    if len(sys.argv) != 4:
        sys.exit(__doc__)
    circuit = aig.read(sys.argv[1])
    with open(sys.argv[2], "rb") as file:
        witness = circuit.check(file.read()).witness
    frame = int(sys.argv[3])
    for kind in (Anew, Edits):
        bench, state = bench_at(circuit, witness, frame)
        rows = bench.rows
        bad = circuit.signals.section("b")[witness.position].literal
        kept = [(at, it.literal) for at in range(len(rows)) for it in circuit.signals.section("c")]
        cells = array("I", [number for cell in [(len(rows) - 1, bad), *kept] for number in cell])
        latches = circuit.signals.section("l")
        values = [(it.literal, 0, 0, value) for it, value in zip(latches, state) if value != "x"]
        values += [(None, at, position, value) for at, row in enumerate(rows) for position, value in enumerate(row)
                   if value != "x"]
        began = time.process_time()
        free = lift(kind(bench, rows), cells, values)
        print(f"{kind.__name__}: {free} of {len(values)} values are free, "
              f"{(time.process_time() - began) * 1e6 / len(values):.0f} us each")
    print(f"state {frame}: {bench.trace().states[0]}")
    lifted, rows = bench.save()
    print(lifted.check(lifted.witness(rows, witness.position)).line)


if __name__ == "__main__":
    main()
