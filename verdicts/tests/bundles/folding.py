"""The circuit that ABC is asked about, beside the one that it was made of, in the plain simulator of tests/library."""

from __future__ import annotations

import random

from aig_verdicts.search import abc
from library.reference import Parts, values

CIRCUITS, FRAMES = 300, 6


def circuit_of(numbers):
    """A small random circuit with one property: latches that start at 0, at 1 and at any value, and constraints."""
    inputs, latches, gates = numbers.randint(0, 3), numbers.randint(1, 4), numbers.randint(0, 9)
    most = inputs + latches + gates
    states = [2 * (inputs + 1 + k) for k in range(latches)]

    def literal(most_of_it=most):
        return numbers.randint(0, 2 * most_of_it + 1)

    kept = [literal() for _ in range(numbers.randint(0, 2))]
    lines = [f"aag {most} {inputs} {latches} 0 {gates} 1 {len(kept)}", *(str(2 * k + 2) for k in range(inputs))]
    lines += [f"{it} {literal()} {numbers.choice((0, 1, it))}" for it in states]
    lines += map(str, [literal(), *kept])
    lines += [f"{2 * at} {literal(at - 1)} {literal(at - 1)}" for at in range(inputs + latches + 1, most + 1)]
    return "\n".join([*lines, ""])


def bits(numbers, count):
    return "".join(numbers.choice("01") for _ in range(count))


def of(frame, literal):
    value = frame[literal & ~1]
    return {"0": "1", "1": "0"}.get(value, "x") if literal & 1 else value


def runs_of(text, state, rows):
    """The values of the circuit's run from this state."""
    parts = Parts(text)
    for latch, value in zip(parts.latches, state):
        latch[2] = latch[0] if value == "x" else int(value)
    return parts, values(parts, rows)


def names_of(text, letter):
    """The names of the inputs or latches, in their order."""
    return [line.split(" ", 1)[1] for line in text.split("\n") if line.startswith(letter)]


def folding(_, tally, __):
    """All latches of the folded circuit start at 0. In each frame of random runs, its output is 1 exactly where the
    property is bad and all constraints were 1 so far. A run that ABC names is a run of the circuit, for each value of
    an x."""
    for seed in range(CIRCUITS):
        numbers = random.Random(seed)
        text = circuit_of(numbers)
        parts = Parts(text)
        state = "".join(numbers.choice("01") if it[2] == it[0] else str(it[2]) for it in parts.latches)
        rows = [bits(numbers, len(parts.inputs)) for _ in range(FRAMES)]
        _, frames = runs_of(text, state, rows)
        held, wanted = True, []
        for frame in frames:
            held = held and all(of(frame, it) == "1" for it in parts.constraints)
            wanted.append("1" if held and of(frame, parts.bad[0]) == "1" else "0")
        one = abc.folded(text.encode()).decode()
        folded, names = Parts(one), names_of(one, "i")
        tally.check(f"folding: {seed}: starts", all(latch[2] == 0 for latch in folded.latches), one)
        starts = [state, *(bits(numbers, len(state)) for _ in rows[1:])]  # only those of the first frame are read
        played = ["".join(row[int(name[1:])] if name[0] == "i" else start[int(name[1:])] for name in names)
                  for row, start in zip(rows, starts)]
        got = [of(frame, folded.outputs[0]) for frame in values(folded, played)]
        tally.compare(f"folding: {seed}: {text!r}", got, wanted)
        if "1" in wanted:
            witness(tally, seed, text, names, played[: wanted.index("1") + 1])


def witness(tally, seed, text, names, played):
    """ABC's text of a run that is bad in its last frame, as a witness: the property is 1 for each value of the x."""
    lines = [f"{name}@{frame}={value}" for frame, row in enumerate(played) for name, value in zip(names, row)]
    said = abc.witness(text.encode(), 7, len(played), "\n".join(["# LENGTH", *lines, "# DONE"]).encode()).decode()
    one, position, state, *rows = said.split("\n")
    tally.compare(f"folding: {seed}: the witness", (one, position, rows[-2:], len(rows)),
                  ("1", "b7", [".", ""], len(played) + 2))
    parts, frames = runs_of(text, state, rows[:-2])
    kept = all(of(frame, it) == "1" for frame in frames for it in parts.constraints)
    tally.check(f"folding: {seed}: the witness is one", kept and of(frames[-1], parts.bad[0]) == "1", said)
