"""Explanations of runs over a circuit of a million gates: `aig why` takes at most four times the time in which a bench
computes the values of the run, be one literal explained or a vector of all latches. A time is processor time of a whole
run; both take turns, and of each the least counts."""

import random

from large.circuits import random_circuit
from library.plain_reader import spelled
from library.runs import Ended, write
from library.times import processor_time

INPUTS, LATCHES, GATES, FRAMES = 1000, 1000, 1_000_000, 60
TURNS = 3
MOST = 4.0  # times as long


def explanations(program, tally, _):
    rng = random.Random(GATES)
    parts = random_circuit(rng, (INPUTS, LATCHES, GATES, 1))
    names = [(b"l", at, b"state[%d]" % at) for at in range(LATCHES)]
    write("circuit", spelled(parts._replace(names=names), "aig"))
    write("rows", "".join(f"{''.join(rng.choices('01', k=INPUTS))}\n" for _ in range(FRAMES)))
    write("script", "")
    values, _ = least(program, "bench", "circuit", "rows", "script")
    for name in ("o0", "state"):
        taken, ended = least(program, "why", "--of", name, "circuit", "rows")
        tally.check(f"why: {name} of a million gates",
                    ended.status == 0 and ended.out.startswith(b"%s=" % name.encode()),
                    ended)
        tally.check(f"why: {name} of a million gates: its time", taken <= MOST * values,
                    f"{taken:.2f} s; the values take {values:.2f} s")


def least(program, *words):
    """The least time of a run, and how it ended."""
    return min((processor_time(lambda: program.run(*words)) for _ in range(TURNS)), key=lambda it: it[0])
