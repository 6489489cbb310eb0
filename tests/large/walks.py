"""A run that `why` explains by a walk over many gates for each of its lines: 300 latches of 1,000 gates at 500 frames,
in 24 KB. The time is the product of the three; docs/PERFORMANCE.md says so. More than that, as a walk for each latch of
each line, would take minutes."""

import resource

from large.reductions import Gates
from library.runs import Ended, write

LATCHES, GATES, FRAMES = 300, 1000, 500
SECONDS = 30  # of processor time


def walks(program, tally, _):
    write("circuit", circuit())
    write("rows", "1\n" * FRAMES)
    ended = program.run("why", "--of", "b0", "circuit", "rows", preexec_fn=limited, timeout=4 * SECONDS)
    if ended.status is None or ended.status < 0:
        tally.check("a walk for each line", False, f"it does not end within {SECONDS} seconds")
    else:
        tally.compare("a walk for each line", ended, Ended(0, "".join(f"{line}\n" for line in lines()).encode(), b""))


def circuit():
    """The property is that all latches are 1. The first latch follows it, and each other one follows a chain of gates
    over the input."""
    latches = [4 + 2 * place for place in range(LATCHES)]
    gates = Gates(latches[-1] + 2)
    every = latches[0]
    for latch in latches[1:]:
        every = gates.both(every, latch)
    last = 2
    for _ in range(GATES):
        last = gates.both(last, last)
    following = [every] + [last] * (LATCHES - 1)
    head = f"aag {gates.top // 2} 1 {LATCHES} 0 {len(gates.lines)} 1\n2\n"
    return (head + "".join(f"{latch} {after} 1\n" for latch, after in zip(latches, following)) + f"{every}\n"
            + "".join(gates.lines))


def lines():
    every = " ".join(f"l{place}=1" for place in range(LATCHES))
    yield f"b0=1 at {FRAMES - 1}: {every}"
    for frame in range(FRAMES - 1, 0, -1):
        yield f"l0=1 at {frame}, by {frame - 1}: {every}"
        for place in range(1, LATCHES):
            yield f"l{place}=1 at {frame}, by {frame - 1}: i0=1"
    yield f"at 0, by reset: {every}"


def limited():
    resource.setrlimit(resource.RLIMIT_CPU, (SECONDS, SECONDS))
