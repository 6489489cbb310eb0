"""Work up to the limits of a bench, with results that are computed here or by `reference.py`. A script unrolls a
circuit of 20,000 gates for 60 frames, so for over a million gates. A script appends 65,536 frames one by one, and one
more is over the limit. Rewires are at nets of exactly 3, 4 and 5 gates, where a list of fan-outs grows. A shift
register that nothing reads is unrolled for the greatest number of frames, which takes no time per frame."""

import random
import resource

from library import reference
from library.runs import Ended, write

GATES, FRAMES = 20_000, 60
MOST_FRAMES = 65536
LATCHES = 100_000
SECONDS = 5  # of processor time: a step per latch and frame takes 26


def unrolled_by_a_script(program, tally):
    chance = random.Random(7)
    gates = "".join(f"{left} {chance.randrange(2, left)} {chance.randrange(2, left)}\n"
                    for left in range(6, 6 + 2 * GATES, 2))
    circuit = f"aag {GATES + 2} 1 1 1 {GATES}\n2\n4 {4 + 2 * GATES}\n{5 + 2 * GATES}\n{gates}"
    write("circuit", circuit)
    write("rows", "0\n" * FRAMES)
    write("script", f"u\nv {FRAMES - 1} 2\n")
    text = reference.unrolled(reference.Parts(circuit), FRAMES)
    tally.check("more than a million gates", text.count("\n") > 1_000_000, text[:80])
    ended = program.run("bench", "circuit", "rows", "script")
    why = f"status {ended.status}, {len(ended.out)} bytes that begin with {ended.out[:80]!r}"
    tally.check("a script unrolls for over a million gates", ended == Ended(0, f"{text}.\n0\n".encode(), b""), why)


def frames_one_by_one(program, tally):
    write("circuit", "aag 1 1 0 0 0\n2\n")
    write("rows", "")
    lines = "".join(f"+ {at % 2}\n" for at in range(MOST_FRAMES))
    write("script", f"{lines}+ 0\nv {MOST_FRAMES - 1} 2\nv {MOST_FRAMES} 2\n-\n+ 0\nv {MOST_FRAMES - 1} 2\n")
    wanted = "ok\n" * MOST_FRAMES + "no 10\n1\nno 6\nok\nok\n0\n"
    tally.compare("frames up to the limit", program.run("bench", "circuit", "rows", "script"),
                  Ended(0, wanted.encode(), b""))


def small_fan_outs(program, tally):
    """A net that so many gates read gets one more by a rewire, and then each of them leaves it."""
    for readers in range(3, 6):
        gates = [(8 + 2 * at, 2, 6) for at in range(readers)] + [(8 + 2 * readers, 4, 6)]
        lines = "".join(f"{left} {one} {other}\n" for left, one, other in gates)
        write("circuit", f"aag {3 + len(gates)} 3 0 0 {len(gates)}\n2\n4\n6\n{lines}")
        write("rows", "101\n")
        asked = [(left, 2, 6) for left, _, _ in gates] + [(left, 4, 6) for left, _, _ in gates]
        write("script", "".join(f"w {left} {one} {other}\nv 0 {left}\n" for left, one, other in asked))
        wanted = "ok\n1\n" * len(gates) + "ok\n0\n" * len(gates)
        tally.compare(f"rewires at a net of {readers} gates", program.run("bench", "circuit", "rows", "script"),
                      Ended(0, wanted.encode(), b""))


def frames_without_entries(program, tally):
    latches = "".join(f"{2 * at} {2 * at + 2}\n" for at in range(1, LATCHES))
    write("circuit", f"aag {LATCHES} 0 {LATCHES} 0 0\n{latches}{2 * LATCHES} 2\n")
    ended = program.run("unroll", "--frames", str(MOST_FRAMES), "--to", "aag", "circuit", preexec_fn=in_seconds)
    tally.compare("frames without entries", ended, Ended(0, b"aag 0 0 0 0 0\n", b""))


def in_seconds():
    resource.setrlimit(resource.RLIMIT_CPU, (SECONDS, SECONDS))


def limits(program, tally, _):
    frames_without_entries(program, tally)
    unrolled_by_a_script(program, tally)
    frames_one_by_one(program, tally)
    small_fan_outs(program, tally)
