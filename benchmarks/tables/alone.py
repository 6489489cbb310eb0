"""Tables of the toolkit alone: growth, rewires and grids."""

import random

from designs import Ascon
from library.runs import write
from tables.files import MILLION, SOURCES, load, text
from tables.runs import Run, head, least, megabytes, milliseconds, printed, resident, row


def growth(programs, chosen):
    head("Growth (elapsed, nanoseconds a gate).", "shape", "gates", "check", "levels", "order")
    for shape in ("chain", "comb", "random", "reversed"):
        for gates in (100_000, MILLION, 4 * MILLION):
            circuit = load("circuit", shape, *SOURCES, gates)
            times = printed(chosen.times, [programs.get("growth"), circuit, "1"])
            row(shape, f"{gates:,}", *(f"{times[name] / gates:.0f}" for name in ("check", "levels", "order")))


def rewires(programs, chosen):
    """Lines `w` of a script on rounds of Ascon: on a stimulus of no frames, where levels and fan-outs alone are
    renewed, and on one frame. Of a line that is refused at once the time is shown too: it is what reading and
    answering a line takes."""
    head("Rewires (microseconds a line).", "circuit", "gates", "levels", "load", "cycles", "refused at once",
         "no frames", "one frame")
    at_once = text("refused", 100_000)
    for shape, kinds, many, few in (("side_by_side", ("same_level", "below", "anywhere"), 100_000, 5_000),
                                    ("in_a_row", ("same_level", "below"), 5_000, 500)):
        for rounds in (2, 23, 230):
            made, circuit = Ascon(shape, rounds), load("ascon", shape, rounds)
            rng = random.Random(64)
            frame = write("frame", "".join(rng.choices("01", k=made.inputs)) + "\n")

            def line(rows, script, count, circuit=circuit):
                words = [programs.get("aig"), "bench", circuit, rows]
                none, both = least(chosen.times, [*words, text("empty")], [*words, script])
                return f"{(both - none) / count * 1e6:.2f}"

            refused = line(text("empty"), at_once, 100_000)
            for kind in kinds:
                long, short = (load("rewires", kind, shape, rounds, count) for count in (many, few))
                Run([programs.get("aig"), "bench", circuit, text("empty"), long], "replies")
                with open("replies", encoding="ascii") as file:
                    replies = file.read().split("\n")
                if replies.count("ok") + replies.count("no 5") != many:
                    sys.exit("other replies than ok and no 5")
                row(shape.replace("_", " "), f"{len(made.gates):,}", f"{max(made.levels):,}", kind.replace("_", " "),
                    f"{replies.count('no 5') / many:.0%}", refused, line(text("empty"), long, many),
                    line(frame, short, few))


def grids(programs, chosen):
    gates, frames = 1_048_511, 64
    cells = (gates + 65) * frames
    runs = [[programs.get("grids"), kind, str(gates), str(frames), "1"] for kind in ("bytes", "planes")]
    times = [printed(chosen.times, words) for words in runs]
    for name in ("changed", "known"):
        if times[0][name] != times[1][name]:
            sys.exit(f"the grids tell different numbers of {name} cells")
    head(f"Grids of {cells:,} cells (elapsed; near: both sides among the 64 variables before the gate).", "work",
         "bytes", "planes", "bytes, millions a second", "planes, millions a second", "planes / bytes")
    for name, work in (("make", "make"), ("near", "evaluate, near"), ("far", "evaluate, anywhere"), ("get", "read")):
        each = [one[name] / 1e9 for one in times]
        row(work, *map(milliseconds, each), *(f"{cells / time / 1e6:.0f}" for time in each), f"{each[1] / each[0]:.2f}")
    sizes = [resident(words) for words in runs]
    row("greatest resident size", *(megabytes(size) for size in sizes), "", "", f"{sizes[1] / sizes[0]:.2f}")
