"""Edits of benches with three grids: what each line of a script answers, how many cells an edit evaluates and changes,
and all cells after it. The third grid has only the calls that a grid must have. The cells are those of the plain
simulator."""

import random

from at_random.scripts import script as random_script
from library.broken import circuit as random_circuit
from library.broken import stimulus as random_stimulus
from library.reference import Parts, Workbench, literal, rows_of, values
from steps.cases import printed

WORD = "edits"
GRIDS = ("bytes", "planes", "bare")

TWO_GATES = "aag 4 2 0 1 2\n2\n4\n8\n8 6 2\n6 2 4\n"
# A latch that keeps what its input was, and a variable that nothing defines.
LATCH = "aag 3 1 1 1 0\n2\n4 2 4\n4\n"
# Two latches read the input, one of them its negation, and a third reads the first of these.
LATCHES_IN_A_ROW = "aag 5 1 3 1 1\n2\n4 2\n6 3\n8 4\n10\n10 8 6\n"
# An uninitialised latch that keeps what it is while the input is 1.
FEEDBACK = "aag 3 1 1 1 1\n2\n4 6 4\n4\n6 4 2\n"

# A circuit, a stimulus, and the lines of a script with their answers: a value, why the line is refused, or how many
# cells the edit evaluated and changed.
SCRIPTS = (
    (TWO_GATES, "11\n01\n", (
        ("v 0 0", "0"), ("v 0 1", "1"), ("v 0 9", "0"), ("v 1 4", "1"), ("v 1 8", "0"), ("s 0 1 0", "2 2"),
        ("v 0 8", "0"), ("w 6 2 2", "3 2"), ("s 0 1 0", "0 0"), ("s 2 2 1", "no frame"),
        ("s 1 2 1", "no input"), ("v 2 10", "range"), ("v 2 8", "no frame"))),
    (TWO_GATES, "11\n", (
        ("w 2 0 0", "not a gate"), ("w 9 2 2", "not a gate"), ("w 6 10 2", "range"), ("w 6 8 2", "cycle"),
        ("v 0 8", "1"), ("w 8 2 4", "1 0"), ("w 6 8 2", "1 0"), ("w 8 2 5", "2 2"), ("v 0 8", "0"),
        ("+ 1", "length"), ("+ 01", "2 0"), ("-", "0 0"))),
    (TWO_GATES, "11\n01\n", (
        ("g 9 2", "2 0"), ("v 0 10", "0"), ("v 1 10", "0"), ("o 0 10", "0 0"), ("w 6 10 2", "cycle"),
        ("o 1 2", "no output"), ("o 1 12", "range"), ("g 12 0", "range"))),
    (TWO_GATES, "11\n01\n", (
        ("g 9 2", "2 0"), ("g 11 4", "2 0"), ("o 0 12", "0 0"), ("+ 10", "4 0"), ("w 10 2 4", "5 3"))),
    (LATCH, "", (
        ("-", "empty"), ("+ 1", "0 0"), ("+ 0", "0 0"), ("v 0 4", "x"), ("v 1 4", "1"), ("v 2 6", "undefined"),
        ("r 2 1", "not a latch"), ("r 4 0", "0 0"), ("v 0 4", "0"), ("s 0 0 x", "0 0"), ("v 1 4", "x"))),
    (LATCHES_IN_A_ROW, "0\n0\n0\n0\n", (
        ("s 0 0 1", "2 1"), ("r 4 1", "1 0"), ("r 8 1", "1 0"), ("r 6 1", "1 1"), ("s 3 0 1", "0 0"),
        ("s 0 0 0", "2 2"))),
    (FEEDBACK, "1\n1\n", (("r 4 1", "2 2"), )),
    # a gate whose sides change together, and whose value stays
    ("aag 4 1 0 1 3\n2\n8\n4 2 2\n6 3 3\n8 6 4\n", "1\n", (("s 0 0 0", "3 2"), )),
    # a literal and its negation: nothing is folded
    ("aag 2 1 0 1 1\n2\n4\n4 2 3\n", "x\n", (("v 0 4", "x"), ("s 0 0 1", "1 1"), ("s 0 0 1", "0 0"))),
    # cells on both sides of a word's end
    ("aag 65 1 0 1 2\n128\n130\n126 128 128\n130 127 129\n", "0\n", (("s 0 0 1", "2 2"), ("-", "0 0"), ("+ x", "2 0"))),
    # refused edits change no cell
    (TWO_GATES, "11\n01\n", (
        ("v 0 0", "0"), ("s 0 1 0", "2 2"), ("w 6 8 2", "cycle"), ("s 2 0 1", "no frame"), ("+ 1", "length"),
        ("w 6 2 2", "3 2"), ("s 1 0 x", "2 2"), ("g 9 2", "2 0"))),
    # traces, and the gates of Kleene's logic at 1 and at x
    (TWO_GATES, "11\nx1\n", (("t", r'" 11 1 \n x1 x \n"'), )),
    ("aag 4 2 0 0 2\n2\n4\n6 2 5\n8 2 3\n", "11\nxx\n",
     (("v 0 6", "0"), ("v 0 8", "0"), ("v 1 6", "x"), ("v 1 8", "x"))),
)


# The names of faults, by their numbers in replies of scripts.
FAULTS = {1: "not a gate", 2: "not a latch", 3: "range", 4: "undefined", 5: "cycle", 6: "no frame", 7: "no input",
          8: "length", 9: "empty", 10: "limit", 13: "no output"}
RANDOM = 300


def case(circuit, rows, lines):
    """The bytes of a case."""
    script = "".join(f"{line}\n" for line in lines)
    return f"{len(circuit)} {len(rows)} {len(script)}\n{circuit}{rows}{script}".encode()


def cells(bench):
    """The cells of a plain workbench, a word for each frame, as the program prints them."""
    known = values(bench.parts, bench.rows)
    return "".join(" | " + "".join(literal(frame, 2 * variable) if 2 * variable in frame else "?"
                                   for variable in range(bench.parts.maximum + 1)) for frame in known)


def after(bench, lines):
    """The reply of a plain workbench to each line, and the cells after it."""
    for line in lines:
        reply = bench.reply(line)
        yield reply.rstrip("\n"), cells(bench)


def lines_of(program, circuit, rows, lines):
    """The lines that the program prints of a case, for each grid."""
    got = printed(program, WORD, [case(circuit, rows, lines)], len(GRIDS) * len(lines))
    return [got[at:at + len(lines)] for at in range(0, len(got), len(lines) or 1)]


def edits(program, tally, _):
    for number, (circuit, rows, script) in enumerate(SCRIPTS):
        lines = [line for line, _ in script]
        plain = after(Workbench(Parts(circuit), rows_of(rows)), lines)
        wanted = [answer + cells_after for (_, answer), (_, cells_after) in zip(script, plain)]
        for grid, got in zip(GRIDS, lines_of(program, circuit, rows, lines)):
            tally.compare(f"edits: script {number}, {grid}", got, wanted)
    for number in range(RANDOM):
        at_random(program, tally, random.Random(f"edits {number}"), f"edits: case {number}")


def at_random(program, tally, rng, name):
    """A random script: the answers are those of the plain workbench, with the costs that follow from the cells. How
    many cells an edit evaluates that changes some is not known here, and is the same in each grid."""
    circuit = random_circuit(rng).decode()
    parts = Parts(circuit)
    rows = random_stimulus(rng, len(parts.inputs)).decode()
    lines = [line for line in random_script(rng, parts, rows.count("\n")).split("\n")
             if line[:1] in "swr+-gov" and Workbench(Parts(circuit), rows_of(rows)).reply(line) != "bad\n"]
    bench = Workbench(parts, rows_of(rows))
    found = lines_of(program, circuit, rows, lines)
    before = cells(bench)
    for at, (reply, cells_after) in enumerate(after(bench, lines)):
        first = found[0][at] if found else ""
        tally.check(f"{name}, line {at}: the grids", all(got[at] == first for got in found), found)
        answer, bar, rest = first.partition(" | ")
        is_right = answers(answer, lines[at], reply, bench, changed(bench, before, cells_after))
        is_right &= bar + rest == cells_after
        tally.check(f"{name}, line {at}: {lines[at]}", is_right, (first, reply, cells_after))
        before = cells_after


def changed(bench, before, now):
    """How many cells of gates an edit changed, if no frame and no gate came or went."""
    return sum(old != new for one, other in zip(before.split(" | "), now.split(" | "))
               for at, (old, new) in enumerate(zip(one, other)) if 2 * at in bench.parts.gates)


def answers(answer, line, reply, bench, changes):
    """Whether an answer is that of the plain workbench."""
    if reply != "ok":
        return answer == (FAULTS[int(reply[3:])] if reply.startswith("no ") else reply)
    if line[0] in "o-":
        return answer == "0 0"
    if line[0] in "+g":
        return answer == f"{len(bench.parts.gates) if line[0] == '+' else len(bench.rows)} 0"
    evaluated, _, count = answer.partition(" ")
    return evaluated.isdecimal() and count == str(changes) and int(evaluated) >= changes
