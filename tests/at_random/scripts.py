"""Small random circuits, stimuli and scripts, with the replies of the plain workbench of library/reference.py, which
computes each answer from the parts and the rows. What a script leaves is kept in files, which may be those that were
read: a run on them with the script `t` writes the trace that `t` would have written at its end."""

import collections

from at_random.cases import Wrong, each
from library.broken import circuit, stimulus, values
from library.reference import Parts, replies, rows_of
from library.runs import Ended, write

# Lines that are no command.
WRONG = ("", "g 0", "o 0 0 0", "g 0 0 ", "o 0 x", "g  0", "O 0 0", "g 00 0", "w 0 0", "s 0 0", "+", "v 0 4294967296")


def script(rng, parts, frames):
    """Edits and questions, most of which are taken."""
    width, outputs = len(parts.inputs), len(parts.outputs)
    gates = list(parts.gates)
    known = [0, *parts.inputs, *(latch[0] for latch in parts.latches), *gates]
    appended = 0
    lines = []

    def one(among):
        if not among or rng.randrange(20) == 0:
            return rng.choice((0, 1, 2, 3, 2 * parts.maximum + 2 * appended + rng.randrange(6), 2 ** 32 - 1))
        return rng.choice(among)

    def side():
        return one(known) ^ rng.randrange(2)

    def place(number):
        return rng.randrange(number + 1) if rng.randrange(20) else 2 ** 32 - 1

    for _ in range(rng.randrange(40)):
        kind = rng.choice("wwwwggoossssr+-vvvvttu?")
        if kind == "w":
            line = f"w {one(gates)} {side()} {side()}"
        elif kind == "g":
            line = f"g {side()} {side()}"
            appended += 1
            gates.append(2 * (parts.maximum + appended))
            known.append(gates[-1])
        elif kind == "o":
            line = f"o {place(outputs)} {side()}"
        elif kind == "s":
            line = f"s {place(frames)} {place(width)} {rng.choice('01x')}"
        elif kind == "r":
            line = f"r {one([latch[0] for latch in parts.latches])} {rng.choice('01x')}"
        elif kind == "+":
            line = f"+ {values(rng, width if rng.randrange(9) else width + 1)}"
        elif kind == "v":
            line = f"v {place(frames)} {side()}"
        else:
            line = kind if kind != "?" else rng.choice(WRONG)
        lines.append(line + "\n")
    return "".join(lines) + rng.choice(("", "", "", "t", "g 0 0"))


def case(program, rng):
    """Compares the replies, and answers those that are right."""
    design = circuit(rng).decode()
    parts = Parts(design)
    rows = stimulus(rng, len(parts.inputs)).decode()
    asked = script(rng, parts, rows.count("\n"))
    for name, text in (("circuit", design), ("stimulus", rows), ("script", asked)):
        write(name, text)
    wanted = replies(parts, rows_of(rows), asked)
    write("wanted", wanted)
    kept = rng.choice((("circuit", "stimulus"), ("new_circuit", "new_stimulus")))
    ended = program.run("bench", "--circuit-out", kept[0], "--stimulus-out", kept[1], "circuit", "stimulus", "script")
    if ended != Ended(0, wanted.encode(), b""):
        raise Wrong(f"status {ended.status}, {ended.err[:200]!r}, other replies than wanted")
    whole = asked[:asked.rfind("\n") + 1]
    replied, traced = (replies(Parts(design), rows_of(rows), lines) for lines in (whole, whole + "t\n"))
    write("script", "t\n")
    ended = program.run("bench", *kept, "script")
    if ended != Ended(0, traced[len(replied):].encode(), b""):
        raise Wrong(f"status {ended.status}, {ended.err[:200]!r}, another trace of the files that were kept")
    return wanted


def scripts(program, tally, chosen):
    counts = collections.Counter()

    def one(rng):
        counts.update(line.split(" ")[0] for line in case(program, rng).splitlines())

    each("scripts", tally, chosen, one)
    return (f"cases of seed {chosen.seed}, {counts['ok']} edits taken, {counts['no']} lines refused, "
            f"{counts['bad']} bad: ")
