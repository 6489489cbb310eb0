"""Formulas of small random circuits (`aig cnf`), beside library/reference.py: for each assignment of the variables that
the comment lines name, unit propagation gives the bad literals the values that the run has, and satisfies the formula
exactly where the run reaches the bad state. One satisfying assignment of each formula is a confirmed witness."""

import itertools
from typing import Any, NamedTuple

from at_random.cases import Wrong, each
from at_random.replays import circuit_to_check, started
from library.dimacs import read_formula
from library.families import propagated
from library.part import part_of
from library.reference import literal, values
from library.runs import Ended, refused, write

# The most variables that are given all values.
MOST = 8


class Formula:
    """A text in DIMACS: what its comment lines name, and its clauses."""

    def __init__(self, text):
        rows = [line.split(" ") for line in text.splitlines()]
        self.inputs = {(int(row[3]), int(row[4])): int(row[2]) for row in rows if row[:2] == ["c", "i"]}
        self.starts = {int(row[3]): int(row[2]) for row in rows if row[:2] == ["c", "l"]}
        self.goals = [int(row[2]) for row in rows if row[:2] == ["c", "b"]]
        found = read_formula(text)
        if isinstance(found, str):
            raise Wrong(found)
        _, count, self.clauses = found
        if count != len(self.clauses):
            raise Wrong(f"{count} clauses are not those that there are")
        if any(row[-1] != "0" or "0" in row[:-1] for row in rows if row[0] not in "cp"):
            raise Wrong("a line that is not a clause")


def symbols_of(text, letters):
    return dict(line.split(" ", 1) for line in text.split("\nc\n")[0].splitlines() if line[0] in letters)


def heading_of(text, frames, bad):
    """The comment line that says what was asked for."""
    return f"c aig cnf --frames {frames} --property {bad} {symbols_of(text, 'b').get(f'b{bad}', '')}\n"


def names_of(text, parts, part, frames):
    """The comment lines that name inputs and starts of a part, at their positions in the circuit."""
    symbols = symbols_of(text, "il")
    inputs = [p for p, lit in enumerate(parts.inputs) if lit in part.inputs]
    free = [p for p, latch in enumerate(parts.latches) if latch in part.latches and latch[2] == latch[0]]
    width = len(inputs)
    lines = [f"c i {t * width + u + 2} {t} {p} {symbols.get(f'i{p}', '')}\n"
             for t in range(frames) for u, p in enumerate(inputs)]
    return "".join(lines + [f"c l {frames * width + u + 2} {p} {symbols.get(f'l{p}', '')}\n" for u, p in enumerate(free)])


def run_of(formula, parts, frames, value):
    """The start and the rows that the values of variables name: x at inputs that have no variable, and at latches that
    have none the reset."""
    start = [value(formula.starts[p]) if p in formula.starts else {0: "0", 1: "1"}.get(latch[2], "x")
             for p, latch in enumerate(parts.latches)]
    return start, [[value(formula.inputs[t, p]) if (t, p) in formula.inputs else "x" for p in range(len(parts.inputs))]
                   for t in range(frames)]


def bad_frames(text, parts, start, rows, bad):
    """For each frame whether the bad state is reached there: it is bad, and all constraints were 1 so far."""
    reached, held = [], True
    for known in values(started(text, start), rows):
        held = held and all(literal(known, l) == "1" for l in parts.constraints)
        reached.append(held and literal(known, parts.bad[bad]) == "1")
    return reached


class Asked(NamedTuple):
    """A circuit in text and in parts, a formula of it, and the frames and the property that it is about."""

    text: str
    parts: Any
    formula: Formula
    frames: int
    bad: int


def models(program, rng, asked, true, known):
    """A model whole, its inputs alone, and some of them: what `witness --model` writes, beside the run that it names."""
    text, parts, formula, frames, bad = asked
    some = [l for l in true if rng.randrange(4)]
    for literals in (sorted(known, key=abs), true, some):
        named = set(literals)

        def value(variable, named=named):
            return "1" if variable in named else "0" if -variable in named else "x"

        start, rows = run_of(formula, parts, frames, value)
        reached = bad_frames(text, parts, start, rows, bad)
        wanted = refused("witness: no run")
        if any(reached):
            shown = "".join("".join(row) + "\n" for row in rows[:reached.index(True) + 1])
            wanted = Ended(0, f"1\nb{bad}\n{''.join(start)}\n{shown}.\n".encode(), b"")
        write("model", rng.choice(("", "s SATISFIABLE\nv ", "c\nSAT\n")) + " ".join(map(str, [*literals, 0])) + "\n")
        got = program.run("witness", "--model", "model", "--frames", str(frames), "--property", str(bad), "circuit")
        if got != wanted:
            raise Wrong(f"{literals}: {got}, wanted {wanted}")


def small_circuit(rng, frames):
    while True:
        text, parts = circuit_to_check(rng)
        free = sum(reset == lit for lit, _, reset in parts.latches)
        if frames * len(parts.inputs) + free <= MOST:
            return text, parts


def case(program, rng):
    """Compares a formula with all runs, and answers whether one satisfies it."""
    frames = rng.randrange(1, 5)
    text, parts = small_circuit(rng, frames)
    bad = rng.randrange(len(parts.bad) + (rng.randrange(8) == 0))
    write("circuit", text)
    ended = program.run("cnf", "--frames", str(frames), "--property", str(bad), "circuit")
    if bad == len(parts.bad):
        if ended != refused("cnf: property"):
            raise Wrong(f"{ended} at a property that is not there")
        return "refused"
    said = ended.out.decode()
    lines = heading_of(text, frames, bad) + names_of(text, parts, part_of(parts, parts.bad[bad]), frames)
    if (ended.status, ended.err) != (0, b"") or not said.startswith(lines + "c b "):
        raise Wrong(f"other lines: {ended}")
    formula = Formula(said)
    if len(formula.goals) != frames or formula.clauses[:2] != [[-1], formula.goals]:
        raise Wrong(f"other goals: {said}")
    variables = [*formula.inputs.values(), *formula.starts.values()]
    gates = [formula.clauses[0], *formula.clauses[2:]]
    model = None
    satisfying = []
    for signs in itertools.product((1, -1), repeat=len(variables)):
        true = [sign * variable for sign, variable in zip(signs, variables)]
        start, rows = run_of(formula, parts, frames, lambda variable, named=set(true): "1" if variable in named else "0")
        wanted = bad_frames(text, parts, start, rows, bad)
        known, is_false = propagated(gates, true)
        got = [l in known for l in formula.goals]
        if is_false or got != wanted or not all((l in known) != (-l in known) for l in formula.goals):
            raise Wrong(f"{got} at {true}, wanted {wanted}")
        if propagated(formula.clauses, true)[1] == any(wanted):
            raise Wrong(f"satisfied or not at {true}, wanted {any(wanted)}")
        if any(wanted):
            model = start, rows[:wanted.index(True) + 1]
            satisfying.append((true, known))
    if model is None:
        return "unsatisfiable"
    start, rows = model
    write("witness", f"1\nb{bad}\n{''.join(start)}\n" + "".join("".join(row) + "\n" for row in rows) + ".\n")
    if program.run("check", "circuit", "witness") != Ended(0, b"confirmed\n", b""):
        raise Wrong(f"the run of {model} is not confirmed")
    for true, known in rng.sample(satisfying, min(3, len(satisfying))):
        models(program, rng, Asked(text, parts, formula, frames, bad), true, known)
    return "satisfiable"


def formulas(program, tally, chosen):
    answers = []
    each("formulas", tally, chosen, lambda rng: answers.append(case(program, rng)))
    counted = ", ".join(f"{answers.count(word)} {word}" for word in sorted(set(answers)))
    return f"cases of seed {chosen.seed}, {counted}: "
