"""Whether some run of a small random circuit keeps all constraints (`aig cnf --alive`, `aig refute --alive`, `aig
witness --alive`, `aig check --alive`), beside a search of all runs: the formula is satisfied exactly where the run
does, a proof of all cases is accepted exactly where no run does, and a run is written and checked exactly where it
does."""

import itertools

from at_random.cases import Wrong, each
from at_random.formulas import MOST, Formula, names_of, run_of
from at_random.replays import started
from library.broken import circuit
from library.families import propagated
from library.part import part_of
from library.reference import Parts, literal, values
from library.runs import Ended, refused, write


def small_circuit(rng, frames):
    """The text and the parts of a circuit, with or without bad states, that mostly has a constraint."""
    while True:
        text = circuit(rng).decode()
        parts = Parts(text)
        free = sum(reset == lit for lit, _, reset in parts.latches)
        if frames * len(parts.inputs) + free <= MOST and (parts.constraints or rng.randrange(16) == 0):
            return text, parts


def kept_frames(text, parts, start, rows):
    """For each frame whether all constraints are 1 up to it."""
    held, kept = True, []
    for known in values(started(text, start), rows):
        held = held and all(literal(known, l) == "1" for l in parts.constraints)
        kept.append(held)
    return kept


def broken_at(text, parts, start, rows, frames):
    """What `check --alive` prints of a run: the first reason why it does not keep all constraints for so many frames."""
    for position, (value, latch) in enumerate(zip(start, parts.latches)):
        if latch[2] in (0, 1) and value != str(latch[2]):
            return f"initial {position}\n"
    for frame, known in enumerate(values(started(text, start), rows)):
        if frame < frames:
            for position, l in enumerate(parts.constraints):
                if literal(known, l) != "1":
                    return f"constraint {frame} {position}\n"
    return "alive\n" if len(rows) >= frames else f"frames {len(rows)}\n"


def runs(program, rng, case_of, true):
    """A model whole, and some of it: the run that it names, written and checked; then a run with other values."""
    text, parts, formula, frames = case_of
    for literals in (true, [l for l in true if rng.randrange(4)]):
        named = set(literals)

        def value(variable):
            return "1" if variable in named else "0" if -variable in named else "x"

        start, rows = run_of(formula, parts, frames, value)
        wanted = broken_at(text, parts, start, rows, frames)
        write("model", " ".join(map(str, [*literals, 0])) + "\n")
        got = program.run("witness", "--alive", "--model", "model", "--frames", str(frames), "circuit")
        lines = "".join("".join(row) + "\n" for row in [start, *rows])
        if got != (Ended(0, f"1\nb0\n{lines}.\n".encode(), b"") if wanted == "alive\n" else refused("witness: no run",
                                                                                                    b"")):
            raise Wrong(f"{got} of {literals}, wanted {wanted}")
        rows = [[rng.choice("01x") if rng.randrange(8) == 0 else v for v in row] for row in rows]
        start = [rng.choice("01x") if rng.randrange(8) == 0 else v for v in start]
        lines = "".join("".join(row) + "\n" for row in [start, *rows])
        write("run", f"1\nb{rng.randrange(3)}\n{lines}.\n")
        asked = rng.choice((None, 0, 1, frames, frames + 1))
        words = [] if asked is None else ["--frames", str(asked)]
        wanted = broken_at(text, parts, start, rows, frames if asked is None else asked)
        got = program.run("check", "--alive", *words, "circuit", "run")
        if got != Ended(0 if wanted == "alive\n" else 1, wanted.encode(), b""):
            raise Wrong(f"{got} of {words} and {lines}, wanted {wanted}")


def proof_of(variables):
    """A proof of all cases: no values of these variables satisfy the formula, then none of all but the last, and so on."""
    clauses = []
    for count in range(len(variables), -1, -1):
        for signs in itertools.product((1, -1), repeat=count):
            clauses.append([sign * variable for sign, variable in zip(signs, variables)])
    return "".join(" ".join(map(str, [*clause, 0])) + "\n" for clause in clauses)


def case(program, rng):
    """Compares a formula with all runs, and answers whether one keeps the constraints."""
    frames = rng.randrange(1, 5)
    text, parts = small_circuit(rng, frames)
    write("circuit", text)
    ended = program.run("cnf", "--alive", "--frames", str(frames), "circuit")
    said = ended.out.decode()
    lines = f"c aig cnf --alive --frames {frames} \n" + names_of(text, parts, part_of(parts, 1), frames)
    if (ended.status, ended.err) != (0, b"") or not said.startswith(lines + "c b "):
        raise Wrong(f"other lines: {ended}")
    formula = Formula(said)
    if len(formula.goals) != frames or formula.clauses[:2] != [[-1], formula.goals[-1:]]:
        raise Wrong(f"other goals: {said}")
    variables = [*formula.inputs.values(), *formula.starts.values()]
    gates = [formula.clauses[0], *formula.clauses[2:]]
    alive = False
    for signs in itertools.product((1, -1), repeat=len(variables)):
        true = [sign * variable for sign, variable in zip(signs, variables)]
        start, rows = run_of(formula, parts, frames, lambda variable, named=set(true): "1" if variable in named else "0")
        wanted = kept_frames(text, parts, start, rows)
        known, is_false = propagated(gates, true)
        if is_false or [l in known for l in formula.goals] != wanted:
            raise Wrong(f"{[l in known for l in formula.goals]} at {true}, wanted {wanted}")
        if propagated(formula.clauses, true)[1] == wanted[-1]:
            raise Wrong(f"satisfied or not at {true}, wanted {wanted[-1]}")
        alive = alive or wanted[-1]
        if rng.randrange(4) == 0:
            runs(program, rng, (text, parts, formula, frames), true)
    write("proof", proof_of(variables))
    got = program.run("refute", "--alive", "--frames", str(frames), "circuit", "proof")
    if alive and (got.status != 1 or not got.err.startswith(b"aig: proof: ") or got.out):
        raise Wrong(f"{got}, where a run keeps the constraints")
    if not alive and got != Ended(0, f"no run of {frames} frames\n".encode(), b""):
        raise Wrong(f"{got}, where no run keeps the constraints")
    return "a run" if alive else "no run"


def alive(program, tally, chosen):
    answers = []
    each("alive", tally, chosen, lambda rng: answers.append(case(program, rng)))
    counted = ", ".join(f"{answers.count(word)} {word}" for word in sorted(set(answers)))
    return f"cases of seed {chosen.seed}, {counted}: "
