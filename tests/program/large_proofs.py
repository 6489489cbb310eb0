"""Proofs that cadical wrote (tests/proofs), as text and in the binary form: over 50 KB about 195 variables, and with
over 5,000 clauses and nearly as many deletions. Each is taken, and refused where a step or a clause that it needs is
taken away, or the property is another. How those end is known by library/plain_checker.py. They end so too after many
other clauses, which the first deletion then finds in the formula."""

import os
import re

from library.big_proofs import FOLDER, clauses_of, steps_of
from library.runs import contents, refused, write
from program.proofs import REFUTED, SPELLINGS, in_pieces
from program.rows import Rows

# The circuits, and how many bytes as text, clauses and deletions their proofs have at least.
PROOFS = (("parity", 50_000, 1_500, 500), ("long", 200_000, 5_000, 4_000))
# Steps that change nothing: more clauses than the 1,024 chains that the checker has before the first deletion.
OTHERS = [(False, [a, -a, b]) for a in range(1, 35) for b in range(1, 35) if a != b]
CHANGE = re.compile(r"(without|with) (?:clause (\d+) deleted after )?step (\d+)")


def large_proofs(program, tally, _):
    rows = Rows("large_proofs", program, tally)
    outcomes = [line.split(": ") for line in contents(f"{FOLDER}/outcomes").decode().splitlines()]
    for name, *sizes in PROOFS:
        text = contents(f"{FOLDER}/{name}.aag").decode()
        write(name, text)
        write("other", with_other_property(text))
        files = [file for file in (f"{name}.text.drat", f"{name}.binary.drat") if os.path.exists(f"{FOLDER}/{file}")]
        steps = steps_of(files[0])
        is_large(tally, name, steps, sizes)
        formula(rows, name, clauses_of(text))
        for file in files:
            rows.ends(f"{file}, as cadical wrote it", f"refute --frames 1 {name} {FOLDER}/{file}", REFUTED)
            words = ["refute", "--frames", "1", name, "/dev/stdin"]
            tally.compare(f"large_proofs: {file}, in pieces",
                          in_pieces(program, words, contents(f"{FOLDER}/{file}"), 4099),
                          REFUTED)
        for spelling, spelled in SPELLINGS:
            rows.ends(f"{name}, {spelling}", f"refute --frames 1 {name} proof", REFUTED, proof=spelled(steps))
            for title, number in outcomes:
                of, change = title.split(" ", 1)
                if of == name:
                    circuit, changed = changed_by(change, name, steps, clauses_of(text))
                    fault = f"step {number}" if int(number) else "no refutation"
                    rows.ends(f"{title}, {spelling}", f"refute --frames 1 {circuit} proof", refused(f"proof: {fault}"),
                              proof=spelled(changed))
                    fault = f"step {int(number) + len(OTHERS)}" if int(number) else "no refutation"
                    rows.ends(f"{title}, {spelling}, after other clauses", f"refute --frames 1 {circuit} proof",
                              refused(f"proof: {fault}"), proof=spelled(OTHERS + changed))


def is_large(tally, name, steps, sizes):
    size, clauses, deletions = sizes
    tally.check(f"large_proofs: {name}, its size", len(SPELLINGS[0][1](steps)) >= size)
    deleted = sum(is_deleted for is_deleted, _ in steps)
    tally.check(f"large_proofs: {name}, its steps", len(steps) - deleted >= clauses and deleted >= deletions)


def formula(rows, name, clauses):
    """The formula that `aig cnf` writes: that of cadical without the last gate, whose variable the proof has."""
    lines = rows.run("cnf", "--frames", "1", name).out.decode().splitlines()
    got = [sorted(map(int, line.split()[:-1])) for line in lines if line[0] not in "cp"]
    rows.tally.compare(f"large_proofs: {name}, the formula", sorted(got), sorted(map(sorted, clauses)))


def with_other_property(text):
    """The circuit whose bad state is the negation of its own."""
    lines = text.splitlines()
    place = 1 + int(lines[0].split()[2]) + int(lines[0].split()[4])
    lines[place] = str(int(lines[place]) ^ 1)
    return "".join(f"{line}\n" for line in lines)


def changed_by(change, name, steps, clauses):
    """The circuit and the steps after a change of `outcomes`."""
    if change == "of the other property":
        return "other", steps
    way, clause, step = CHANGE.match(change).groups()
    done = int(step)
    if way == "without":
        return name, steps[:done - 1] + steps[done:]
    gone = clauses[int(clause) - 1] if clause else steps[done - 1][1]
    return name, [*steps[:done], (True, gone), *steps[done:]]
