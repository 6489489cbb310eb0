#!/usr/bin/env python3
"""Writes the cases of tests/steps/kept.txt that cadical proves: random formulas of 20 to 60 variables, three literals a
clause, that no assignment satisfies, though cadical finds one of all clauses but the last. tests/steps/kept.py reads
them, in both forms of a proof.

cadical is Debian's package `cadical`; another version of it may write other proofs."""

import os
import random
import subprocess
import sys
import tempfile

TESTS = os.path.dirname(os.path.dirname(os.path.abspath(__file__))) + "/tests"
sys.path.insert(0, TESTS)

from library.plain_steps import steps_of  # noqa: E402
from program.proofs import text_of  # noqa: E402
from steps.cases import line_of  # noqa: E402
from steps.kept import FILE, OF_CADICAL  # noqa: E402

UNSATISFIABLE = 20  # cadical's status
CLAUSES_A_VARIABLE = 5
# The form of a proof, numbers of variables, and cadical's option for that form.
FORMS = (("text", range(20, 57, 4), ["--no-binary"]), ("binary", [*range(22, 57, 4), 60], []))


def random_formula(variables, rng):
    return [[variable * rng.choice((1, -1)) for variable in rng.sample(range(1, variables + 1), 3)]
            for _ in range(CLAUSES_A_VARIABLE * variables)]


def solved(variables, clauses, *options):
    """The status of cadical on a formula, and its proof."""
    with open("formula", "w", encoding="ascii") as file:
        file.write(f"p cnf {variables} {len(clauses)}\n")
        file.writelines(" ".join(map(str, clause)) + " 0\n" for clause in clauses)
    words = ["cadical", "-q", *options, "formula", "proof"]
    done = subprocess.run(words, stdout=subprocess.DEVNULL, check=False, timeout=3600)
    with open("proof", "rb") as file:
        return done.returncode, file.read()


def contradiction(variables, seed):
    """The first formula from this seed on that no assignment satisfies, cut after the clause that makes it one."""
    while True:
        clauses = random_formula(variables, random.Random(seed))
        if solved(variables, clauses)[0] == UNSATISFIABLE:
            break
        seed += 1
    while solved(variables, clauses[:-1])[0] == UNSATISFIABLE:
        clauses.pop()
    return clauses


def spelled(steps):
    return text_of(steps).decode().replace("\n", " ").rstrip()


def entries():
    """The cases, as the file has them."""
    for form, counts, options in FORMS:
        for variables in counts:
            clauses = contradiction(variables, 1000 * variables)
            _, proof = solved(variables, clauses, *options)
            formula = spelled((False, clause) for clause in clauses)
            yield (f"{OF_CADICAL[form]}, {variables} variables\n{variables}: {formula}\n{spelled(steps_of(proof))}\n"
                   f"{line_of(clauses, proof)}\n")


def main():
    with open(FILE, encoding="utf-8") as file:
        others = [entry for entry in file.read().split("\n\n") if not entry.startswith(tuple(OF_CADICAL.values()))]
    with tempfile.TemporaryDirectory() as folder:
        os.chdir(folder)
        made = [*entries()]
    with open(FILE, "w", encoding="utf-8") as file:
        file.write("\n".join(made) + "\n" + "\n\n".join(others))


if __name__ == "__main__":
    main()
