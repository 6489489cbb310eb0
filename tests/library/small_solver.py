#!/usr/bin/env python3
"""A solver for formulas of some hundred clauses, called as cadical is: small_solver.py OPTION .. CNF PROOF.

It tries values by unit propagation and goes back at a conflict. Each way that failed is a clause of the proof."""

import sys


def read(path):
    numbers = []
    with open(path, encoding="latin-1") as file:  # comments have names
        for line in file:
            if line[:1] not in "cp":
                numbers += map(int, line.split())
    clauses, one = [], []
    for number in numbers:
        if number:
            one.append(number)
        else:
            clauses.append(one)
            one = []
    return clauses


def propagated(clauses, values):
    """The values with all that follow, or None at a conflict."""
    values = dict(values)
    changed = True
    while changed:
        changed = False
        for clause in clauses:
            free, is_true = [], False
            for literal in clause:
                value = values.get(abs(literal))
                if value is None:
                    free.append(literal)
                elif value == (literal > 0):
                    is_true = True
                    break
            if is_true:
                continue
            if not free:
                return None
            if len(free) == 1:
                values[abs(free[0])] = free[0] > 0
                changed = True
    return values


def solved(clauses, proof):
    """A model, or None after a proof that there is none."""
    variables = sorted({abs(literal) for clause in clauses for literal in clause})
    learnt, decisions = list(clauses), []
    while True:
        values = propagated(learnt, {abs(literal): literal > 0 for literal in decisions})
        if values is None:
            clause = [-literal for literal in decisions]
            proof.write(" ".join(map(str, [*clause, 0])) + "\n")
            if not clause:
                return None
            learnt.append(clause)
            decisions.pop()
            continue
        free = [variable for variable in variables if variable not in values]
        if not free:
            return values
        decisions.append(-free[0])


def main():
    if sys.argv[1:] == ["--version"]:
        print("small_solver 1")
        return 0
    clauses = read(sys.argv[-2])
    with open(sys.argv[-1], "w", encoding="ascii") as proof:
        values = solved(clauses, proof)
    if values is None:
        print("s UNSATISFIABLE")
        return 20
    print("s SATISFIABLE\nv " + " ".join(str(v if is_true else -v) for v, is_true in values.items()) + " 0")
    return 10


if __name__ == "__main__":
    sys.exit(main())
