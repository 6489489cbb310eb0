"""The proofs of tests/proofs: their formulas and their steps, by the files alone."""

from library.runs import TESTS, contents

FOLDER = TESTS + "/proofs"


def clauses_of(text, negated=False, whole=False):
    """The formula for one frame of a circuit without latches whose gates are in the order of an unrolled circuit: the
    variable of a literal is half of it, and one more. The property is its only bad state, or the negation of that. The
    formula has the gates that it depends on; with `whole` it has all, as those that `aig` 0.2.0 wrote."""
    lines = text.splitlines()
    _, _, inputs, _, outputs, gates, _ = lines[0].split()
    bad = int(lines[1 + int(inputs) + int(outputs)]) ^ negated
    clauses = [[-1]]
    wanted, kept = {bad & ~1}, []
    for line in reversed(lines[len(lines) - int(gates):]):
        gate, *sides = map(int, line.split())
        if whole or gate in wanted:
            wanted |= {side & ~1 for side in sides}
            kept.insert(0, map(signed, (gate, *sides)))
    for gate, left, right in kept:
        clauses += [[-gate, left], [-gate, right], [gate, -left, -right]]
    return [*clauses, [signed(bad)]]


def signed(literal):
    return -(literal // 2 + 1) if literal % 2 else literal // 2 + 1


def steps_of(file):
    """The steps of a proof as cadical writes it: whether each deletes, and its clause."""
    data = contents(f"{FOLDER}/{file}")
    return text_steps(data.decode()) if file.endswith(".text.drat") else binary_steps(data)


def text_steps(text):
    lines = [line.split() for line in text.splitlines()]
    return [(words[0] == "d", [int(word) for word in words[words[0] == "d":-1]]) for words in lines]


def binary_steps(data):
    steps, at = [], 0
    while at < len(data):
        is_deleted, at, clause = data[at:at + 1] == b"d", at + 1, []
        while data[at]:
            number, power = 0, 1
            while data[at] >= 128:
                number += (data[at] - 128) * power
                power, at = power * 128, at + 1
            number, at = number + data[at] * power, at + 1
            clause.append(-(number // 2) if number % 2 else number // 2)
        steps.append((is_deleted, clause))
        at += 1
    return steps
