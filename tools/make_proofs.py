#!/usr/bin/env python3
"""Makes the files of tests/proofs again, with cadical 1.5.3 (Debian's package `cadical`), in a minute. Each circuit has
two chains of exclusive ors over the same inputs in two orders, and is bad where they differ, so never. Its last gate is
for an output. cadical gets the formula of all gates, and deletes the clauses of that gate: so the proof names the last
variable too, and deletes clauses that the formula of `aig cnf` does not have.

`parity` has about 200 variables and a proof of about 50 KB, as text and in the binary form. `long` has a proof with
over 5,000 clauses, and about as many deletions, in the binary form. `outcomes` says how runs on changed proofs and
circuits have to end, by tests/library/plain_checker.py; a number is that of the first step that does not follow, and 0
says that no step is wrong and that they do not suffice."""

import copy
import os
import random
import subprocess
import sys

sys.path.insert(0, os.path.dirname(os.path.dirname(os.path.abspath(__file__))) + "/tests")
from library import reference  # noqa: E402
from library.big_proofs import FOLDER, clauses_of, steps_of  # noqa: E402
from library.plain_checker import Checker, outcome, outcome_from  # noqa: E402

# Name, inputs, and how many neighbours of the first order change places in the second, and by which random numbers.
CIRCUITS = (("parity", 28, 14, 0), ("long", 20, 20, 0))

# The toolkit's checker makes room for more at 1,024 clauses.
MANY = 1100


class Gates:
    """Gates over so many inputs."""

    def __init__(self, inputs):
        self.inputs, self.gates = inputs, []

    def conjunction(self, a, b):
        literal = 2 * (self.inputs + len(self.gates) + 1)
        self.gates.append((literal, max(a, b), min(a, b)))
        return literal

    def exclusive(self, a, b):
        return self.conjunction(self.conjunction(a, b) + 1, self.conjunction(a + 1, b + 1) + 1)

    def chain(self, literals):
        result = literals[0]
        for literal in literals[1:]:
            result = self.exclusive(result, literal)
        return result

    def text(self, output, bad):
        lines = [f"aag {self.inputs + len(self.gates)} {self.inputs} 0 1 {len(self.gates)} 1"]
        lines += [str(2 * at + 2) for at in range(self.inputs)] + [str(output), str(bad)]
        return "".join(f"{line}\n" for line in lines + [" ".join(map(str, gate)) for gate in self.gates])


def circuit(inputs, window, seed):
    """Its text, with the gates in the order of an unrolled circuit."""
    made, first = Gates(inputs), [2 * at + 2 for at in range(inputs)]
    second, chance = [], random.Random(seed)
    for at in range(0, inputs, window):
        part = first[at:at + window]
        chance.shuffle(part)
        second += part
    bad = made.exclusive(made.chain(first), made.chain(second))
    output = made.conjunction(bad, 2)
    return reference.unrolled(reference.Parts(made.text(output, bad)), 1)


def solved(name, clauses):
    """Cadical's proofs, as text and in the binary form."""
    most = max(abs(literal) for clause in clauses for literal in clause)
    with open(f"{name}.cnf", "w", encoding="ascii") as file:
        file.write(f"p cnf {most} {len(clauses)}\n" + "".join(" ".join(map(str,
                                                                           clause)) + " 0\n" for clause in clauses))
    for form, options in (("text", ["--no-binary"]), ("binary", [])):
        words = ["cadical", "-q", *options, f"{name}.cnf", f"{name}.{form}.drat"]
        subprocess.run(words, stdout=subprocess.DEVNULL, check=False, timeout=3600)
    os.remove(f"{name}.cnf")


def state_after(clauses, steps):
    """The checker after these steps, all of which follow."""
    checker = Checker(clauses)
    for is_deleted, clause in steps:
        if is_deleted:
            checker.delete(clause)
        else:
            assert checker.follows(clause)
            checker.add(clause)
    return checker


def needed(clauses, steps):
    """A step near the end without which the proof is refused, and the outcomes where it is left out, and where it is
    deleted as soon as it is there. The proof as it is has to be right."""
    # the state before the last steps
    late = len(steps) - 400
    checker = state_after(clauses, steps[:late])
    assert outcome_from(checker, late, steps[late:]) is None
    for at in range(late, len(steps)):
        if steps[at][0]:
            continue
        short = outcome_from(checker, late, steps[late:at] + steps[at + 1:])
        if short:
            gone = outcome_from(checker, late, [*steps[late:at + 1], (True, steps[at][1]), *steps[at + 1:]])
            if gone:
                return at, short, gone
    raise ValueError("no step is needed")


def needed_clause(clauses, steps, most):
    """A clause of the formula that is deleted after the first step that makes so many clauses, and is needed then: its
    place, how many steps there are before, and the outcome."""
    count, done = len(clauses), 0
    while count < most:
        count += -1 if steps[done][0] else 1
        done += 1
    checker = state_after(clauses, steps[:done])
    for at, clause in enumerate(clauses):
        if checker.at[frozenset(clause)] and checker.true.isdisjoint(clause):
            number = outcome_from(copy.deepcopy(checker), [(True, clause), *steps[done:]], done + 1)
            if number:
                return at, done, number
    raise ValueError("no clause is needed")


def main():
    os.chdir(FOLDER)
    said = []
    for name, *settings in CIRCUITS:
        text = circuit(*settings)
        with open(f"{name}.aag", "w", encoding="ascii") as file:
            file.write(text)
        clauses = clauses_of(text)
        solved(name, clauses_of(text, whole=True))
        steps = steps_of(f"{name}.text.drat")
        assert steps == steps_of(f"{name}.binary.drat")
        if name == "long":
            os.remove(f"{name}.text.drat")
        at, short, gone = needed(clauses, steps)
        other = clauses_of(text, negated=True)
        said += [f"{name} without step {at + 1}: {short}", f"{name} with step {at + 1} deleted: {gone}",
                 f"{name} of the other property: {outcome(other, steps)}"]
        for most in (0, MANY):
            place, done, number = needed_clause(clauses, steps, most)
            said.append(f"{name} with clause {place + 1} deleted after step {done}: {number}")
        print(f"{name}: {max(abs(l) for c in clauses for l in c)} variables, {len(steps)} steps, "
              f"{sum(is_deleted for is_deleted, _ in steps)} of them deletions")
    with open("outcomes", "w", encoding="ascii") as file:
        file.write("".join(f"{line}\n" for line in said))


if __name__ == "__main__":
    main()
