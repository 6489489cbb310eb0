"""Denials of values, beside all assignments of random formulas with five variables. The denial of some values is the
clause that one of them is not there. Of all five values it follows by unit propagation where no satisfying assignment
has them. Of fewer values it follows from the two denials with the next value, as long as these are there; they and the
clauses of the formula are deleted once they are not needed. In the end the formula is refuted where no assignment
satisfies it."""

import itertools
import random

from program.proofs import SPELLINGS
from steps.cases import DELETED, FOLLOWS, OPEN, REFUTED, case, lines_of

VARIABLES = 5
FORMULAS = 1000


def random_formula(rng):
    """Clauses of three literals at random, of which some are equal or of both signs."""
    clauses = []
    for _ in range(rng.randrange(8, 28)):
        first, second, third = (rng.choice((1, -1)) * rng.randrange(1, VARIABLES + 1) for _ in range(3))
        clauses.append([first, second, rng.choice((second, third))])
    return clauses


def can_begin(clauses, values):
    """Whether an assignment that begins with these values satisfies the clauses."""
    return any(all(any((*values, *rest)[abs(literal) - 1] == (literal > 0) for literal in clause) for clause in clauses)
               for rest in itertools.product((False, True), repeat=VARIABLES - len(values)))


def denial(values):
    """The clause that not all of these values are there, the last of them first."""
    return [-number if value else number for number, value in [*enumerate(values, 1)][::-1]]


def decided(clauses):
    """The steps that follow, with the deletions of what they no longer need; and the steps that do not follow, each
    after those before it."""
    steps, others, before = [], [], []
    for count in range(VARIABLES, -1, -1):
        denials = []
        for values in itertools.product((False, True), repeat=count):
            step = (False, denial(values))
            if can_begin(clauses, values):
                others.append([*steps, step])
            else:
                steps.append(step)
                denials.append(step[1])
        steps += [(True, clause[::-1]) for clause in before]
        if count == VARIABLES:
            steps += [(True, [third, first, second]) for first, second, third in clauses]
        before = denials
    return steps, others


def marks_of(steps):
    return "".join(DELETED if is_deleted else FOLLOWS for is_deleted, _ in steps)


def all_assignments(program, tally, _):
    for number in range(FORMULAS):
        clauses = random_formula(random.Random(f"all assignments {number}"))
        spelled = SPELLINGS[number % 2][1]
        steps, others = decided(clauses)
        is_refuted = not can_begin(clauses, ())
        lines = lines_of(program, [case(VARIABLES, clauses, spelled(each)) for each in (steps, *others)])
        tally.check(f"all assignments: formula {number}", ends_so(lines[0], steps, is_refuted), lines[0])
        for line, each in zip(lines[1:], others):
            marks, _, end = line.partition(" ")
            is_right = marks[:-1] == marks_of(each[:-1]) and marks[-1:] != FOLLOWS and end == OPEN
            tally.check(f"all assignments: formula {number}, {each[-1][1]} does not follow", is_right, line)


def ends_so(line, steps, is_refuted):
    """Whether the steps follow, up to the refutation if there is one."""
    marks, _, end = line.partition(" ")
    if is_refuted:
        return end == REFUTED and marks_of(steps).startswith(marks)
    return end == OPEN and marks == marks_of(steps)
