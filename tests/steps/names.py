"""The variables that the numbers of a proof become: those of the formula stay, and each other number gets the next
variable where it is first read, whatever it is. The program prints a literal as AIGER does, with variables from 0."""

import random

from program.proofs import SPELLINGS
from steps.cases import case, printed

WORD = "names"
MOST = 2_147_483_647

# How many variables the formula has, a proof, the literals of its steps in order, and how many variables are there
# then.
NAMES = (
    (2, b"2 -1 0", [2, 1], 2),
    (2, b"2000000000 0\n2147483647 -2000000000 0\n-2147483647 3 -2 0", [4, 6, 5, 7, 8, 3], 5),
    (2, b"d 5 -3 0\n3 0\n4 0\n5 0", [4, 7, 6, 8, 4], 5),
    (0, b"1 -1 1 0\n2147483647 0", [0, 1, 0, 2], 2),
    (MOST - 1, b"2147483647 1 2147483646 0", [4_294_967_292, 0, 4_294_967_290], MOST),
    # names that differ in the first or the last digit
    (1, b"a\x22\x42\x23\x00a\x80\x80\x80\x80\x02\x81\x80\x80\x80\x02\x43\0", [2, 4, 3, 6, 7, 5], 4),
    (MOST, b"2147483647 -2147483647 0\n0", [4_294_967_292, 4_294_967_293], MOST),
)


def line(literals, variables):
    return "".join(f"{literal} " for literal in literals) + f"of {variables}"


def plain(variables, steps):
    """The same by a plain table."""
    table, literals = {}, []
    for _, clause in steps:
        for number in clause:
            name = abs(number)
            variable = name - 1 if name <= variables else table.setdefault(name, variables + len(table))
            literals.append(2 * variable + (number < 0))
    return line(literals, variables + len(table))


def names(program, tally, _):
    wanted = [line(literals, variables) for _, _, literals, variables in NAMES]
    lines = printed(program, WORD, [case(variables, [], proof) for variables, proof, _, _ in NAMES], len(NAMES))
    for (_, proof, _, _), got, want in zip(NAMES, lines, wanted):
        tally.compare(f"names: {proof}", got, want)
    # 3,000 names far apart, twice
    many = [(False, [-(11 + at * 700_001)]) for at in range(3000)] * 2
    some = [*many, *at_random(random.Random(1))]
    for steps, which in ((many, "many"), (some, "many, and some at random")):
        for form, spelled in SPELLINGS:
            got = printed(program, WORD, [case(10, [], spelled(steps))], 1)
            tally.compare(f"names: {which}, {form}", got, [plain(10, steps)])


def at_random(rng):
    """Steps with numbers at random, which come again."""
    numbers = [rng.randrange(1, MOST + 1) for _ in range(100)] + [*range(1, 20)]
    for _ in range(200):
        yield rng.random() < 0.2, [rng.choice((1, -1)) * rng.choice(numbers) for _ in range(rng.randrange(6))]
