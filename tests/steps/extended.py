"""Refutations with variables of their own, of formulas of whole families (library/families.py): Cook's of pigeons, and
those after bounded variable addition. How many of Cook's steps are on first literals is known from another checker. A
refutation is refused of the formula without one of its clauses, where an assignment satisfies that."""

import random

from library.families import Added, at_most_one, cook, pigeons, searched, without
from program.proofs import SPELLINGS
from steps.cases import FOLLOWS, ON_FIRST, OPEN, REFUTED, WRONG, case, line_of, lines_of

# How many holes; how many steps there are up to the refutation, and on first literals.
PIGEONS = ((5, 303, 140), (10, 3_683, 1_300), (20, 49_418, 10_620))
MORE_PIGEONS = (30, 234_203, 35_940)
STYLES = ("sbva", "factor")
MOST = 2_147_483_647


def is_refused(line):
    """Whether a line has a step that is refused, and no refutation."""
    return WRONG in line.partition(" ")[0] and not line.endswith(REFUTED)


def counted(tally, name, line, steps, on_first):
    marks, _, end = line.partition(" ")
    tally.compare(name, (len(marks), marks.count(ON_FIRST), marks.count(WRONG), end), (steps, on_first, 0, REFUTED))


def cooked(program, tally, holes, steps, on_first):
    """Cook's refutation, as text and in the binary form."""
    variables, clauses, _ = pigeons(holes)
    proof = [*cook(holes)]
    cases = [case(variables, clauses, spelled(proof)) for _, spelled in SPELLINGS]
    for (form, _), line in zip(SPELLINGS, lines_of(program, cases)):
        counted(tally, f"pigeons in {holes} holes, {form}", line, steps, on_first)


def with_names(rng, variables, steps):
    """The same steps, with other numbers for the variables of their own."""
    names = {}

    def named(literal):
        number = abs(literal)
        if number > variables:
            number = names.setdefault(number, rng.choice((2_000_000_000, MOST)) - len(names) * rng.randrange(1, 99_999))
        return number if literal > 0 else -number

    return [(is_deleted, [*map(named, clause)]) for is_deleted, clause in steps]


def pigeon_holes(program, tally, _):
    for row in PIGEONS:
        cooked(program, tally, *row)
    rng = random.Random(1)
    for holes, count in ((5, 81), (10, 40)):
        variables, clauses, _ = pigeons(holes)
        proof = [*cook(holes)]
        lines = lines_of(program, [case(variables, clauses, spelled(with_names(rng, variables, proof)))
                                   for _, spelled in SPELLINGS])
        for line in lines:
            counted(tally, f"pigeons in {holes} holes, great numbers", line, *PIGEONS[holes // 5 - 1][1:])
        places = rng.sample(range(len(clauses)), count)
        text = SPELLINGS[0][1](proof)
        lines = lines_of(program, [case(variables, without(clauses, place), text) for place in places])
        for place, line in zip(places, lines):
            tally.check(f"pigeons in {holes} holes without clause {place + 1}", is_refused(line), line[-40:])


def more_pigeons(program, tally, _):
    """Cook's refutation of pigeons in 30 holes, of 234,203 steps."""
    cooked(program, tally, *MORE_PIGEONS)


def families():
    for holes in (4, 5):
        variables, clauses, _ = pigeons(holes)
        yield f"pigeons in {holes} holes", variables, clauses
    for size, seed in ((12, 1), (12, 2)):
        yield f"at most one, {size} rows, seed {seed}", *at_most_one(size, seed)


def added_variables(program, tally, _):
    """Refutations after bounded variable addition and then a search, each step as library/plain_checker.py marks it;
    those of a formula without a clause, where a search finds an assignment, are refused."""
    rng, refused = random.Random(1), 0
    for name, variables, clauses in families():
        for style in STYLES:
            added = Added(variables, clauses, style)
            proof = [*added.steps, *searched([*map(list, added.clauses)])]
            texts = [spelled(proof) for _, spelled in SPELLINGS]
            lines = lines_of(program, [case(variables, clauses, text) for text in texts])
            for (form, _), line, text in zip(SPELLINGS, lines, texts):
                tally.compare(f"{name}, {style}, {form}", line, line_of(clauses, text))
                is_right = WRONG not in line.partition(" ")[0] and line.endswith(REFUTED)
                tally.check(f"{name}, {style}, {form}: is right, on first literals", is_right and ON_FIRST in line,
                            line)
            for place in rng.sample(range(len(clauses)), 8):
                less = without(clauses, place)
                if searched(less) is None:
                    refused += 1
                    line = lines_of(program, [case(variables, less, texts[0])])[0]
                    tally.check(f"{name}, {style}, without clause {place + 1}", is_refused(line), line)
    tally.check("formulas that an assignment satisfies", refused > 20, refused)


def chain(length, *more):
    """Each of so many variables implies the next one."""
    return [*([-at, at + 1] for at in range(1, length)), *more]


def tables(program, tally, _):
    """As many clauses as the table of deletions has room for, one fewer and one more; 16,000 variables of a proof's
    own, in a row and far apart, up to 2,147,483,647."""
    for length in (1023, 1024, 1025, 2047, 2048, 2049, 4096, 4097):
        whole, end = [-1, length], [1, length + 1]
        clauses = chain(length, end, [-length, length + 1])
        steps = [(False, whole), (True, whole)]
        for place in (1, 2, length // 2, length - 2):
            steps += [(True, [place + 1, -place]), (False, whole), (False, [-place - 1, length])]
        text = SPELLINGS[0][1](steps)
        tally.compare(f"a chain of {length} variables", lines_of(program, [case(length + 1, clauses, text)])[0],
                      line_of(clauses, text))
    many_names(program, tally)


def many_names(program, tally):
    """Variables of its own that are far apart or in a row. Each is made true, which no clause forbids. Then each is
    true, and none may be made false."""
    rng = random.Random(1)
    names = [*rng.sample(range(70_000, MOST), 10_000), *range(3, 5_000), *range(65_000, 66_000), MOST]
    first = [(False, [name]) for name in names]
    rng.shuffle(names)
    again = [(False, [sign * name]) for name in names for sign in (-1, 1)]
    marks = ON_FIRST * len(names) + (WRONG + FOLLOWS) * len(names)
    for form, spelled in SPELLINGS:
        line = lines_of(program, [case(2, [[1, 2], [1, -2]], spelled(first + again))])[0]
        tally.check(f"{len(names)} variables of its own, {form}", line == f"{marks} {OPEN}", line[-40:])
