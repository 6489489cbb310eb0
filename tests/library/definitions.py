"""Right proofs with variables of their own, made here, whose steps are needed: names that differ in one bit,
definitions of three literals and more, clauses of 100 literals, great first literals, and deletions of long clauses. A
step is whether its clause is deleted, and the clause."""

import random

MOST = 2_147_483_647
BITS = 31
# Names, those of them that free variables define, the clauses that follow at the end, the literals of a long clause.
OWN, LOW, LATER, LONG = 2000, 500, 1000, 100
FREE = 2 * LOW
LENGTHS = (2, 3, 4, 5, 8, 16, 30, 31, 32, 33, 64, 100, 255, 256, 257, 1000)


def contradiction(a, b):
    """Clauses of two variables that no assignment satisfies. Propagation does not refute them."""
    return [[a, b], [a, -b], [-a, b], [-a, -b]]


def added(*clauses):
    return [(False, clause) for clause in clauses]


def one_bit(names):
    """Makes each variable true, and each whose name differs from its name in one bit false."""
    for name in names:
        yield from added([name], *([-(name ^ 1 << bit)] for bit in range(BITS)))


def conjunction(name, sides):
    """A variable is 1 exactly where all sides are."""
    return added([name, *(-side for side in sides)], *([-name, side] for side in sides))


def disjunction(name, sides, is_long_first):
    """A variable is 1 exactly where a side is."""
    whole, parts = [-name, *sides], [[name, -side] for side in sides]
    return added(*([whole, *parts] if is_long_first else [*parts, whole]))


def length_of(place):
    """How many literals define a variable: three, and for some more."""
    return {10: 4, 20: 7, 30: 31, 40: 60}.get(place % 100, 3)


class Extension:
    """Steps with 2,000 names. Each of 500 is defined by two of 1,000 free variables of the formula, and the others by
    literals of these, but for two names, each 1 where one of 100 others is. Then 1,000 steps follow. Half of the names
    are in a row, from the first one on; the others are far apart, up to the last one."""

    def __init__(self, free, first, last=MOST):
        rng = random.Random(first)
        names = [*range(first, first + OWN // 2), *rng.sample(range(first + OWN, last + 1), OWN // 2)]
        rng.shuffle(names)
        *names, left, right = names
        low, high = names[:LOW], names[LOW:]
        sides = {name: free[2 * place:2 * place + 2] for place, name in enumerate(low)}
        for place, name in enumerate(high):
            sides[name] = [side * rng.choice((1, -1)) for side in rng.sample(low, length_of(place))]
        short = [name for name in high if len(sides[name]) == 3]
        self.definitions = [step for name in names for step in conjunction(name, sides[name])]
        self.definitions += disjunction(left, rng.sample(short, LONG), True)
        self.definitions += disjunction(right, rng.sample(short, LONG), False)
        self.later = []
        while len(self.later) < LATER:
            name = rng.choice(high)
            side = rng.choice(sides[name])
            if side in sides:
                self.later += added([-name, rng.choice(sides[side])])


def deletions(first):
    """Clauses of many lengths with names from the first on. Each is there twice, and then deleted, the second time with
    its literals in another order: only then its first variable may be made false."""
    steps = []
    for length in LENGTHS:
        clause = [*range(first, first + length)]
        steps += [(False, clause), (False, clause), (True, clause), (True, clause[::-1]), (False, [-first])]
        first += length
    return steps
