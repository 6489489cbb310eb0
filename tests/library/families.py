"""Formulas that no assignment satisfies, and refutations of them with variables of their own: pigeons by Cook's
extension, and bounded variable addition, which solvers do before they search. A step is whether its clause is deleted,
and the clause."""

import random


def pigeons(holes):
    """One pigeon more than holes, and each hole takes one: the number of variables, the clauses, and the variable of
    each pigeon and hole."""
    at = {(i, j): i * holes + j + 1 for i in range(holes + 1) for j in range(holes)}
    clauses = [[at[i, j] for j in range(holes)] for i in range(holes + 1)]
    clauses += [[-at[i, j], -at[k, j]] for j in range(holes) for i in range(holes + 1) for k in range(i)]
    return len(at), clauses, at


def at_most_one(size, seed):
    """Rows that need a column, and each column takes one: some rows share too few columns."""
    rng = random.Random(seed)
    few = rng.sample(range(size), size // 4)
    at, clauses = {}, []
    for i in range(size):
        columns = few if i <= len(few) else rng.sample(range(size), size // 2)
        at.update({(i, j): len(at) + number for number, j in enumerate(columns, 1)})
        clauses.append([at[i, j] for j in columns])
    for j in range(size):
        rows = [i for i in range(size) if (i, j) in at]
        clauses += [[-at[i, j], -at[k, j]] for i in rows for k in rows if k < i]
    return len(at), clauses


def cook(holes):
    """Cook's refutation of the pigeons. With a hole fewer, pigeon i is in hole j if it was there, or if it was in the
    last hole and the last pigeon in j."""
    number, _, at = pigeons(holes)
    for last in range(holes - 1, 0, -1):
        made = {}
        for i in range(last + 1):
            for j in range(last):
                number += 1
                made[i, j] = number
                yield from ((False, clause) for clause in (
                    [number, -at[i, j]], [number, -at[i, last], -at[last + 1, j]],
                    [-number, at[i, j], at[i, last]], [-number, at[i, j], at[last + 1, j]]))
        for i in range(last + 1):
            yield False, [made[i, j] for j in range(last)]
        for j in range(last):
            for i in range(last + 1):
                for k in range(i):
                    yield False, [-made[i, j], -made[k, j], -at[i, j]]
                    yield False, [-made[i, j], -made[k, j]]
        at = made
    yield False, []


class Added:
    """Bounded variable addition: where all clauses (l_i or C_j) of some literals l_i and clauses C_j are there, a new
    variable x and the clauses (x or l_i) and (-x or C_j) take their place. The steps of the style `sbva` add these
    clauses; those of `factor` add (-x or -l_1 .. -l_m) between them, and delete it."""

    def __init__(self, variables, clauses, style):
        self.variables, self.style, self.steps = variables, style, []
        # The clauses, and those of each literal.
        self.clauses, self.of = {}, {}
        for clause in clauses:
            self.keep(clause)
        before = None
        while before != self.variables:
            before = self.variables
            for literal in sorted(self.of):
                self.add_for(literal)

    def keep(self, clause):
        made = tuple(sorted(set(clause)))
        self.clauses[made] = None
        for literal in made:
            self.of.setdefault(literal, {})[made] = None

    def drop(self, clause):
        made = tuple(sorted(clause))
        del self.clauses[made]
        for literal in made:
            del self.of[literal][made]
        self.steps.append((True, [*made]))

    def add_for(self, literal):
        """Adds a variable for literals of which this is one, if that saves clauses."""
        literals, rests = [literal], [tuple(m for m in clause if m != literal) for clause in self.of[literal]]
        while True:
            fits = {}
            for rest in filter(None, rests):
                for other in self.others(rest):
                    if other not in literals and -other not in literals:
                        fits.setdefault(other, []).append(rest)
            best = max(fits, key=lambda other: (len(fits[other]), -abs(other), other), default=None)
            if best is None or saved(len(literals) + 1, len(fits[best])) <= saved(len(literals), len(rests)):
                break
            literals, rests = [*literals, best], fits[best]
        if len(literals) > 1 and saved(len(literals), len(rests)) > 0:
            self.replace(literals, rests)

    def others(self, rest):
        """The literals that a clause has beside this rest."""
        least = min((self.of[literal] for literal in rest), key=len)
        return [literal for clause in least if len(clause) == len(rest) + 1 and {*rest} <= {*clause}
                for literal in clause if literal not in rest]

    def replace(self, literals, rests):
        self.variables += 1
        x = self.variables
        positive, negative = [[x, literal] for literal in literals], [[-x, *rest] for rest in rests]
        none = [-x, *(-literal for literal in literals)]
        between = self.style == "factor"
        self.steps += [(False, clause) for clause in [*positive, *[none] * between, *negative]] + [(True,
                                                                                                    none)] * between
        for literal in literals:
            for rest in rests:
                self.drop((literal, *rest))
        for clause in positive + negative:
            self.keep(clause)


def saved(literals, rests):
    """How many clauses a variable for so many literals and rests saves."""
    return literals * rests - literals - rests


def without(clauses, place):
    """The formula without a clause, with a tautology in its place."""
    return [*clauses[:place], [1, -1], *clauses[place + 1:]]


def searched(clauses):
    """The clauses that a search without learning finds, up to the empty one; None where it finds an assignment."""
    steps = []
    return steps if refutes(clauses, [], steps) else None


def refutes(clauses, decided, steps):
    true, is_false = propagated(clauses, decided)
    if not is_false:
        free = [[literal for literal in clause if -literal not in true] for clause in clauses if true.isdisjoint(clause)]
        if not free:
            return False
        literal = min(free, key=len)[0]
        if not all(refutes(clauses, [*decided, each], steps) for each in (literal, -literal)):
            return False
    steps.append((False, [-literal for literal in decided]))
    return True


def propagated(clauses, true):
    """The literals that are true by unit propagation, and whether a clause is false then."""
    true = set(true)
    found = True
    while found:
        found = False
        for clause in clauses:
            if not true.isdisjoint(clause):
                continue
            free = [literal for literal in clause if -literal not in true]
            if not free:
                return true, True
            if len(free) == 1:
                true.add(free[0])
                found = True
    return true, False


def dimacs(variables, clauses):
    """The text of a formula."""
    lines = [f"p cnf {variables} {len(clauses)}", *(" ".join(map(str, [*clause, 0])) for clause in clauses)]
    return "".join(line + "\n" for line in lines)
