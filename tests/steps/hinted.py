"""Random formulas of at most six variables, each with three random proofs with hints. The first has right steps, with
hints that give nothing, gaps in the numbers, groups in any order, and deletions. In the second, steps are changed, and
in the third bytes. Each step is marked as by library/plain_hints.py, and no proof refutes a formula that an assignment
satisfies."""

import random

from library.plain_hints import HintedChecker, hinted_steps, is_hinted
from steps.at_random import Formula, changed, random_clause, random_formula, random_own, try_formulas
from steps.cases import DELETED, FOLLOWS, ON_FIRST, WRONG, line_by, line_of

TRIES = 60


def done(checker, step):
    """Does a step of the plain checker, and returns its mark."""
    number, is_deleted, clause, hints = step
    if is_deleted:
        checker.delete(hints)
        return DELETED
    if not checker.may_have(number):
        return WRONG
    mark = (FOLLOWS if checker.follows(clause, hints) else ON_FIRST if checker.is_right_on_first(clause, hints)
            else WRONG)
    if mark != WRONG:
        checker.add(clause)
    return mark


def line_of_hinted(clauses, proof):
    """The line of a case by the plain reader and the plain checker."""
    if not is_hinted(proof):
        return line_of(clauses, proof)
    return line_by(HintedChecker(clauses), hinted_steps(proof), done)


def found(checker, clause):
    """The clauses from which the clause follows, in the order in which they give something; None where it does not."""
    true, hints = {-literal for literal in clause}, []
    if any(-literal in true for literal in true):
        return hints
    is_more = True
    while is_more:
        is_more = False
        for number, literals in checker.clauses.items():
            left = [literal for literal in literals if -literal not in true]
            if not left:
                return [*hints, number]
            if len(left) == 1 and left[0] not in true:
                true.add(left[0])
                hints.append(number)
                is_more = True
    return None


def right_hints(rng, checker, clause):
    """The hints of a clause, or None where it is not right."""
    hints = found(checker, clause)
    if hints is not None or not clause:
        return hints
    groups = []
    for number, literals in checker.clauses.items():
        if -clause[0] in literals:
            group = found(checker, [*clause, *(literals - {-clause[0]})])
            if group is None:
                return None
            if group or rng.randrange(2):
                groups.append([-number, *group])
    rng.shuffle(groups)
    return [hint for group in groups for hint in group]


def with_more(rng, checker, hints):
    """The same hints, and some that give nothing or too early what others give."""
    hints = [*hints]
    for _ in range(rng.choice((0, 0, 0, 1, 3))):
        hints.insert(rng.randrange(len(hints) + 1), rng.randrange(1, checker.next + 3))
    return hints


def random_steps(rng, variables, clauses):
    own = random_own(rng, variables)
    names = [*range(1, variables + 1), *own]
    checker, steps = HintedChecker(clauses), []
    for tried in range(TRIES):
        if checker.refuted:
            break
        if checker.clauses and rng.randrange(8) == 0:
            numbers = [rng.randrange(1, checker.next + 2) for _ in range(rng.randrange(4))]
            steps.append((rng.choice((0, checker.next - 1)), True, [], numbers))
            done(checker, steps[-1])
            continue
        clause = random_clause(rng, names, 1 if tried > TRIES // 2 else 3) if rng.randrange(10) else []
        if own and rng.randrange(3) == 0:
            clause.insert(0, rng.choice(own) * rng.choice((1, -1)))
        hints = right_hints(rng, checker, clause)
        if hints is not None:
            number = checker.next + rng.choice((0, 0, 0, 1, 5, 1_000_000))
            steps.append((number, False, clause, with_more(rng, checker, hints)))
            done(checker, steps[-1])
    return steps, checker.refuted


def wrong_steps(rng, steps):
    """The steps with some of their numbers changed."""
    steps = [*steps]
    for _ in range(rng.randrange(1, 4) if steps else 0):
        place = rng.randrange(len(steps))
        number, is_deleted, clause, hints = steps[place]
        which = rng.randrange(5)
        if which == 0:
            del steps[place]
            steps = steps or [(1, True, [], [])]
            continue
        if which == 1:
            number = max(number + rng.choice((-2, -1, 1)), 1)
        elif which == 2 and clause:
            clause = [*clause]
            clause[rng.randrange(len(clause))] *= -1
        elif which == 3 and hints:
            hints = [*hints]
            hints[rng.randrange(len(hints))] += rng.choice((-1, 1))
        elif hints:
            hints = rng.sample(hints, rng.randrange(len(hints) + 1))
        hints = [abs(hint) if is_deleted else hint for hint in hints if hint]
        steps[place] = number, is_deleted, clause, hints
    return steps


def spelled(rng, steps):
    """The text of the steps, in plain lines or with other gaps after the first one."""
    lines = []
    for number, is_deleted, clause, hints in steps:
        words = [number, *(["d"] if is_deleted else [*clause, 0]), *hints, 0]
        lines.append(b" ".join(str(word).encode() for word in words))
    if rng.randrange(2):
        return b"".join(line + b"\n" for line in lines)
    gaps = (b" ", b"\n", b"\t", b" \n ", b"\nc 1 0\n")
    words = b"".join(word + rng.choice(gaps) for line in lines[1:] for word in line.split())
    return b"c 1 0\n\n" + lines[0] + b"\n" + words if lines else b""


def with_hints(seed, number):
    """A random formula with its three proofs."""
    rng = random.Random(f"hinted {seed} {number}")
    formula = Formula(f"seed {seed}, formula {number} with hints", *random_formula(rng))
    steps, has_proof = random_steps(rng, formula.variables, formula.clauses)
    proofs = [spelled(rng, steps), spelled(rng, wrong_steps(rng, steps))]
    proofs.append(changed(rng, rng.choice(proofs)))
    formula.wants(has_proof, proofs, [line_of_hinted(formula.clauses, proof) for proof in proofs])
    return formula


def hinted(program, tally, chosen):
    return try_formulas(program, tally, chosen, with_hints)
