"""Random formulas of at most six variables, each with three random proofs, as text or in the binary form. The first has
steps that are right and others that are not, deletions, and variables of its own. The second has its right steps alone,
and the third is one of them with bytes that are changed. Each step is marked as by library/plain_checker.py, and no
proof refutes a formula that an assignment satisfies."""

import itertools
import random

from library.plain_checker import Checker
from program.proofs import SPELLINGS
from steps.cases import DELETED, FOLLOWS, ON_FIRST, OPEN, REFUTED, WRONG, case, done, line_of, lines_of

BATCH = 100
TRIES = 60
MOST = 2_147_483_647


def options(parser):
    parser.add_argument("--count", type=int, default=2000, help="how many random formulas")
    parser.add_argument("--seed", type=int, default=1)
    parser.add_argument("--only", type=int, metavar="FORMULA", help="one formula alone, of those of the seed")


def random_clause(rng, names, most):
    return [rng.choice(names) * rng.choice((1, -1)) for _ in range(rng.randrange(most + 1))]


def random_formula(rng):
    """The number of variables, and clauses; few of them are empty."""
    variables = rng.randrange(2, 7)
    names = range(1, variables + 1)
    clauses = [random_clause(rng, names, 3) for _ in range(rng.randrange(1, 5 * variables + 1))]
    return variables, [clause if clause or rng.randrange(50) == 0 else [rng.choice(names)] for clause in clauses]


def is_satisfiable(variables, clauses):
    return any(all(any(signs[abs(literal) - 1] == (literal > 0) for literal in clause) for clause in clauses)
               for signs in itertools.product((True, False), repeat=variables))


def random_step(rng, checker, names, own, late):
    """A step: a deletion, mostly of a clause that stands, or a clause, which is short in the end."""
    if checker.clauses and rng.randrange(5) == 0:
        clause = [*rng.choice([*checker.clauses.values()])] if rng.randrange(8) else random_clause(rng, names, 3)
        rng.shuffle(clause)
        return True, clause
    clause = random_clause(rng, names, 1 if late else 3)
    if own and rng.randrange(3) == 0:
        clause.insert(0, rng.choice(own) * rng.choice((1, -1)))
    return False, clause if rng.randrange(20) else []


def random_own(rng, variables):
    """Some variables of a proof's own."""
    last = rng.choice((variables + 9, 2_000_000_000, MOST))
    return rng.sample([variables + 1, variables + 2, variables + 4, last - 1, last], rng.randrange(4))


def random_steps(rng, variables, clauses):
    """Steps and their marks, up to the refutation."""
    own = random_own(rng, variables)
    names = [*range(1, variables + 1), *own]
    checker, steps, marks = Checker(clauses), [], ""
    for tried in range(TRIES):
        if checker.refuted:
            break
        steps.append(random_step(rng, checker, names, own, tried > TRIES // 2))
        marks += done(checker, steps[-1])
    return steps, marks, checker.refuted


def loose_text(rng, data):
    """The text of a proof with other gaps after its first line."""
    first, _, rest = data.partition(b"\n")
    gaps = (b" ", b"\n", b"\t", b" \n ", b"\nc 1 0\n")
    words = b"".join(word + rng.choice(gaps) for word in rest.split())
    return first + b"\n" + words


def changed(rng, data):
    """A proof with some of its bytes changed, left out or put in."""
    some = bytearray(data)
    for _ in range(rng.randrange(1, 4)):
        at = rng.randrange(len(some) + 1)
        some[at:at + rng.randrange(2)] = rng.choice((b"", b"0", b"1", b"-", b" ", b"d", b"a", b"\n", b"\0", b"\x84"))
    return bytes(some)


class Formula:
    """A random formula and its proofs, with the lines that the program has to print."""

    def __init__(self, name, variables, clauses):
        self.name, self.variables, self.clauses = name, variables, clauses
        self.is_satisfiable = is_satisfiable(variables, clauses)
        self.has_proof, self.wanted, self.cases = False, [], []

    def wants(self, has_proof, proofs, wanted):
        """Notes its proofs, and the line of each."""
        self.has_proof, self.wanted = has_proof, wanted
        self.cases = [case(self.variables, self.clauses, proof) for proof in proofs]

    def why(self, lines):
        """What is wrong with the lines that the program prints."""
        if self.is_satisfiable and any(line.endswith(REFUTED) for line in lines):
            return f"an assignment satisfies it, and it is refuted: {self.cases}"
        if self.has_proof and not lines[0].endswith(REFUTED):
            return f"a right proof is refused: {lines[0]}: {self.cases[0]}"
        return "" if lines == self.wanted else f"{lines}, wanted {self.wanted}: {self.cases}"


def with_proofs(seed, number):
    """A random formula with its three proofs."""
    rng = random.Random(f"{seed} {number}")
    formula = Formula(f"seed {seed}, formula {number}", *random_formula(rng))
    steps, marks, has_proof = random_steps(rng, formula.variables, formula.clauses)
    right = [step for step, mark in zip(steps, marks) if mark != WRONG]
    is_text = rng.randrange(2)
    spelled = SPELLINGS[1 - is_text][1]
    proofs = [spelled(steps), spelled(right)]
    if is_text and rng.randrange(2):
        proofs = [loose_text(rng, proof) for proof in proofs]
    proofs.append(changed(rng, rng.choice(proofs)))
    end = REFUTED if has_proof else OPEN
    wanted = [f"{marks} {end}", f"{marks.replace(WRONG, '')} {end}", line_of(formula.clauses, proofs[2])]
    formula.wants(has_proof, proofs, wanted)
    return formula


def try_formulas(program, tally, chosen, make):
    """Tries the formulas that are made of the seed and of their numbers, and returns what they were."""
    satisfiable = right = 0
    counts = dict.fromkeys((DELETED, FOLLOWS, ON_FIRST, WRONG), 0)
    numbers = [*range(chosen.count)] if chosen.only is None else [chosen.only]
    for begin in range(0, len(numbers), BATCH):
        formulas = [make(chosen.seed, number) for number in numbers[begin:begin + BATCH]]
        lines = lines_of(program, [each for formula in formulas for each in formula.cases])
        for place, formula in enumerate(formulas):
            three = lines[3 * place:3 * place + 3]
            why = formula.why(three)
            tally.check(formula.name, not why, why)
            satisfiable += formula.is_satisfiable
            right += formula.has_proof
            for mark in counts:
                counts[mark] += sum(line.split(" ")[0].count(mark) for line in three)
    told = ", ".join(f"{counts[mark]} steps {mark}" for mark in counts)
    return f"{satisfiable} satisfiable formulas, {right} right proofs, {told}: "


def at_random(program, tally, chosen):
    return try_formulas(program, tally, chosen, with_proofs)
