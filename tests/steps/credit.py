"""Steps on first literals until the looks are used up that a proof has for them: each mark, exactly, by the rule of
aig_sat's README. Each candidate is blocked, as the clause that has to follow has a literal and its negation."""

from hints.sizes import line
from program.proofs import SPELLINGS
from steps.cases import ON_FIRST, OPEN, WRONG, case, lines_of

AT_FIRST, FOR_A_LITERAL, WORDS_BEFORE = 1 << 24, 256, 3
FIRST, OTHER = 1, 2
CANDIDATES = 2_000
# How many steps on the first literal there are, between which some long clauses come.
STEPS, LONG, EVERY = 2_500, 100, 50


class Looks:
    """The looks that a proof has left."""

    def __init__(self, clauses):
        self.left = AT_FIRST + sum(WORDS_BEFORE + len(clause) for clause in clauses)

    def mark(self, clause, candidates):
        """The mark of a step without hints whose candidates are blocked."""
        self.left += FOR_A_LITERAL * len(clause)
        if len(candidates) > self.left:
            return WRONG
        self.left -= len(candidates)
        for candidate in candidates:
            looks = len(clause) + len(candidate) - 1
            if looks > self.left:
                return WRONG
            self.left -= looks
        self.left += WORDS_BEFORE + len(clause)
        return ON_FIRST


def credit(program, tally, _):
    candidates = [[-FIRST, -OTHER, at] for at in range(3, CANDIDATES + 3)]
    looks, steps, marks, variable = Looks(candidates), [], "", CANDIDATES + 2
    for at in range(STEPS):
        more = [[*range(variable + 1, variable + 1 + LONG)]] if at % EVERY == 0 else []
        for clause in [*more, [FIRST, OTHER, variable + LONG + 1]]:
            steps.append((False, clause))
            marks += looks.mark(clause, candidates if clause[0] == FIRST else [])
        variable += LONG + 1
    after = marks.partition(WRONG)[2]
    tally.check("credit: it is used up, and more is given", ON_FIRST in after, marks[-60:])
    proofs = [(form, spelled(steps)) for form, spelled in SPELLINGS]
    hinted = "".join(line(number, clause, []) for number, (_, clause) in enumerate(steps, CANDIDATES + 1))
    proofs.append(("with hints", hinted.encode()))
    lines = lines_of(program, [case(variable, candidates, proof) for _, proof in proofs])
    for (form, _), got in zip(proofs, lines):
        wanted = f"{marks} {OPEN}"
        differ = next((at for at, (one, other) in enumerate(zip(got, wanted)) if one != other), None)
        tally.check(f"credit: {form}", got == wanted, f"they differ at {differ}, {got[-40:]}")
