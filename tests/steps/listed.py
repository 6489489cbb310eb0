"""Steps on first literals about a formula of over 2,000 clauses, 300 of which have the negation, between deletions and
clauses that are added. Each of the first steps allows the next one only because one clause came or went, so a clause
that is missing from a list, or stays in it, changes a mark. The groups of hints are in any order. The plain checkers
mark all steps so, too."""

import random

from program.proofs import SPELLINGS
from steps.cases import DELETED, ON_FIRST, OPEN, WRONG, case, line_of, lines_of
from steps.hinted import line_of_hinted

CANDIDATES, OTHERS, ROUNDS = 300, 1_500, 8
FIRST, CAUSE = 1, 2
VARIABLES = CANDIDATES + 2 + 500


class Lists:
    """A formula, the steps of a proof with their hints, and their marks."""

    def __init__(self, seed):
        self.rng = random.Random(seed)
        follows = [*range(3, CANDIDATES + 3)]
        candidates = [[-FIRST, at] for at in follows]
        causes = [[-CAUSE, at] for at in follows]
        others = [[self.rng.choice((-1, 1)) * at for at in self.rng.sample(range(CANDIDATES + 3, VARIABLES + 1), 3)]
                  for _ in range(OTHERS)]
        self.clauses = candidates + causes + others
        self.rng.shuffle(self.clauses)
        self.numbers = {tuple(clause): number for number, clause in enumerate(self.clauses, 1)}
        self.next = len(self.clauses) + 1
        self.steps, self.hinted, self.marks = [], [], ""
        places = [*self.rng.sample(range(len(self.clauses)), ROUNDS - 2)]
        for at in [follows[0], follows[-1], *(follows[place % CANDIDATES] for place in places)]:
            self.round([-FIRST, at], [-CAUSE, at])

    def add(self, clause, mark, hints=()):
        self.steps.append((False, clause))
        self.hinted.append(" ".join(map(str, [self.next, *clause, 0, *hints, 0])))
        self.marks += mark
        if mark != WRONG:
            self.numbers[tuple(clause)] = self.next
        self.next += 1

    def delete(self, clause):
        self.steps.append((True, clause))
        self.hinted.append(f"{self.next - 1} d {self.numbers.pop(tuple(clause))} 0")
        self.marks += DELETED

    def on_first(self, mark):
        """A step that each candidate allows whose cause stands; where it does not stand, it is no hint."""
        groups = [(number, self.numbers.get((-CAUSE, clause[1]))) for clause, number in self.numbers.items()
                  if clause[0] == -FIRST]
        self.rng.shuffle(groups)
        self.add([FIRST, -CAUSE], mark, [hint for number, cause in groups for hint in (-number, cause) if hint])
        if mark != WRONG:
            self.delete([FIRST, -CAUSE])

    def round(self, candidate, cause):
        """The candidate and its cause go, and come again behind all others."""
        self.on_first(ON_FIRST)
        self.delete(cause)
        self.on_first(WRONG)
        self.delete(candidate)
        self.on_first(ON_FIRST)
        self.add(candidate, ON_FIRST)
        self.on_first(WRONG)
        self.add(cause, ON_FIRST)
        self.on_first(ON_FIRST)


def listed(program, tally, _):
    lists = Lists(1)
    wanted = f"{lists.marks} {OPEN}"
    proofs = [(form, spelled(lists.steps)) for form, spelled in SPELLINGS]
    proofs.append(("with hints", "".join(line + "\n" for line in lists.hinted).encode()))
    lines = lines_of(program, [case(VARIABLES, lists.clauses, proof) for _, proof in proofs])
    for (form, _), line in zip(proofs, lines):
        tally.compare(f"lists, {form}", line, wanted)
    for (form, proof), plain in ((proofs[0], line_of), (proofs[-1], line_of_hinted)):
        tally.compare(f"lists, {form}, the plain checker", plain(lists.clauses, proof), wanted)
