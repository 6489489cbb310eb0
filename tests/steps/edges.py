"""Proofs at the edges of what a checker keeps: candidates that come last, deletions among few clauses, and a million
variables, of the formula or of the proof. The marks are by how a proof is made, and those of the small ones by the
plain checkers, too."""

from hints.sizes import line
from program.proofs import SPELLINGS
from steps.cases import DELETED, FOLLOWS, ON_FIRST, OPEN, REFUTED, WRONG, case, line_of, lines_of
from steps.hinted import line_of_hinted

MILLION = 1_000_000
OTHERS = 400
FOUR = [[1, 2], [-1, 2], [1, -2], [-1, -2]]


def late(first):
    """Steps on a first literal, with their marks. There is no candidate until many steps have looked for one; then one
    comes behind all other clauses, whose resolvent follows only once its cause has come, too."""
    own = first + 1
    looks = [[first, at] for at in range(own + 2, own + 2 + OTHERS)]
    return ([(step, ON_FIRST) for step in looks]
            + [([own, -first], ON_FIRST), ([first, own + 1], WRONG), ([own], ON_FIRST), ([first, own + 1], ON_FIRST)])


def late_candidates():
    for name, variables, first in (("of the formula", OTHERS + 10, 3), ("of the proof", 2, 3)):
        steps = late(first)
        marks = "".join(mark for _, mark in steps)
        yield f"a late candidate {name}", variables, FOUR[:2], [(False, step) for step, _ in steps], f"{marks} {OPEN}"
        number, lines, named = 3, [], {}
        for step, mark in steps:
            candidate = named.get((first + 1, -first))
            groups = [-candidate, named.get((first + 1, ), 1)] if candidate else []
            lines.append(line(number, step, groups))
            if mark != WRONG:
                named[tuple(step)] = number
            number += 1
        yield f"a late candidate {name}, with hints", variables, FOUR[:2], "".join(lines), f"{marks} {OPEN}"


def few_clauses():
    """Each of one to four clauses is deleted, and comes again: without it nothing is refuted."""
    for count in range(1, 5):
        for place in range(count):
            gone = FOUR[place]
            steps = [(True, gone), (False, gone), (True, gone[::-1]), (True, gone)]
            steps += [(False, [2, 9]), (True, [2, 9]), (False, gone), (False, [1]), (False, [])]
            yield f"{count} clauses, without {place + 1}", 2, FOUR[:count], steps, None
    twice = [(True, [1, 2]), (False, [1]), (False, [])]
    yield "one of two equal clauses goes", 2, [*FOUR, [2, 1]], twice, f"{DELETED}{FOLLOWS} {REFUTED}"


def million():
    refuted = [*FOUR[:3], [-1, -MILLION], [-1, MILLION]]
    yield "a million variables of the formula", MILLION, refuted, [(False, [1])], f"{FOLLOWS} {REFUTED}"
    long = [*range(3, MILLION + 3)]
    steps = [(False, long), (False, [MILLION + 3, -MILLION]), (True, long), (False, [1])]
    yield "a million variables of the proof", 2, FOUR, steps, f"{ON_FIRST * 2}{DELETED}{FOLLOWS} {REFUTED}"


def proofs_of(steps):
    """The proof in each form."""
    if isinstance(steps, str):
        return [("with hints", steps.encode())]
    return [(form, spelled(steps)) for form, spelled in SPELLINGS]


def edges(program, tally, _):
    for name, variables, clauses, steps, marks in (*late_candidates(), *few_clauses(), *million()):
        for form, proof in proofs_of(steps):
            wanted = [marks] if marks else []
            if len(proof) < 100_000:
                wanted.append((line_of_hinted if isinstance(steps, str) else line_of)(clauses, proof))
            got = lines_of(program, [case(variables, clauses, proof)])[0]
            for each in wanted:
                tally.compare(f"{name}, {form}", got, each)
