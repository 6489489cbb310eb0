"""Proofs with hints of all sizes, and what each of their steps is: lists of hints and of literals, also of 100,000; a
first line that is longer than what shows that a proof has hints; numbers with gaps, up to the greatest one; candidates
whose hints are in order or not. Each proof is right or wrong by how it is made."""

import random

from hints.programs import proof_tests
from program.proofs import BLOCK
from steps.cases import DELETED, FOLLOWS, ON_FIRST, OPEN, REFUTED, WRONG, case, lines_of

# The formula: two variables, and no values of them.
VARIABLES, CLAUSES = 2, [[1, 2], [-1, 2], [1, -2], [-1, -2]]
MOST = 2_147_483_647
# Numbers of the proof's own variables.
OWN = 10
SIZES = (*range(70), *range(254, 259), *range(4094, 4099))
# As many hints that give nothing as a step may have, and more.
FEW_LOOKS, MANY_LOOKS = 10_000, 200_000
LONG = 100_000


def line(number, literals, hints):
    return f"{number} {''.join(f'{it} ' for it in literals)}0 {''.join(f'{it} ' for it in hints)}0\n"


def deletion(number, numbers):
    return f"{number} d {''.join(f'{it} ' for it in numbers)}0\n"


def end(number):
    """The two steps that refute the formula."""
    return line(number, [1], [1, 3]) + line(number + 1, [], [number, 2, 4])


class Sizes:
    """Checks what aig_tests says of proofs."""

    def __init__(self, checker, tally):
        self.checker, self.tally = checker, tally

    def are(self, rows):
        """Rows of a name, a proof and the line that is wanted."""
        rows = [*rows]
        lines = lines_of(self.checker, [case(VARIABLES, CLAUSES, proof.encode()) for _, proof, _ in rows])
        for (name, _, wanted), got in zip(rows, lines):
            self.tally.check(f"sizes: {name}", got == wanted, f"{got[-60:]}, wanted {wanted[-60:]}")


def lists():
    """Hints that give nothing before those that are needed, and literals beside the one that follows."""
    for size in SIZES:
        yield f"{size} hints", line(5, [1], [2] * size + [1, 3]) + end(6), f"{3 * FOLLOWS} {REFUTED}"
        own = range(OWN, OWN + size)
        yield f"{size} literals", line(5, [1, *own], [1, 3]) + end(6), f"{3 * FOLLOWS} {REFUTED}"
        # The long clause needs that all its other literals are false.
        both = line(5, [1, *own], [1, 3]) + line(6, [*own, 1], [5])
        yield f"{size} literals that are false", both + end(7), f"{4 * FOLLOWS} {REFUTED}"
        gone = line(5, [1], [1, 3]) + deletion(5, [5] * size) + line(6, [2, OWN, -OWN], []) + line(7, [], [5, 2, 4])
        wanted = f"+d+{WRONG} {OPEN}" if size else f"+d++ {REFUTED}"
        yield f"{size} deletions of one clause", gone, wanted
    own = range(OWN, OWN + LONG)
    yield ("a hint of a long clause", line(5, [1], [1, 3]) + line(6, [*own, 1], [5]) + line(7, [1, *own], [6]) + end(8),
           f"{5 * FOLLOWS} {REFUTED}")
    yield "hints that give nothing", line(5, [1], [2] * FEW_LOOKS + [1, 3]) + end(6), f"{3 * FOLLOWS} {REFUTED}"
    # More looks than a step may take to follow by its hints. The proof has as many for steps on a first literal.
    yield "hints without an end", line(5, [1], [2] * MANY_LOOKS + [1, 3]) + end(6), f"{ON_FIRST}++ {REFUTED}"


def first_lines():
    """A first line with its first hint at the last byte that shows the form, or after it."""
    for place in range(BLOCK - 3, BLOCK + 4):
        own = "".join(f"{it} " for it in range(10_000, 10_000 + (place - 20) // 6))
        start = f"5 1 {own}"
        start += " " * (place - len(start) - 2) + "0 "
        wanted = f"{3 * FOLLOWS} {REFUTED}" if place < BLOCK else f" text at {place}"
        yield f"a first hint at byte {place}", f"{start}1 3 0\n" + end(6), wanted
    own = [*range(OWN, OWN + LONG)]
    long = line(5, [1, *own], [1, 3])
    yield "a long first line", long + end(6), f" text at {long.index(' 0 ') + 3}"
    yield "a long second line", deletion(4, []) + long + end(6), f"d{3 * FOLLOWS} {REFUTED}"


def chains():
    """Each of some variables implies the next one, by a clause on its first literal."""
    for length in (10, 1_000, LONG):
        own = [*range(OWN, OWN + length + 1)]
        made = "".join(line(5 + at, [own[at + 1], -own[at]], []) for at in range(length))
        hints, number, marks = [*range(5, 5 + length)], 5 + length, ON_FIRST * length
        whole = [-own[0], own[length]]
        # A clause whose first literal no clause has negated is right on it, if it does not follow.
        for name, used, mark in (
                ("in order", hints, FOLLOWS), ("the other way round", hints[::-1], FOLLOWS),
                ("with one twice", [hints[0], *hints], FOLLOWS),
                ("each second one first", hints[1::2] + hints[::2], ON_FIRST),
                ("without one", hints[:length // 2] + hints[length // 2 + 1:], ON_FIRST)):
            yield (f"a chain of {length}, {name}", made + line(number, whole[::-1], used) + end(number + 1),
                   f"{marks}{mark}++ {REFUTED}")


def numbers(rng, gap):
    """Clauses of one variable each, with gaps in their numbers. Then some are looked for, also by other numbers and
    after deletions: a clause that its hint does not name is right on its first literal."""
    number, made, text, marks = 4, {}, [], ""
    for own in range(OWN, OWN + 20_000):
        number += rng.randrange(1, gap + 1)
        made[number] = own
        text.append(line(number, [own], []))
        marks += ON_FIRST
    all_numbers, there = [*made], set(made)
    for _ in range(4_000):
        kind, named = rng.randrange(4), rng.choice(all_numbers)
        if kind == 0:
            gone = [named, rng.choice(all_numbers), rng.randrange(1, MOST)]
            there -= set(gone)
            text.append(deletion(number, gone))
            marks += DELETED
            continue
        hint = named + rng.choice((-1, 1)) if kind == 1 else named
        number += rng.randrange(1, gap + 1)
        text.append(line(number, [made[named]], [hint]))
        marks += FOLLOWS if hint in there and made[hint] == made[named] else ON_FIRST
    return "".join(text) + end(MOST - 1), f"{marks}++ {REFUTED}"


def gaps():
    rng = random.Random(1)
    for gap in (1, 2, 1_000, 80_000):
        yield f"numbers with gaps of up to {gap}", *numbers(rng, gap)
    after = line(5, [1], [1, 3])
    yield "the greatest number at once", after + line(MOST, [], [5, 2, 4]), f"++ {REFUTED}"
    yield "no number after the greatest", line(MOST, [2], [1, 2]) + line(MOST, [1], [1, 3]) + after, f"+-- {OPEN}"


def candidates():
    """A variable of its own, some clauses that have its negation and a variable each, which a clause makes true."""
    rng = random.Random(1)
    for count in (1, 3, 100, 20_000):
        x, own = OWN, [*range(OWN + 1, OWN + 1 + count)]
        trues = [*range(5, 5 + count)]
        implied = [*range(5 + count, 5 + 2 * count)]
        made = "".join(line(number, [it], []) for number, it in zip(trues, own))
        made += "".join(line(number, [-x, it], [true]) for number, it, true in zip(implied, own, trues))
        number, marks = 5 + 2 * count, ON_FIRST * count + FOLLOWS * count
        groups = [[-named, true] for named, true in zip(implied, trues)]
        mixed = rng.sample(groups, count)
        others = [[-named, true] for named, true in zip(implied, trues[1:] + trues[:1])]
        # Of two groups of a candidate the first one counts.
        others_first = ON_FIRST if count == 1 else WRONG
        for name, used, mark in (
                ("in order", groups, ON_FIRST), ("in any order", mixed, ON_FIRST),
                ("the other way round", groups[::-1], ON_FIRST), ("others before", others + groups, others_first),
                ("twice", groups + groups, ON_FIRST), ("without one", groups[:-1], WRONG),
                ("with hints of others", others, others_first), ("others behind", groups + others, ON_FIRST),
                ("without any", [], WRONG)):
            hints = [hint for group in used for hint in group]
            yield (f"{count} candidates, {name}", made + line(number, [x], hints) + end(number + 1),
                   f"{marks}{mark}++ {REFUTED}")
        before = line(number, [x], [*trues[:count], *(-named for named in implied)])
        # For each candidate all hints before its own are looked at again.
        mark = WRONG if count > 1_000 else ON_FIRST
        yield f"{count} candidates, hints before all", made + before + end(number + 1), f"{marks}{mark}++ {REFUTED}"


def sizes(program, tally, _):
    made = Sizes(proof_tests(program), tally)
    for rows in (lists, first_lines, chains, gaps, candidates):
        made.are(rows())
