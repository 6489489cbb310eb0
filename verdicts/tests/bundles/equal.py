"""Whether two circuits do the same (`verdicts/equal.py`): known pairs, random ones beside a search of all pairs of
states, and solvers that fail or lie."""

from __future__ import annotations

import contextlib
import os
import random
from pathlib import Path

from aig_verdicts.compare.equal import do_the_same
from aig.tools import Stop
from bundles.common import SMALL_SOLVER, tool
from library.all_states import Table
from library.plain_reader import Reader

# Two registers with a reset and one without, an output, a property and a constraint.
CIRCUIT = """aag 7 1 3 1 3 1 1
2
4 10
6 4 1
8 8 8
14
12
11
10 2 7
12 4 6
14 8 2
i0 a
l0 s
l1 t
l2 u
o0 shown
b0 both
c0 kept
"""
# Changes of it, and whether the result does the same.
CHANGES = {
    "none": ([], True),
    "sides of a gate": ([("12 4 6\n", "12 6 4\n")], True),
    "one more gate": ([("aag 7 1 3 1 3", "aag 8 1 3 1 4"), ("14 8 2\n", "14 8 16\n16 2 2\n")], True),
    "registers in another order": ([("4 10\n6 4 1\n", "6 4 1\n4 10\n"), ("l0 s\nl1 t", "l0 t\nl1 s")], True),
    "a next value": ([("4 10\n", "4 11\n")], False),
    "a reset": ([("6 4 1\n", "6 4\n")], False),
    "a reset where there was none": ([("8 8 8\n", "8 8\n")], False),
    "no reset": ([("6 4 1\n", "6 4 6\n")], False),
    "an output": ([("14\n12\n11\n", "15\n12\n11\n")], False),
    "a property": ([("14\n12\n11\n", "14\n14\n11\n")], False),
    "a property that no start shows": ([("14\n12\n11\n", "14\n0\n11\n")], False),
    "a constraint": ([("14\n12\n11\n", "14\n12\n10\n")], False),
    "a property where a run breaks the constraint": ([("14\n12\n11\n", "14\n17\n11\n"),
                                                      ("aag 7 1 3 1 3", "aag 8 1 3 1 4"),
                                                      ("14 8 2\n", "14 8 2\n16 13 11\n")], False),
    "names of registers": ([("l0 s\nl1 t", "l0 t\nl1 s")], False),
    "a name of an input": ([("i0 a", "i0 b")], False),
    "one name twice": ([("l0 s\nl1 t", "l0 s\nl1 s")], False),
    "no constraint": ([("aag 7 1 3 1 3 1 1", "aag 7 1 3 1 3 1 0"), ("12\n11\n", "12\n"), ("c0 kept\n", "")], False),
}
RANDOM = 20
# Solvers that find no proof, or write one that is none.
SOLVERS = {"no answer": "exit 0", "a crash": "kill -SEGV $$", "a wrong model": "echo 's SATISFIABLE'; exit 10",
           "a wrong proof": 'for last; do :; done; echo 0 > "$last"; exit 20'}


def changed(changes):
    text = CIRCUIT
    for old, new in changes:
        text = text.replace(old, new)
    return text


@contextlib.contextmanager
def cadical(body):
    """Another cadical on the path, or none."""
    usual = os.environ["PATH"]
    if body is not None:
        tool("cadical", body, "path")
    os.environ["PATH"] = f"{Path('path').resolve()}:{usual}" if body is not None else "/nowhere"
    try:
        yield
    finally:
        os.environ["PATH"] = usual


def is_shown(text):
    return do_the_same(CIRCUIT.encode(), text.encode(), Stop())


class Named:
    """A circuit as truth tables, with the literals of each section by name."""

    def __init__(self, text):
        self.parts = Reader(text.encode()).parts()
        self.table = Table(self.parts)
        sections = {"o": self.parts.outputs, "b": self.parts.bad, "c": self.parts.constraints,
                    "l": [latch[0] for latch in self.parts.latches]}
        self.literals = {(letter, name): sections[letter.decode()][at] for letter, at, name in self.parts.names
                         if letter != b"i"}

    def starts(self):
        return {row >> self.table.width for row in self.table.bits(self.table.starts())}

    def values(self, row):
        return {name: self.table.of(literal) >> row & 1 for name, literal in self.literals.items()}

    def free(self, state):
        """The first values of the registers without a reset."""
        names = {at: name for letter, at, name in self.parts.names if letter == b"l"}
        return {names[at]: state >> at & 1 for at, (own, _, reset) in enumerate(self.parts.latches) if own == reset}


def is_same(text):
    """Whether all runs of both from the same first values have the same values, by all pairs of states."""
    old, new = Named(CIRCUIT), Named(text)
    waiting = [(one, two) for one in old.starts() for two in new.starts() if old.free(one) == new.free(two)]
    seen = set(waiting)
    while waiting:
        states = waiting.pop()
        for given in range(1 << old.table.width):
            rows = [state << old.table.width | given for state in states]
            if old.values(rows[0]) != new.values(rows[1]):
                return False
            after = old.table.next_state(rows[0]), new.table.next_state(rows[1])
            if after not in seen:
                seen.add(after)
                waiting.append(after)
    return True


def randomly(seed):
    """The circuit with another literal in one or two of its lines."""
    choice = random.Random(seed)
    lines = CIRCUIT.split("\n")
    for _ in range(choice.choice((1, 1, 2))):
        at = choice.choice((2, 3, 5, 6, 7, 8, 9, 10))
        words = lines[at].split()
        least = int(words[0]) if at > 7 else 16
        words[min(1, len(words) - 1) if at < 8 else choice.choice((1, 2))] = str(choice.randrange(min(least, 16)))
        lines[at] = " ".join(words)
    return "\n".join(lines)


def equal(_, tally, __):
    """Equal circuits are found, and others never are."""
    os.mkdir("path")
    with cadical(f'shift; exec {SMALL_SOLVER} "$@"'):
        for name, (changes, wanted) in CHANGES.items():
            tally.compare(f"equal: {name}", is_shown(changed(changes)), wanted)
        found = 0
        for seed in range(RANDOM):
            text = randomly(seed)
            found += is_shown(text)
            tally.check(f"equal: random {seed}", is_same(text) or not is_shown(text), text)
        tally.check("equal: random ones that are equal", 0 < found < RANDOM, found)
        tally.compare("equal: what is no circuit", is_shown("aag 1"), False)
    for name, body in {**SOLVERS, "none": None}.items():
        with cadical(body):
            tally.compare(f"equal: a solver: {name}", [is_shown(changed(CHANGES[it][0])) for it in ("none", "a reset")],
                          [False, False])
