"""Proofs of many steps on a first literal about a large formula, where no clause has its negation: the clauses that had
it are deleted first. A checker that goes through the formula for each of these steps takes as many times as long as
there are steps. One proof is DRAT and one has hints. A time is processor time of a whole run; the runs take turns, and
the least of each counts. It is compared with that of an empty proof: it counts the same formula."""

import collections
import os

from library.runs import REPOSITORY, refused, write
from library.times import processor_time

QUEUE = os.path.join(REPOSITORY, "examples", "queue.aig")
QUESTION = ("--frames", "240", "--property", "1", QUEUE)
SIZE = 30_000
OTHERS = 2_000
TURNS = 5
MOST = 6.0  # times as long


def clauses_of(formula):
    """The number of variables of a formula, and its clauses."""
    lines = [line.split() for line in formula.decode().splitlines() if line[0] != "c"]
    return int(lines[0][2]), [[int(word) for word in line[:-1]] for line in lines[1:]]


def places_by_literal(clauses):
    """For each literal the numbers of the clauses that have it."""
    of = collections.defaultdict(list)
    for number, clause in enumerate(clauses, 1):
        for literal in clause:
            of[literal].append(number)
    return of


def write_proofs(variables, clauses):
    """Few clauses have the variables of the other literals. So little follows where they are false, and a step has to
    be tried on its first literal."""
    of = places_by_literal(clauses)
    first = min((sign * at for at in range(variables // 2, variables + 1) for sign in (1, -1) if of[-sign * at]),
                key=lambda literal: len(of[-literal]))
    others = sorted((at for at in range(2, variables + 1) if at != abs(first)),
                    key=lambda at: len(of[at]) + len(of[-at]))[:OTHERS]
    count = SIZE // len(f"{first} -{others[0]} -{others[1]} 0\n")
    steps = [f"{first} -{others[at % OTHERS]} -{others[(7 * at + 1) % OTHERS]} 0" for at in range(count)]
    gone = of[-first]
    deletions = ["d " + " ".join(map(str, clauses[number - 1])) + " 0" for number in gone]
    write("proof", "".join(step + "\n" for step in deletions + steps))
    named = f"{len(clauses)} d {' '.join(map(str, gone))} 0\n"
    write("hinted", named + "".join(f"{at} {step} 0\n" for at, step in enumerate(steps, len(clauses) + 1)))
    write("empty", "")


def first_literals(program, tally, _):
    write_proofs(*clauses_of(program.run("cnf", *QUESTION).out))
    least = {}
    for _ in range(TURNS):
        for name in ("empty", "proof", "hinted"):
            seconds, ended = processor_time(lambda: program.run("refute", *QUESTION, name))
            tally.compare(name, ended, refused("proof: no refutation"))
            least[name] = min(seconds, least.get(name, seconds))
    told = ", ".join(f"{name} {seconds:.2f} s" for name, seconds in least.items())
    for name in ("proof", "hinted"):
        tally.check(name, least[name] <= MOST * least["empty"], told)
    return told + ": "
