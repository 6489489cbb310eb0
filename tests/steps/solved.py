"""Large formulas of the families, with bounded variable addition and then cadical: the refutations, and those of the
formula without one clause, which are refused where cadical finds an assignment."""

import random
import shutil
import subprocess

from library import supervised
from library.families import Added, at_most_one, dimacs, pigeons, without
from library.runs import LeftOut, contents, write
from program.proofs import text_of
from steps.cases import ON_FIRST, REFUTED, WRONG, case, lines_of
from steps.extended import STYLES, is_refused

SATISFIABLE, UNSATISFIABLE = 10, 20  # cadical's statuses
LEFT_OUT = 100


def cadical(variables, clauses, *words):
    """The status of cadical, which writes `tail.drat`."""
    write("f.cnf", dimacs(variables, clauses))
    return supervised.run(["cadical", "-q", *words, "f.cnf", "tail.drat"], stdin=subprocess.DEVNULL,
                          stdout=subprocess.DEVNULL, check=False).returncode


def solved(program, tally, _):
    if not shutil.which("cadical"):
        raise LeftOut("cadical is missing: apt-get install cadical")
    rng, satisfiable, on_first = random.Random(1), 0, 0
    for name, variables, clauses in (("pigeons in 9 holes", *pigeons(9)[:2]),
                                     ("at most one, 32 rows", *at_most_one(32, 1))):
        for style in STYLES:
            added = Added(variables, clauses, style)
            status = cadical(added.variables, [*added.clauses], "--no-binary")
            tally.compare(f"{name}, {style}, cadical", status, UNSATISFIABLE)
            text = text_of(added.steps) + contents("tail.drat")
            line = lines_of(program, [case(variables, clauses, text)])[0]
            is_right = WRONG not in line.partition(" ")[0] and line.endswith(REFUTED)
            tally.check(f"{name}, {style}", is_right, line[-40:])
            on_first += line.count(ON_FIRST)
            for place in rng.sample(range(len(clauses)), LEFT_OUT):
                less = without(clauses, place)
                if cadical(variables, less) == SATISFIABLE:
                    satisfiable += 1
                    line = lines_of(program, [case(variables, less, text)])[0]
                    tally.check(f"{name}, {style}, without clause {place + 1}", is_refused(line), line[-40:])
    tally.check("formulas that an assignment satisfies", satisfiable > 0, satisfiable)
    return f"{on_first} steps on first literals; {satisfiable} formulas without a clause that an assignment satisfies: "
