"""Random formulas with proofs in LRAT, made in C++ by tests/hints/attack.cpp: a slow reference marks each step as
aig_tests does, and no proof refutes a formula that an assignment satisfies."""

import re

from hints.programs import proof_tests, ran

COUNTED = re.compile(r"(\d+) formulas, (\d+) satisfiable; (\d+) right proofs, .*; (\d+) refuted, .*; "
                     r"steps: (\d+) follow, (\d+) on first literals, (\d+) deletions, (\d+) wrong; "
                     r"0 differences, 0 mistakes\n")


def options(parser):
    parser.add_argument("--count", type=int, default=2000, help="how many random formulas")
    parser.add_argument("--seed", type=int, default=1)


def formulas(program, tally, chosen):
    status, out, err = ran("attack", str(chosen.count), str(chosen.seed), proof_tests(program).path)
    counts = COUNTED.fullmatch(out)
    tally.check("formulas: no mistake", (status, err) == (0, "") and counts, (status, out[-2000:], err))
    if counts:
        tally.compare("formulas: all", int(counts[1]), chosen.count)
        tally.check("formulas: some of each kind", chosen.count < 100 or all(map(int, counts.groups())), out)
    return f"{out.strip()}: "
