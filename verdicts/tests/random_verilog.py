#!/usr/bin/env python3
"""Runs aig-verdicts on random Verilog, beside Icarus Verilog. Each program has no input but the clock, and sums up all of
its values. Icarus Verilog says the sum after some cycles. aig-verdicts has to say that an assertion of this sum holds
there and that one of another sum fails, or to reject the program by a line of it.

The programs are those of SEED, SEED + 1, .. A program that is judged wrong can be made smaller (--shrink). The last lines
count each kind of judgement, with the reason why a program is rejected. It needs iverilog, yosys and cadical.

usage: random_verilog.py [PROGRAM] [SEED COUNT]"""

import argparse
import os
import shutil
import sys
import tempfile
from collections import Counter
from concurrent.futures import ProcessPoolExecutor
from pathlib import Path

from paths import ROOT
from random_programs.judge import Outcome, judged
from random_programs.program import program
from random_programs.shrink import shrunk

USUAL = ["1", "20"]
PASSED = (Outcome.AGREES, Outcome.REJECTED)
WRONG = (Outcome.DIFFERS, Outcome.NOWHERE)
# At least one program in so many has to agree: else nothing was tried.
SOME = 4


def judgement(seed):
    with tempfile.TemporaryDirectory() as folder:
        return judged(program(seed), Path(folder))


def show(seed, said, chosen):
    """Prints why a program is judged wrong, and keeps it where that is asked for."""
    print(f"FAILED: {seed}: {said.outcome.value}: {said.reason}", flush=True)
    smaller = shrunk(program(seed), chosen.shrink) if chosen.shrink else program(seed)
    if chosen.shrink:
        print(smaller.tree, flush=True)
    if chosen.keep:
        chosen.keep.mkdir(parents=True, exist_ok=True)
        (chosen.keep / f"{seed}.v").write_text(str(smaller.tree))


def arguments():
    parser = argparse.ArgumentParser(description=__doc__, formatter_class=argparse.RawDescriptionHelpFormatter)
    parser.add_argument("words", nargs="*", metavar="PROGRAM SEED COUNT",
                        help=f"the program aig (the one that the gate built), and which seeds ({' '.join(USUAL)})")
    parser.add_argument("--jobs", type=int, default=2, metavar="N", help="programs at once (2)")
    parser.add_argument("--shrink", type=float, default=0, metavar="S", help="seconds to make a program smaller (0)")
    parser.add_argument("--keep", type=Path, metavar="FOLDER", help="write the programs that are judged wrong there")
    parser.add_argument("--verbose", action="store_true", help="print each judgement")
    chosen = parser.parse_args()
    words = chosen.words
    aig = words.pop(0) if words and os.path.isfile(words[0]) else ROOT / "crates/aig/out/aig"
    os.environ["AIG_PROGRAM"] = os.path.abspath(aig)
    if len(words or USUAL) != 2 or not all(it.isdigit() for it in words):
        parser.error("a seed and a count")
    seed, count = map(int, words or USUAL)
    return range(seed, seed + count), chosen


def main():
    seeds, chosen = arguments()
    missing = [it for it in ("iverilog", "yosys", "cadical") if not shutil.which(it)]
    if missing:
        print(f"random Verilog: {len(seeds)} programs left out: there is no {', '.join(missing)}")
        return 0
    kinds, outcomes = Counter(), Counter()
    with ProcessPoolExecutor(chosen.jobs) as pool:
        for seed, said in zip(seeds, pool.map(judgement, seeds)):
            outcomes[said.outcome] += 1
            kinds[said.key] += 1
            if chosen.verbose:
                print(f"{seed} {said.key}", flush=True)
            if said.outcome in WRONG:
                show(seed, said, chosen)
    for kind, count in kinds.most_common():
        print(f"{count:5} {kind}")
    failed = sum(outcomes[it] for it in WRONG)
    if outcomes[Outcome.AGREES] * SOME < len(seeds):
        print(f"FAILED: of {len(seeds)} programs {outcomes[Outcome.AGREES]} agree")
        failed += 1
    others = [f"{outcomes[it]} {it.value}" for it in Outcome if it not in PASSED + WRONG and outcomes[it]]
    if others:
        print(f"random Verilog: left out: {', '.join(others)}")
    print(f"random Verilog: {sum(outcomes[it] for it in PASSED)} passed, {failed} failed")
    return 1 if failed else 0


if __name__ == "__main__":
    sys.exit(main())
