#!/usr/bin/env python3
"""Measures `aig refute` beside the checkers of proofs that Debian has, and prints a table in Markdown: `drat-trim` for
proofs in DRAT, and `lrat-check` for proofs with hints (LRAT). `aig` makes the formula of the circuit itself, and they
read it.

cadical writes a proof in DRAT, and another one with hints (`--lrat`, of 1.7 and later); kissat writes DRAT. Cook's
refutations of the pigeons need no solver, and tests/hints/drat2lrat.cpp adds their hints. Both checkers accept the
proof in each run. A time is the processor time of a whole process, the least of --times runs, which take turns; a run
over 20 s is not repeated. The last line has the greatest resident sizes.

It needs yosys, cadical, drat-trim and c++, and takes kissat if it is there. Debian 13 has all of them; in Debian 12
there is no drat-trim, and cadical writes no hints. The whole table takes half an hour and 2 GB of files."""

import argparse
import os
import shutil
import subprocess
import sys
import tempfile

from measure import machine
from library import families, supervised
from library.runs import write
from program.proofs import text_of
from tables.files import load
from tables.programs import Programs
from tables.proofs import HINTED, HOLES, UNSATISFIABLE
from tables.runs import LONGEST, Run, head, row

# A run that takes longer than this, in seconds, is not repeated.
LONG = 20
# The multipliers, by bits, and the pigeons that solvers get, by holes.
BITS, SOLVED_HOLES = (6, 7, 8, 9), (8, 9)
# The solvers, and the options by which each writes a proof.
WRITERS = {"cadical": [], "cadical --lrat": ["--lrat", "--no-binary"], "kissat": []}
# The other checker, of proofs in DRAT and of those with hints, and what it prints.
CHECKERS = "drat-trim", "lrat-check"
VERIFIED = b"VERIFIED\n"


class Question:
    """A circuit whose property no run of some frames reaches."""

    def __init__(self, aig, name, circuit, place, frames):
        self.name, self.formula = name, f"{name.replace(' ', '_')}.cnf"
        self.options = ["--frames", frames, "--property", place, circuit]
        self.aig = aig
        Run([aig, "cnf", *self.options], self.formula)

    def checks(self, proof):
        """The words of `aig`, and of the other checker."""
        is_hinted = proof.endswith(".lrat")
        longest = [] if is_hinted else ["-t", LONGEST]
        return [self.aig, "refute", *self.options, proof], [CHECKERS[is_hinted], self.formula, proof, *longest]


def questions(aig):
    """All of them, each made when it is measured."""
    for name, make_circuit, place, all_frames in HINTED:
        if name.startswith("multiplier"):
            continue
        for frames in all_frames:
            yield f"{name}, {frames} frames", lambda made=make_circuit, at=(place, frames): (made(), *at)
    for bits in BITS:
        yield f"multiplier of {bits} bits", lambda bits=bits: (load("multiplier", bits), 0, 1)
    for holes in SOLVED_HOLES:
        yield f"pigeons, {holes} holes", lambda holes=holes: (load("pigeons", holes), 0, 1)


class Used:
    """What a run of a checker took, which has to print that it accepts the proof. A small program starts it, since the
    memory of what starts it counts too."""

    def __init__(self, starter, words, line):
        done = supervised.run([starter, "used.txt", *map(str, words)], stdout=subprocess.PIPE,
                              stderr=subprocess.DEVNULL, timeout=LONGEST, check=True)
        lines = done.stdout.replace(b"\r", b"\n").splitlines(keepends=True)
        with open("used.txt", encoding="ascii") as file:
            status, seconds, kilobytes = file.read().split()
        if status != "0" or not any(it.endswith(line) and b"NOT" not in it for it in lines):
            sys.exit(f"{words} does not accept the proof: {done.stdout[-200:]}")
        self.seconds, self.megabytes = float(seconds), 1.024e-3 * int(kilobytes)


def least(times, *runs):
    """Of each of several runs, which take turns, the one of least time. A long one runs once."""
    found = [[] for _ in runs]
    for _ in range(times):
        for run, made in zip(runs, found):
            if not made or made[0].seconds < LONG:
                made.append(run())
    return [min(made, key=lambda it: it.seconds) for made in found]


class Table:
    """The rows, each of so many runs, and the memory of each checker's."""

    def __init__(self, programs, times):
        self.starter, self.times, self.memory = programs.get("used"), times, {}
        self.writers = [it for it in WRITERS if shutil.which(it.split(" ")[0])]
        checkers = [CHECKERS["--lrat" in it] for it in self.writers]
        head("Checking proofs beside other checkers: processor time in seconds, and the size of the proof in MB.",
             "formula", *(cell for writer, checker in zip(self.writers, checkers)
                          for cell in (f"{writer}: s, MB", f"{checker}, aig")))

    def solved(self, question, writer):
        """The row's cell of a solver, and its proof."""
        name = writer.split(" ")[0]
        proof = question.formula.replace(".cnf", f".{name}.{'lrat' if 'lrat' in writer else 'drat'}")
        words = [name, "-q", *WRITERS[writer], question.formula, proof]
        seconds = least(self.times, lambda: Run(words, expected=UNSATISFIABLE))[0].seconds
        return f"{seconds:.3g}, {size_of(proof)}", proof

    def checked(self, question, proof):
        """The row's cell of both checkers."""
        ours, other = question.checks(proof)
        found = b"unreachable within %d\n" % question.options[1]
        both = least(self.times, lambda: Used(self.starter, other, VERIFIED), lambda: Used(self.starter, ours, found))
        for name, used in zip((other[0], "aig"), both):
            self.memory.setdefault(name, []).append(used.megabytes)
        return ", ".join(f"{it.seconds:.3g}" for it in both)

    def of_solvers(self, question):
        """Prints the row of a formula that solvers get."""
        found = [self.solved(question, writer) for writer in self.writers]
        row(question.name, *(cell for it, proof in found for cell in (it, self.checked(question, proof))))

    def of_proofs(self, question, proofs):
        """Prints the row of proofs that no solver wrote."""
        row(question.name, *(cell for it in proofs for cell in (f"-, {size_of(it)}", self.checked(question, it))))

    def end(self):
        """Prints the memory."""
        print("\nMemory: " + ", ".join(f"{name} {min(it):.0f} to {max(it):.0f} MB" for name, it in self.memory.items()))


def size_of(proof):
    return f"{os.path.getsize(proof) / 1e6:.3g}"


def cooked(aig, holes, drat2lrat):
    """The pigeons in so many holes, and Cook's refutation of them, as DRAT and with hints. Its own variables come after
    those of the formula."""
    question = Question(aig, f"pigeons, {holes} holes", load("pigeons", holes), 0, 1)
    with open(question.formula, encoding="ascii") as file:
        most = next(int(line.split(" ")[2]) for line in file if line.startswith("p cnf "))
    inputs = families.pigeons(holes)[0]

    def named(literal):
        number = abs(literal)
        number += 1 if number <= inputs else most - inputs
        return number if literal > 0 else -number

    drat, lrat = (question.formula.replace(".cnf", f".cook.{form}") for form in ("drat", "lrat"))
    write(drat, text_of((is_deleted, [*map(named, clause)]) for is_deleted, clause in families.cook(holes)))
    Run([drat2lrat, question.formula, drat, lrat])
    return question, (drat, lrat)


def print_table(programs, times, chosen):
    aig, table = programs.get("aig"), Table(programs, times)
    for name, make in questions(aig):
        if any(it in name for it in chosen):
            circuit, place, frames = make()
            table.of_solvers(Question(aig, name, circuit, place, frames))
    for holes in HOLES:
        if any(it in f"pigeons, {holes} holes" for it in chosen):
            table.of_proofs(*cooked(aig, holes, programs.get("drat2lrat")))
    table.end()


def main():
    parser = argparse.ArgumentParser(description=__doc__, formatter_class=argparse.RawDescriptionHelpFormatter)
    parser.add_argument("program", metavar="PROGRAM", help="the program aig that is measured")
    parser.add_argument("--room", metavar="FOLDER", help="the folder of what is made, for the next call")
    parser.add_argument("--times", type=int, default=3, metavar="N", help="how many runs of each (3)")
    parser.add_argument("--rows", nargs="+", default=[""], metavar="TEXT", help="the formulas with such names")
    chosen = parser.parse_args()
    missing = [it for it in ("yosys", "cadical", "drat-trim", "lrat-check", "c++") if not shutil.which(it)]
    if missing:
        sys.exit(f"peers.py: there is no {', no '.join(missing)}")
    programs = Programs(os.path.abspath(chosen.program))
    with tempfile.TemporaryDirectory() as own:
        room = os.path.abspath(chosen.room or own)
        os.makedirs(room, exist_ok=True)
        os.chdir(room)
        machine(programs, chosen)
        print_table(programs, chosen.times, chosen.rows)
        os.chdir("/")


if __name__ == "__main__":
    main()
