"""Checking proofs that a solver wrote, proofs with hints, and formulas of certificates."""

import os
import sys

from library import families
from library.runs import DESIGNS, EXAMPLES, contents, write
from program.proofs import text_of
from steps.cases import WORD, case
from tables.files import MILLION, circuit_of, file_of, missing, resolved
from tables.jobs import both
from tables.runs import Run, head, least, megabytes, milliseconds, resident, row, same

# Designs whose assertion at this position holds within so many frames.
REFUTED = (("queue", f"{EXAMPLES}/queue.v", 1, (10, 20, 40, 80)), ("fifo", f"{DESIGNS}/fifo.v", 1, (20, 300)))
UNSATISFIABLE = 20  # cadical's status
# Circuits whose property holds within so many frames: a name, the word of the file, the property, and the frames.
HINTED = (("queue", "yosys.queue", 1, (20, 40, 80, 240)), ("fifo", "yosys.fifo", 1, (300, )),
          *((f"multiplier of {bits} bits", f"multiplier.{bits}", 0, (1, )) for bits in (7, 8, 9)))
# Cook's refutations of the pigeons, in so many holes, which need no solver and no circuit.
HOLES = (10, 20, 30)
# A ring of latches, and a random circuit beside it: latches of the ring, inputs, latches.
RING = "12.1000.7000"


class Proof:
    """A solver's proof that no run reaches a property within some frames."""

    def __init__(self, programs, circuit, frames, place):
        self.programs, self.formula, self.file = programs, f"{circuit}.{frames}.cnf", f"{circuit}.{frames}.drat"
        self.words = ["refute", "--frames", frames, "--property", place, circuit, self.file]
        Run([programs.get("tuned"), "cnf", frames, place, circuit], self.formula)

    def solve(self):
        return Run(["cadical", "-q", self.formula, self.file], expected=UNSATISFIABLE).seconds

    def checks(self):
        """The arguments that check it, by the C++ program and by `aig`."""
        return both(self.programs, self.words)


def refute(programs, chosen):
    """Checking proofs."""
    head("Checking cadical's proofs (processor time; greatest resident size).", "formula", "proof", "cadical", "C++",
         "aig", "aig / C++", "aig / cadical", "memory: C++", "memory: aig")
    lacking = missing("yosys", "cadical")
    if lacking:
        print(f"\nNo rows: {' and '.join(lacking)} not found.")
        return
    floor = resident(["true"])
    for name, design, place, all_frames in REFUTED:
        for frames in all_frames:
            proof = Proof(programs, circuit_of(name, design), frames, place)
            solver = min(proof.solve() for _ in range(min(chosen.times, 3)))
            same(*proof.checks())
            tuned, ours = least(chosen.times, *proof.checks())
            sizes = [*map(resident, proof.checks())]
            # What starts a run counts too, and hides the sizes of small ones.
            shown = [megabytes(size) if min(sizes) > 1.1 * floor else "" for size in sizes]
            row(f"{name}, {frames} frames", f"{os.path.getsize(proof.file) / 1e6:.2f} MB", milliseconds(solver),
                milliseconds(tuned), milliseconds(ours), f"{ours / tuned:.2f}", f"{ours / solver:.2f}", *shown)


class Hinted:
    """A proof in DRAT, and two with hints: whole, and trimmed."""

    def __init__(self, programs, formula, drat):
        self.programs, self.formula, self.drat = programs, formula, drat
        self.whole, self.trimmed = f"{formula}.lrat", f"{formula}.trimmed.lrat"
        self.translate([])
        self.seconds = self.translate(["--trim"])

    def translate(self, words):
        to = self.trimmed if words else self.whole
        return Run([self.programs.get("drat2lrat"), *words, self.formula, self.drat, to]).seconds

    def cells(self, times, check):
        """The cells of a row after the solver's, where `check` gives the arguments that check a proof by `aig`."""
        proofs = self.drat, self.whole, self.trimmed
        others = [[self.programs.get("lrat_check"), self.formula, proof] for proof in proofs[1:]]
        ours = least(times, *map(check, proofs), *others)
        sizes = [f"{os.path.getsize(proof) / 1e6:.2f} MB" for proof in proofs]
        drat, whole, trimmed, whole_by_other, trimmed_by_other = map(milliseconds, ours)
        return [sizes[0], drat, milliseconds(self.seconds), sizes[1], whole, whole_by_other, sizes[2], trimmed,
                trimmed_by_other]


def hints(programs, chosen):
    """Checking proofs with hints."""
    head("Checking proofs with hints (processor time; C++ is a plain checker of such proofs).", "formula", "cadical",
         "DRAT", "aig: DRAT", "drat2lrat --trim", "LRAT", "aig: LRAT", "C++: LRAT", "trimmed", "aig: trimmed",
         "C++: trimmed")
    lacking = missing("yosys", "cadical")
    for name, word, place, all_frames in () if lacking else HINTED:
        for frames in all_frames:
            title = f"{name}, {frames} frames" if all_frames != (1, ) else name
            if chosen.jobs not in title:
                continue
            proof = Proof(programs, file_of(programs, word), frames, place)
            solver = proof.solve()
            made = Hinted(programs, proof.formula, proof.file)
            row(title, milliseconds(solver), *made.cells(chosen.times, lambda file, words=proof.words: [
                programs.get("aig"), *words[:-1], file]))
    for holes in HOLES:
        title = f"pigeons in {holes} holes, by Cook"
        if chosen.jobs in title:
            row(title, "", *cooked(programs, holes).cells(chosen.times, lambda file: of_case(programs, file)))
    if lacking:
        print(f"\nNo rows of circuits: {' and '.join(lacking)} not found.")


def cooked(programs, holes):
    """The proofs of Cook's refutation. Beside each is a case of aig_tests, which checks it."""
    variables, clauses, _ = families.pigeons(holes)
    write(f"pigeons.{holes}.cnf", families.dimacs(variables, clauses))
    write(f"pigeons.{holes}.drat", text_of(families.cook(holes)))
    made = Hinted(programs, f"pigeons.{holes}.cnf", f"pigeons.{holes}.drat")
    for proof in (made.drat, made.whole, made.trimmed):
        write(f"{proof}.case", case(variables, clauses, contents(proof)))
        Run(of_case(programs, proof), "line")
        if not contents("line").endswith(b" refuted\n"):
            sys.exit(f"{proof} is not taken")
    return made


def of_case(programs, proof):
    return ["sh", "-c", 'exec "$1" "$2" < "$3"', "sh", programs.get("aig_tests"), WORD, f"{proof}.case"]


def certified(programs, chosen):
    """Formulas of a certificate that is small, and of one that is a copy of the circuit."""
    head("Formulas of certificates (processor time; greatest resident size).", "circuit", "certificate", "clauses",
         "C++", "aig", "aig / C++", "aig info", "aig - info", "memory: C++", "memory: aig", "cnf --step")
    for gates in (100_000, MILLION):
        for kind in ("small", "copy"):
            runs = both(programs, resolved(programs, f"cnf --certificate claims.{kind}.{RING}.{gates} "
                                                     f"aig:ring.{RING}.{gates}"))
            circuit = runs[1][-1]
            same(*runs)
            with open("one", "rb") as file:
                clauses = next(int(line.split()[3]) for line in file if line.startswith(b"p cnf"))
            tuned, ours, info = least(chosen.times, *runs, [programs.get("aig"), "info", circuit])
            step = [programs.get("aig"), "cnf", "--step", "--frames", "1", circuit]
            sizes = [megabytes(resident(each)) for each in (*runs, step)]
            row(f"{gates:,} gates", kind, f"{clauses:,}", milliseconds(tuned), milliseconds(ours),
                f"{ours / tuned:.2f}",
                milliseconds(info), milliseconds(ours - info), *sizes)
