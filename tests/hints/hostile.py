"""Proofs with hints that were written to be slow to check, of 1 and 4 MB. Their steps are right, and none refutes the
formula. The time of a proof of S bytes may grow as S times its square root, and no more: so one of 4 MB takes at most
eight times as long as one of 1 MB, and neither takes longer than these seconds of processor time."""

from library.runs import EXAMPLES, refused, write
from library.times import processor_time

MEGABYTE = 1_000_000
SIZES = (1, 4)
# Seconds of processor time for each of these sizes; the programs of the gate take a tenth of them.
MOST_SECONDS = {1: 3, 4: 15}
# How much longer the larger one may take. Short times vary, so that so many seconds are taken off.
GROWTH, SLACK = 8, 0.5
TURNS = 2
ASKED = ["--frames", "20", "--property", "1", f"{EXAMPLES}/queue.aig"]


class Proof:
    """Lines of a proof with hints, up to a size. Numbers of clauses and of variables are the next ones."""

    def __init__(self, clauses, variables, size):
        self.number, self.variable, self.left, self.lines = clauses, variables + 1, size, []

    def own(self, count):
        self.variable += count
        return range(self.variable - count, self.variable)

    def add(self, literals, hints):
        """Adds a clause, and returns its number."""
        self.number += 1
        text = " ".join(map(str, [self.number, *literals, 0, *hints, 0]))
        self.lines.append(text)
        self.left -= len(text) + 1
        return self.number


def again(proof, length=1_000):
    """Steps of so many literals whose hints name one clause that gives nothing, since two of its literals are not
    false."""
    literals, free = proof.own(length), proof.own(2)
    named = proof.add([free[0], *literals, free[1]], [])
    while proof.left > 0:
        proof.add([*proof.own(1), *literals], [named] * length)


def many(proof, length=300):
    """Steps whose hints name as many clauses, all of whose literals but one are false."""
    literals = proof.own(length)
    named = [proof.add([*proof.own(1), *literals], []) for _ in range(length)]
    while proof.left > 0:
        proof.add([*proof.own(1), *literals], named)


def one_step(proof):
    """One step that names one long clause as often as it fits."""
    proof.add(proof.own(1), [])  # a long first line would not show that there are hints
    literals, free = proof.own(proof.left // 30), proof.own(2)
    named = proof.add([free[0], *literals, free[1]], [])
    proof.add([*proof.own(1), *literals], [named] * (proof.left // (len(str(named)) + 1) * 2 // 3))
    while proof.left > 0:
        proof.add(proof.own(1), [])


def groups(proof, length=200):
    """Steps whose candidates have their groups of hints the other way round, so each is searched for through all."""
    free, others = proof.own(1)[0], proof.own(length)
    trues = [proof.add([other], []) for other in others]
    named = [proof.add([-free, other], [true]) for other, true in zip(others, trues)]
    hints = [hint for number, true in zip(reversed(named), reversed(trues)) for hint in (-number, true)]
    while proof.left > 0:
        proof.add([free, *proof.own(1)], hints)


def gaps(proof):
    """Clauses with gaps in their numbers, and steps whose hints name numbers that were left out."""
    made = []
    half = proof.left // 2
    while proof.left > half:
        proof.number += 999
        made.append(proof.add(proof.own(1), []) - 500)
    while proof.left > 0:
        proof.add(proof.own(1), made[-2_000:])


def deletions(proof):
    """Deletions of clauses that are not there, or of the same ones."""
    while proof.left > 0:
        named = proof.add(proof.own(1), [])
        text = f"{named} d " + f"{named} {named - 1} " * 500 + "0"
        proof.lines.append(text)
        proof.left -= len(text) + 1


def early(proof):
    """Clauses on a first literal whose variable has a clause at the beginning. Each is right, as no clause has the
    negation. A checker that reads all clauses since then to know that takes the square of the size."""
    first = proof.own(1)[0]
    half = proof.left // 2
    proof.add([first, *proof.own(1)], [])
    while proof.left > half:
        proof.add(proof.own(1), [])
    while proof.left > 0:
        proof.add([first, *proof.own(1)], [])


FAMILIES = (again, many, one_step, groups, gaps, deletions, early)


def seconds(program, tally, name, words):
    """The least processor time of some runs."""
    times = []
    for _ in range(TURNS):
        taken, ended = processor_time(lambda: program.run(*words))
        tally.compare(f"hostile: {name}", ended, refused("proof: no refutation"))
        times.append(taken)
    return min(times)


def timed(program, tally, family, size):
    """The time of a proof of a family, of so many MB."""
    header = next(line for line in program.run("cnf", *ASKED).out.split(b"\n") if line.startswith(b"p cnf "))
    variables, clauses = map(int, header.split()[2:])
    proof = Proof(clauses, variables, size * MEGABYTE)
    family(proof)
    write("proof", "\n".join(proof.lines) + "\n")
    return seconds(program, tally, f"{family.__name__}, {size} MB", ["refute", *ASKED, "proof"])


def hostile(program, tally, _):
    told = []
    for family in FAMILIES:
        name, found = family.__name__, {}
        for size in SIZES:
            found[size] = timed(program, tally, family, size)
            tally.check(f"hostile: {name}, {size} MB: its time", found[size] <= MOST_SECONDS[size],
                        f"{found[size]:.2f} s")
        one, four = (found[size] for size in SIZES)
        shown = f"{one:.2f} and {four:.2f} s"
        tally.check(f"hostile: {name}: its growth", four <= GROWTH * one + SLACK, shown)
        told.append(f"{name} {shown}")
    return f"{', '.join(told)}: "
