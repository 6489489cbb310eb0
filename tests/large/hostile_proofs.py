"""Proofs that were written to be slow to check, beside the C++ checker of `benchmarks/tuned`, which `c++` builds.

`chain` adds one clause many times, and deletes as often another clause of the same chain, so that each deletion walks
along the chain. The two programs number chains differently, so each has a file of its own. `long` has a clause of many
literals, and steps that make it watch one literal after the other. No step of these proofs refutes the formula. Times
are processor times; the programs take turns, and the least of each counts."""

import itertools
import os

from library import supervised
from library.runs import Ended, refused, write
from library.times import processor_time

TUNED = os.path.join(os.path.dirname(os.path.abspath(__file__)), "..", "..", "benchmarks", "tuned", "main.cpp")
MASK = (1 << 64) - 1
INPUTS = 400
GATE = 2 * INPUTS + 2  # the literal of the first gate, and its variable at frame 0 in the formula of two frames
REPEATED = 40_000
LITERALS = 128_000
TURNS = 5
MOST = 1.3  # times as long


def folded(literals):
    """The sum, parity and product of which both programs make the number of a chain."""
    total, parity, product = 0, 0, 1
    for literal in literals:
        mixed = (2 * (abs(literal) - 1) + (literal < 0)) * 0x9E3779B97F4A7C15 & MASK
        mixed ^= mixed >> 29
        total, parity, product = total + mixed & MASK, parity ^ mixed, product * (mixed | 1) & MASK
    return total, parity, product


def number_of_aig(literals):
    total, parity, product = folded(literals)
    number = (total * 1023 + parity & MASK) ^ product
    return number ^ number >> 32


def number_of_tuned(literals):
    total, _, product = folded(literals)
    return total ^ product ^ (total ^ product) >> 32


def chain(number_of, chains):
    """The clause that is added, and another one of its chain."""
    added = (-GATE, 2)
    pairs = itertools.combinations(range(2, GATE + 1), 2)
    return added, next(pair for pair in pairs if number_of(pair) % chains == number_of(added) % chains)


def write_chain(name, number_of, chains):
    added, deleted = chain(number_of, chains)
    step = "{} {} 0\n"
    write(name, step.format(*added) * REPEATED + ("d " + step.format(*deleted)) * REPEATED)


def write_long(circuit, proof):
    """The property is that the second input or the end of a chain of copies of the first one is 0."""
    gates = "".join(f"{2 * at} {2 * at - 2} {2 * at - 2}\n" for at in range(4, LITERALS + 3))
    end = 2 * LITERALS + 6
    write(circuit, f"aag {LITERALS + 3} 2 0 0 {LITERALS + 1} 1\n2\n4\n{end + 1}\n6 2 2\n{gates}{end} {end - 2} 4\n")
    last, middle = LITERALS + 3, 4 + LITERALS // 2 - LITERALS // 50
    each = range(5, last + 1)
    clause = " ".join(f"-{at}" for at in each) + " -4 2 0\n"
    gone = "d -4 2 0\n" * 2 + "".join(f"d -{at} {at - 1} 0\n" * 2 for at in each)
    walk = "-2 {0} 0\nd -2 {0} 0\n-{1} {0} 0\nd -{1} {0} 0\n".format(last, middle)
    write(proof, clause + gone + walk * 4)


def seconds_of(tally, runs):
    least = {}
    for _ in range(TURNS):
        for name, run in runs.items():
            seconds, ended = processor_time(run)
            tally.check(name, ended == Ended(1, b"", b"aig: proof: no refutation\n"), f"{ended}")
            least[name] = min(seconds, least.get(name, seconds))
    return least


def hostile_proofs(program, tally, _):
    supervised.run(["c++", "-O2", "-std=c++17", "-o", "tuned", TUNED], check=True)

    def tuned(*words):
        ended = supervised.run(["./tuned", "refute", *words], capture_output=True, check=False)
        return Ended(ended.returncode, ended.stdout, ended.stderr)

    inputs = "".join(f"{2 * at + 2}\n" for at in range(INPUTS))
    gates = "".join(f"{GATE + 2 * at} {GATE + 2 * at - 2} {2 * at + 4}\n" for at in range(1, INPUTS - 1))
    end = GATE + 2 * INPUTS - 4
    write("chain", f"aag {end // 2} {INPUTS} 0 0 {INPUTS - 1} 1\n{inputs}{end}\n{GATE} 4 2\n{gates}")
    header = program.run("cnf", "--frames", "2", "chain").out.split(b"\np cnf ")[1].split()
    count = int(header[1]) + REPEATED
    write_chain("chain.aig", number_of_aig, count + count // 2)
    write_chain("chain.tuned", number_of_tuned, 1 << (count - 1).bit_length())
    write_long("long", "long.proof")
    least = seconds_of(tally, {
        "chain, aig": lambda: program.run("refute", "--frames", "2", "chain", "chain.aig"),
        "chain, C++": lambda: tuned("2", "0", "chain", "chain.tuned"),
        "long, aig": lambda: program.run("refute", "--frames", "1", "long", "long.proof"),
        "long, C++": lambda: tuned("1", "0", "long", "long.proof"),
    })
    told = ", ".join(f"{name} {seconds:.2f} s" for name, seconds in least.items())
    for name in ("chain", "long"):
        ratio = least[name + ", aig"] / least[name + ", C++"]
        tally.check(name, ratio <= MOST, f"{told}: {ratio:.2f} times the C++ program's")
    return told
