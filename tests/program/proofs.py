"""Rows on proofs as solvers write them: with 200 variables, thousands of steps and deletions, as text and in the binary
form, and in pieces. Each is made here, so it is known which of its steps follow."""

import fcntl
import os
import random
import struct
import subprocess
import termios
import time

from library import supervised
from library.runs import SECONDS, Ended, refused, write
from program.refute import NEVER, NEVER_KEPT, PROOFS, REFUSALS, STEP_HINTS, WITH_A, WITH_NO_CLAUSE
from program.rows import Rows, data

BLOCK = 32768
HINTED = (WITH_A + WITH_NO_CLAUSE).encode()
COPIES = 20
VARIABLES = 200
REFUTED = Ended(0, b"unreachable within 1\n", b"")

# Runs whose proof comes in pieces.
OF_NEVER, OF_LARGE = (["refute", "--frames", "1", circuit, "/dev/stdin"] for circuit in ("never", "large"))
# Proofs that begin with a deletion: of the circuit that is never bad, and of the step of the one with a latch.
DELETING = (
    ("text that deletes first", b"d 2 3 0\n2 0\n", b"d 2 3 0\n4 0\n"),
    ("text that deletes first, after a tab", b"d\t2 3 0\n2 0\n", b"d\t2 3 0\n4 0\n"),
    ("binary that deletes first", b"d\x04\x06\0a\x04\0", b"d\x04\x06\0a\x08\0"),
    ("binary that deletes first and looks like text", b"d\x09\0a\x04\0", b"d\x09\0a\x08\0"),
    ("hints, and a deletion first", b"1 d 3 0\n" + HINTED, b"1 d 4 0\n" + STEP_HINTS.encode()),
)
# Proofs that end with a deletion, or within one.
UNFINISHED = (
    ("text that deletes and ends", b"2 3 0\nd 2 3 0\n", "no refutation"),
    ("text that ends within a deletion", b"d 2 3", "text at 5"),
    ("text that ends after d", b"2 3 0\nd", "text at 7"),
    ("binary that deletes and ends", b"a\x04\x06\0d\x04\x06\0", "no refutation"),
    ("binary that ends within a deletion", b"a\x04\x06\0d\x04", "text at 6"),
)


class Conjunctions:
    """A circuit of conjunctions (a | b) & (a | !b) & (!a | b) & (!a | !b), which are never 1, each of two inputs of its
    own, after so many others. The gates are in the order of an unrolled circuit, so in the formula for one frame, where
    a property reads them all, the variable of a literal is half of it, and one more."""

    def __init__(self, count, others=0):
        self.inputs, self.gates = others + 2 * count, []
        pairs = [(2 * others + 4 * at + 2, 2 * others + 4 * at + 4) for at in range(count)]
        sides = [[self.gate(b + 1, a + 1), self.gate(b, a + 1), self.gate(b + 1, a), self.gate(b, a)] for a, b in pairs]
        halves = [(self.gate(only_b + 1, neither + 1), self.gate(both + 1, only_a + 1))
                  for neither, only_b, only_a, both in sides]
        self.ends = [self.gate(right, left) for left, right in halves]

    def gate(self, left, right):
        literal = 2 * (self.inputs + len(self.gates) + 1)
        self.gates.append((literal, max(left, right), min(left, right)))
        return literal

    def all_of(self, end, count):
        """The literal that is 1 where this one and so many of the first inputs are."""
        for at in range(count):
            end = self.gate(end, 2 * at + 2)
        return end

    def any(self):
        """The literal that is 1 where one of the conjunctions is."""
        none = self.ends[0] + 1
        for end in self.ends[1:]:
            none = self.gate(none, end + 1)
        return none + 1

    def circuit(self, bad):
        """Its text, with these properties."""
        lines = [f"aag {self.inputs + len(self.gates)} {self.inputs} 0 0 {len(self.gates)} {len(bad)}"]
        lines += [str(2 * at + 2) for at in range(self.inputs)] + [str(literal) for literal in bad]
        lines += [" ".join(map(str, gate)) for gate in self.gates]
        return "".join(line + "\n" for line in lines)

    def clauses(self):
        """Those that the formula has for the gates."""
        for gate, left, right in self.gates:
            g, a, b = (each // 2 + 1 if each % 2 == 0 else -(each // 2 + 1) for each in (gate, left, right))
            yield from ([-g, a], [-g, b], [g, -a, -b])

    def needed(self, at):
        """What refutes a conjunction: it is 0 or its first input is 1, and then it is 0. The second clause does not
        follow without the first."""
        end, first = self.ends[at] // 2 + 1, 2 * at + 2
        return (False, [-end, first]), (False, [-end])


# ---- steps: whether the clause is deleted, and its literals

def text_of(steps):
    words = (["d"] * is_deleted + [str(literal) for literal in clause] + ["0\n"] for is_deleted, clause in steps)
    return "".join(map(" ".join, words)).encode()


def number(literal):
    value = 2 * abs(literal) + (literal < 0)
    groups = b""
    while value >= 128:
        groups += bytes([value % 128 + 128])
        value //= 128
    return groups + bytes([value])


def binary_of(steps):
    return b"".join((b"d" if is_deleted else b"a") + b"".join(map(number, clause)) + b"\0"
                    for is_deleted, clause in steps)


SPELLINGS = (("text", text_of), ("binary", binary_of))


def deleted(step):
    return True, step[1]


def harmless(rng, clauses):
    """A clause that follows, and helps no other step: one of a gate, and two to five literals of other variables. No
    clause of the formula has so many literals."""
    clause = rng.choice(clauses)
    others = set(range(1, VARIABLES + 1)) - {abs(literal) for literal in clause}
    clause = clause + [variable * rng.choice((1, -1)) for variable in rng.sample(sorted(others), rng.randint(2, 5))]
    rng.shuffle(clause)
    return False, clause


def shuffled(rng, step):
    """The same clause in another order, and one of its literals twice."""
    clause = [*step[1], step[1][0]]
    rng.shuffle(clause)
    return step[0], clause


# ---- rows

def long_proofs(rows, made, fillers, rng):
    """A proof of about 6,000 steps, some of which it needs near its end: right, and wrong in its second half."""
    steps = []
    for at in range(COPIES):
        first, second = made.needed(at)
        some = fillers[250 * at:250 * at + 250]
        steps += [first, *some[:120], second, *some[120:]]
        steps += [shuffled(rng, deleted(step)) for step in rng.sample(some, 40)]
    # Where one conjunction is left, propagation finds the rest as soon as its first clause is there.
    del steps[steps.index(made.needed(COPIES - 1)[0]) + 1:]
    first, second = made.needed(15)
    late, needs = steps.index(first), steps.index(second)
    begin, rest = steps[:late], steps[late:]
    assert 2 * late > len(steps) > 5000
    for name, spelled in SPELLINGS:
        assert len(spelled(begin)) > BLOCK
        cut = spelled([*begin, first])[:-2]
        for what, proof, fault in (
                ("right", spelled(steps), None),
                ("with a deletion first", spelled([(True, [-4, 2]), *steps]), None),
                ("with the last variable", spelled([*begin, (False, [VARIABLES, -VARIABLES]), *rest]), None),
                ("without the last step", spelled(steps[:-1]), "no refutation"),
                ("with a step that does not follow", spelled([*begin, (False, [32]), *rest]), f"step {late + 1}"),
                ("without a step that is needed", spelled(begin + rest[1:]), f"step {needs}"),
                ("with such a step deleted", spelled([*begin, first, deleted(first), *rest[1:]]), f"step {needs + 2}"),
                ("with a variable of its own", spelled([*begin, (False, [VARIABLES + 1]), *rest]), None),
                ("cut off within a step", cut, f"text at {len(cut)}")):
            wanted = REFUTED if fault is None else refused(f"proof: {fault}")
            rows.ends(f"a long one, {name}, {what}", "refute --frames 1 large proof", wanted, proof=proof)
            ended = in_pieces(rows.program, OF_LARGE, proof, 4099)
            rows.tally.compare(f"proofs: a long one, {name}, {what}, in pieces", ended, wanted)


def deletions(rows, made, needed_clause, fillers, rng):
    """Clauses that are there once or twice and are deleted once or twice, while 5,000 others stand."""
    first, second = made.needed(0)
    gone = shuffled(rng, deleted(first))
    rest = [step for at in range(1, COPIES) for step in made.needed(at)]
    of_gate = deleted((False, needed_clause))
    away = [shuffled(rng, deleted(step)) for step in fillers]
    rng.shuffle(away)
    for name, steps, is_right in (
            ("needed, and deleted", [first, *fillers, gone, second], False),
            ("added last, and deleted", [*fillers, first, gone, second], False),
            ("added in the middle, and deleted", [*fillers[:1500], first, *fillers[1500:], gone, second], False),
            ("deleted before the others come", [first, gone, *fillers, second], False),
            ("there twice, and deleted once", [first, *fillers, first, gone, second, *rest], True),
            ("there twice, and deleted twice", [first, *fillers, first, gone, gone, second], False),
            ("deleted twice, and added again", [first, *fillers, gone, gone, first, second, *rest], True),
            ("deleted twice, and not there in between", [first, *fillers, gone, *away, gone, second], False),
            ("a clause of the formula, deleted", [*fillers, of_gate, first], False),
            ("a clause of the formula, deleted first", [of_gate, *fillers, first], False),
            ("a literal that is known, whose clauses are deleted",
             [first, *fillers, second, gone, deleted(second), *rest], True),
            ("all others, deleted twice", [first, *fillers, *away, *away, second, *rest], True),
            ("all others, deleted twice, and the one that is needed", [first, *fillers, *away, *away, gone, second],
             False)):
        wanted = REFUTED if is_right else refused(f"proof: step {len(steps)}")
        for spelling, spelled in SPELLINGS:
            rows.ends(f"deletions, {spelling}: {name}", "refute --frames 1 large proof", wanted, proof=spelled(steps))


def first_bytes(rows):
    """What the first bytes of a proof say of its form, where more bytes are needed than one read gives."""
    # A clause of one literal, 4 negated, many times. The zero that ends it is the first one.
    for length, wanted in ((BLOCK, REFUTED), (BLOCK + 1, refused(f"proof: text at {BLOCK}"))):
        proof = b"d" + b"\t" * (length - 2) + b"\0" + b"a\x04\0"
        rows.ends(f"the first zero byte is number {length}", "refute --frames 1 never proof", wanted, proof=proof)
        rows.tally.compare(f"proofs: the first zero byte is number {length}, in pieces",
                           in_pieces(rows.program, OF_NEVER, proof, 1000), wanted)
    # The word after the first 0, a hint, is the last byte of the first block or the first of the next one.
    for length, wanted in ((BLOCK - 8, REFUTED), (BLOCK - 7, refused(f"proof: text at {BLOCK}"))):
        proof = b"c" + b"x" * (length - 2) + b"\n" + HINTED
        rows.ends(f"hints after {length} bytes", "refute --frames 1 never proof", wanted, proof=proof)
        rows.tally.compare(f"proofs: hints after {length} bytes, in pieces",
                           in_pieces(rows.program, OF_NEVER, proof, 1000), wanted)
    # In the binary form `1` and a blank are literals of variables 24 and 16, and the clause is cut off.
    rows.refuses("d and no blank, with 200 variables", "refute --frames 1 large proof", "proof: text at 7",
                 proof="d1 2 0\n")


def block_edges(rows):
    """Steps whose bytes are in two blocks, cut at each byte: right, and with a word that is wrong."""
    begin = b"2 3 0\nc"
    for steps, wrong in ((b"d 3 2 0\n-3 2 0 3\t-3 0\n2 0\n", None), (b"2 3 0\n-3x 0\n", 6), (b"d 2 3 0\nd2 3 0\n", 8),
                         (b"3 99999999999 0\n", 2), (b"-3", 2)):
        for at in range(len(steps)):
            proof = begin + b"x" * (BLOCK - at - len(begin) - 1) + b"\n" + steps
            wanted = REFUTED if wrong is None else refused(f"proof: text at {BLOCK - at + wrong}")
            rows.ends(f"an edge of a block before byte {at} of {steps!r}", "refute --frames 1 never proof", wanted,
                      proof=proof)
    begin = WITH_A.encode() + b"c"
    for steps, wrong in ((b"24 d 3 24999 0\n" + WITH_NO_CLAUSE.encode(), None), (b"25 0 24 x 0\n", 8),
                         (b"25x 0 0\n", 0),
                         (b"25 d 3 9999999999 0\n", 7), (b"25", 2)):
        for at in range(len(steps)):
            proof = begin + b"x" * (BLOCK - at - len(begin) - 1) + b"\n" + steps
            wanted = REFUTED if wrong is None else refused(f"proof: text at {BLOCK - at + wrong}")
            rows.ends(f"an edge of a block before byte {at} of {steps!r}, with hints", "refute --frames 1 never proof",
                      wanted, proof=proof)
    begin = b"a\x04\x06\0"
    for steps, wrong in ((b"d\x06\x04\0a\x07\x04\0a\x04\0", None), (b"a\x04\x84\0\0", 2), (b"d\x04\x06\0b", 4),
                         (b"a\x84\x80\x80\x80\x10\0", 1), (b"a\x04", 2)):
        for at in range(len(steps)):
            # steps of three and of four bytes before it
            short = -(BLOCK - at) % 4
            proof = b"d\x06\0" * short + begin * ((BLOCK - at - 3 * short) // 4) + steps
            wanted = REFUTED if wrong is None else refused(f"proof: text at {BLOCK - at + wrong}")
            rows.ends(f"an edge of a block before byte {at} of {steps!r}", "refute --frames 1 never proof", wanted,
                      proof=proof)


def named_pipes(program, tally):
    """Proofs that begin with a deletion, from a file that is a pipe: the form shows only after some reads."""
    write("kept_too", NEVER_KEPT)
    write("proof", "2 0\n")
    for name, proof, step in DELETING:
        of_never = ["refute", "--frames", "1", "never", "fifo"]
        for size in (1, 2, 3):
            tally.compare(f"proofs: {name}, {size} bytes at a time from a named pipe",
                          in_pieces(program, of_never, proof, size), REFUTED)
            of_step = ["refute", "--frames", "1", "--step", "fifo", "kept_too", "proof"]
            tally.compare(f"proofs: {name}, {size} bytes at a time from a named pipe, of a step",
                          in_pieces(program, of_step, step, size), Ended(0, b"unreachable\n", b""))
    for name, proof, fault in UNFINISHED:
        tally.compare(f"proofs: {name}, a byte at a time from a named pipe",
                      in_pieces(program, ["refute", "--frames", "1", "never", "fifo"], proof, 1),
                      refused(f"proof: {fault}"))


def in_pieces(program, words, proof, size):
    """A run that gets at most so many bytes of its proof at a read: more come where the pipe is empty. The pipe is its
    standard input, or a file of the name `fifo` where that is one of its arguments."""
    is_named = "fifo" in words
    source, sink = opened_fifo() if is_named else os.pipe()
    latest = time.monotonic() + SECONDS
    with supervised.Popen([program.path, *words], stdin=subprocess.DEVNULL if is_named else source,
                          stdout=subprocess.PIPE, stderr=subprocess.PIPE) as child:
        def goes_on():
            return child.poll() is None and time.monotonic() < latest

        for at in range(0, len(proof), size):
            while goes_on() and has_bytes(sink):
                time.sleep(0.0001)
            if not goes_on():
                break
            os.write(sink, proof[at:at + size])
        os.close(sink)
        try:
            out, err = child.communicate(timeout=max(latest - time.monotonic(), 1))
        except subprocess.TimeoutExpired:
            child.kill()
            return program.stopped(words, SECONDS)
        finally:
            os.close(source)
    return Ended(child.returncode, out, err)


def opened_fifo():
    """Both ends of a new pipe that has a name."""
    if os.path.exists("fifo"):
        os.remove("fifo")
    os.mkfifo("fifo")
    return os.open("fifo", os.O_RDONLY | os.O_NONBLOCK), os.open("fifo", os.O_WRONLY)


def has_bytes(pipe):
    """Whether bytes wait in a pipe."""
    return struct.unpack("i", fcntl.ioctl(pipe, termios.FIONREAD, bytes(4))) != (0, )


def proofs(program, tally, _):
    rows = Rows("proofs", program, tally)
    write("never", NEVER)
    made = Conjunctions(COPIES)
    bad = made.any()
    tally.compare("proofs: the last variable", made.gates[-1][0] // 2 + 1, VARIABLES)
    write("large", made.circuit([bad]))
    rng = random.Random(59)
    # The first step needs the third clause of the first gate.
    clauses = list(made.clauses())
    needed_clause = clauses.pop(2)
    fillers = [harmless(rng, clauses) for _ in range(5000)]
    long_proofs(rows, made, fillers, rng)
    deletions(rows, made, needed_clause, fillers, rng)
    first_bytes(rows)
    block_edges(rows)
    for name, proof in PROOFS:
        tally.compare(f"proofs: {name}, a byte at a time", in_pieces(program, OF_NEVER, data(proof), 1), REFUTED)
    for name, proof, fault in REFUSALS:
        tally.compare(f"proofs: {name}, a byte at a time", in_pieces(program, OF_NEVER, data(proof), 1),
                      refused(f"proof: {fault}"))
    named_pipes(program, tally)
