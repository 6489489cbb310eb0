"""Both programs on broken files: the same bytes, messages and statuses."""

import random
import re
import subprocess
import sys

from library import broken, supervised
from library.runs import DESIGNS, EXAMPLES, contents, contents_of, write
from tables.jobs import tuned_words


def binary_proof(text):
    """The binary form of a proof in text."""
    def spelled(number):
        return bytes([number]) if number < 128 else bytes([number % 128 + 128]) + spelled(number // 128)

    steps = [line.split() for line in text.splitlines()]
    literals = ([int(word) for word in step if word != b"d"] for step in steps)
    return b"".join((b"d" if step[0] == b"d" else b"a")
                    + b"".join(spelled(2 * abs(each) + (each < 0)) for each in clause)
                    for step, clause in zip(steps, literals))


class Pair:
    """Both programs, and how often they were compared."""

    def __init__(self, programs):
        self.aig, self.tuned = programs.get("aig"), programs.get("tuned")
        self.compared = self.accepted = self.different = 0

    @staticmethod
    def answer(program, words):
        """A run's status, and what it writes and says."""
        ran = supervised.run([program, *words], stdin=subprocess.DEVNULL, capture_output=True, check=False)
        return ran.returncode, ran.stdout, ran.stderr

    def compare(self, note, words, other_words=None):
        one, other = self.answer(self.aig, words), self.answer(self.tuned, other_words or words)
        self.compared += 1
        self.accepted += one[0] == 0
        if one != other:
            self.different += 1
            shown = [f"{status} {out[:60]!r} {err!r}" for status, out, err in (one, other)]
            print(f"DIFFERENT: {note}: {' '.join(words)}: aig {shown[0]}, C++ {shown[1]}")
        return one

    def conversions(self, note, circuit):
        for to in ("aag", "aig"):
            ended = self.compare(note, ["toaig", "--to", to, circuit], ["to" + to, circuit])
        return ended

    def proofs(self, rng, note):
        """Broken proofs about a circuit of the examples."""
        circuit, text = f"{EXAMPLES}/wraps.aag", contents(f"{EXAMPLES}/wraps.drat")
        for proof in (text, binary_proof(text)):
            write("proof", broken.changed(rng, proof, text))
            words = ["refute", "--frames", "3", "--property", "0", circuit, "proof"]
            self.compare(note, words, tuned_words(words))

    def certificates(self, rng, note):
        """Circuits and certificates, most of them broken."""
        whole, other = broken.circuit(rng), broken.circuit(rng)
        marked = re.sub(rb"(?m)^([il]\d+) .*", lambda at: at[1] + b" = %d" % rng.randrange(40), other)
        write("model", broken.changed(rng, whole, other) if rng.randrange(3) == 0 else whole)
        write("certificate", broken.changed(rng, rng.choice((whole, other, marked)), whole))
        words = ["cnf", "--certificate", "certificate", "model"]
        self.compare(note, words, ["induction", "0", "certificate", "model"])

    def case(self, sources, designs, rng, note):
        """A circuit, a stimulus and a script, most of them broken. The C++ program's bench unrolls nothing."""
        whole = rng.choice((rng.choice(sources), broken.circuit(rng), broken.circuit(rng)))
        other = rng.choice((rng.choice(sources), broken.circuit(rng), rng.choice(designs)))
        data = broken.changed(rng, whole, other)
        write("circuit", data)
        words = ["cnf", "--frames", "2", "circuit"]
        self.compare(note, words, ["cnf", "2", "0", "circuit"])
        status, binary, _ = self.conversions(note, "circuit")
        if status == 0:
            write("binary", binary)
            self.conversions(note, "binary")
            write("broken", broken.changed(rng, binary, other))
            self.conversions(note, "broken")
        most, inputs, _ = broken.counts_of(data)
        width = min(inputs, 300)
        good = broken.stimulus(rng, width)
        script = broken.changed(rng, broken.script(rng, min(most, 60), width), good)
        write("script", b"".join(line for line in script.splitlines(keepends=True) if line != b"u\n"))
        for rows in (good, broken.changed(rng, good, other)):
            write("rows", rows)
            self.compare(note, ["sim", "circuit", "rows"])
            self.compare(note, ["bench", "circuit", "rows", "script"])


def compare(programs, chosen):
    sources, designs = contents_of(EXAMPLES, (".aag", ".aig")), contents_of(DESIGNS, (".v",))
    pair = Pair(programs)
    for circuit in chosen.circuits:
        pair.conversions(circuit, circuit)
    for number in range(chosen.count):
        rng, note = random.Random(f"{chosen.seed} {number}"), f"seed {chosen.seed}, case {number}"
        pair.case(sources, designs, rng, note)
        pair.proofs(rng, note)
        pair.certificates(rng, note)
    print(f"{pair.compared} runs compared, {pair.accepted} accepted, {pair.different} different")
    if pair.different:
        sys.exit(1)
