"""What explains a circuit, a stimulus, a witness, a proof, a model, a certificate, an unrolling, a formula and a bench: a row
for each cause, with the lines after the first line and the line with the file's name."""

import re

from explanations.certificates import certificates
from explanations.circuits import CIRCUITS
from explanations.common import WRAPS
from explanations.others import others, unknown
from explanations.runs import STIMULI, WITNESSES
from explanations.solvers import KEPT, KINDS_OF_PROOFS, MODELS, NEVER, PROOFS, SAME
from library.circuits import write_all
from library.explained import Explained
from library.runs import write

# How lines begin that are of all explanations, and of a circuit that comes from a pipe.
OF_ALL = ("  file: ", "  it is a pipe or a device")


class Rows:
    """Rows: runs that are rejected, and what explains it."""

    def __init__(self, program, tally):
        self.program, self.explained, self.tally = program, Explained(program), tally

    def row(self, name, words, text, lines, **settings):
        """The run is refused with this text, and explained by these lines after the one of the file's name."""
        plain = self.program.run(*words, **settings)
        ended = self.explained.run(*words, **settings)
        self.tally.compare(f"explain: {name}", plain.err, f"aig: {text}\n".encode())
        self.tally.compare(f"explain: {name}: the status", ended.status, plain.status)
        first, *said = ended.err.decode("ascii").split("\n")
        self.tally.compare(f"explain: {name}: the first line", first, f"aig: {text}")
        said = [line for line in said if not line.startswith(OF_ALL)]
        self.tally.compare(f"explain: {name}: the lines", said, [f"  {line}" for line in lines] + [""])

    def ends(self, name, words, lines):
        """The run is refused, and the explanation ends with these lines."""
        run = self.explained.run(*words)
        said = run.err.decode("ascii").split("\n")[-len(lines) - 1:]
        self.tally.compare(f"explain: {name}", said, [f"  {line}" for line in lines] + [""])


def explain(program, tally, _):
    write_all()
    write("many_bad", "aag 4194303 0 0 0 0 1\n1\n")
    write("wraps", WRAPS)
    rows = Rows(program, tally)
    for name, circuit, text, *lines in CIRCUITS:
        rows.row(f"a circuit, {name}", ["info", write("f", circuit)], f"circuit: {text}", lines)
    for name, stimulus, text, *lines in STIMULI:
        rows.row(f"a stimulus, {name}", ["sim", "two_gates", write("f", stimulus)], f"stimulus: {text}", lines)
    for name, witness, *lines in WITNESSES:
        rows.row(f"a witness, {name}", ["check", "wraps", write("f", witness)], "witness: text", lines)
    explanations = [tuple(lines) for _, _, *lines in WITNESSES]
    tally.compare("explain: witnesses with one explanation", len(set(explanations)), len(explanations))
    solvers(rows)
    certificates(rows)
    variables(rows)
    others(rows)
    unknown(rows)


def solvers(rows):
    """Rows of proofs and models."""
    write("never", NEVER)
    for name, proof, text, *lines in PROOFS:
        rows.row(f"a proof, {name}", ["refute", "--frames", "1", "never", write("f", proof)], f"proof: {text}", lines)
    for name, proof, *lines in KINDS_OF_PROOFS:
        rows.ends(f"a proof, {name}", ["refute", "--frames", "1", "never", write("f", proof)], lines)
    for name, model, text, *lines in MODELS:
        rows.row(f"a model, {name}", ["witness", "--frames", "1", "--model", write("f", model), "bad_input"],
                 f"model: {text}", lines)
    rows.row("a model of --alive, a variable that the formula does not have",
             ["witness", "--alive", "--frames", "1", "--model", write("f", "-1 -99 0\n"), write("kept", KEPT)],
             "model: text at 3", ["line 1, column 4: found `-99`",
                                  "its variable is not one of the formula, or its negation is named before",
                                  "it has to be of the formula of aig cnf --alive for the same K and CIRCUIT"])


def variables(rows):
    """An explanation says how many variables the formula has that `cnf` writes, also of the induction step."""
    one = "aag 3 2 1 0 0 1 1\n2\n4\n6 2 6\n6\n4\n"
    # It never is 1 as NEVER, and has a latch that begins with 0: in a step it may begin with any value.
    latched = NEVER.replace("aag 9 2 0 0 7 1\n2\n4\n", "aag 10 2 1 0 7 1\n2\n4\n20 20\n")
    of_step = ("--step", "f", "done")
    for circuit, proofs in ((NEVER, ("f",)), (one, ("f",)), (NEVER, of_step), (latched, ("f",)), (latched, of_step)):
        write("circuit", circuit)
        write("done", "2 0\n")
        step, proof = (["--step"], proofs[:2]) if len(proofs) > 1 else ([], [])
        text = rows.program.run("cnf", *step, "--frames", "1", "circuit").out.decode()
        count = int(re.search(r"^p cnf (\d+) ", text, re.MULTILINE)[1])
        write("f", f"-{count} {count + 1} 0\n")
        same = SAME.replace("aig cnf", "aig cnf --step") if step else SAME
        rows.ends(f"{count} variables", ["refute", "--frames", "1", *proof, "circuit", proofs[-1]],
                  [f"the formula has {count} variables, and this step names variable {count + 1}", same])
