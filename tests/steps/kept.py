"""The cases of kept.txt. A case has four lines: what it is, the variables of a formula with its clauses, the steps of a
proof, and the line that the program prints. It prints that line for both forms of the proof, and the plain checker
agrees.

tools/make_formulas.py makes those with a proof of cadical. Each needs the last clause of its formula, as an assignment
satisfies the others: without it the proof refutes nothing, and neither does the first proof of each form that is cut or
has another byte anywhere."""

import os
import re

from program.proofs import SPELLINGS
from steps.cases import OPEN, REFUTED, case, line_of, lines_of

FILE = os.path.join(os.path.dirname(__file__), "kept.txt")
# how the names of cadical's proofs begin, by the form in which it wrote them
OF_CADICAL = {"text": "a proof of cadical as text", "binary": "a proof of cadical in the binary form"}
# what takes the place of a byte
CHANGES = (b"d", b"0", b"\5")


def steps_in(text):
    """The steps that a line spells."""
    for words in re.findall(r"(?:\S+ )*?0(?!\S)", text):
        kind, *numbers = words.split()[:-1] or [""]
        yield kind == "d", [int(word) for word in (numbers if kind in ("d", "") else [kind, *numbers])]


def kept_cases():
    """The name of each case, its variables, clauses and steps, and the line that is wanted."""
    with open(FILE, encoding="utf-8") as file:
        for entry in file.read().rstrip("\n").split("\n\n"):
            name, formula, proof, wanted = entry.split("\n")
            variables, _, clauses = formula.partition(":")
            yield name, int(variables), [clause for _, clause in steps_in(clauses)], [*steps_in(proof)], wanted


def broken(proof):
    """A proof that is cut, or has another byte, at each place."""
    for place in range(len(proof)):
        yield proof[:place]
        yield from (proof[:place] + byte + proof[place + 1:] for byte in CHANGES)


def kept(program, tally, _):
    met = set()
    for name, variables, clauses, steps, wanted in kept_cases():
        proofs = [spelled(steps) for _, spelled in SPELLINGS]
        lines = lines_of(program, [case(variables, clauses, proof) for proof in proofs])
        tally.compare(f"kept: {name}", lines, [wanted, wanted])
        tally.compare(f"kept: {name}, the plain checker", line_of(clauses, proofs[0]), wanted)
        form = next((form for form, begins in OF_CADICAL.items() if name.startswith(begins)), None)
        if form:
            needs_all(program, tally, name, (variables, clauses), proofs)
        if form and form not in met:
            met.add(form)
            wrong = [*broken(dict(SPELLINGS)[form](steps))]
            stays_open(program, tally, f"{name}: broken", (variables, clauses[:-1]), wrong)


def needs_all(program, tally, name, formula, proofs):
    """A proof of cadical needs the last clause, and the formula needs the proof."""
    variables, clauses = formula
    stays_open(program, tally, f"{name}: without the last clause", (variables, clauses[:-1]), proofs)
    opened(tally, f"{name}: without a step", lines_of(program, [case(variables, clauses, b"")]), OPEN)


def stays_open(program, tally, name, formula, proofs):
    """No proof refutes the formula."""
    opened(tally, name, lines_of(program, [case(*formula, proof) for proof in proofs]), "")


def opened(tally, name, lines, end):
    """No line says that the formula is refuted; each ends as is wanted."""
    wrong = [line for line in lines if line.endswith(REFUTED) or not line.endswith(end)]
    tally.check(f"kept: {name}", not wrong, wrong[:1])
