"""Right proofs with variables of their own (library/definitions.py): which steps follow and which are on first literals
is known by how they are made, and library/plain_checker.py marks those of formulas with few variables so too."""

from library.definitions import FREE, Extension, added, contradiction, deletions, one_bit
from program.proofs import SPELLINGS
from steps.cases import DELETED, FOLLOWS, ON_FIRST, REFUTED, case, line_of, lines_of

# How many variables a formula has: few, those that are free and two more, and nearly as many as the program reads.
FEW, SOME, MANY = 10, FREE + 2, 65_000
# Names of which those that differ in one bit are the variables of no formula with few of them.
NAMES = (97, 0x2aaaaaaa, 0x55555555)


def proofs():
    """What each proof is, how many variables its formula has, its steps, and their marks."""
    steps = [*one_bit(NAMES)]
    yield "names that differ in one bit", FEW, steps, ON_FIRST * len(steps)
    steps = deletions(FEW + 1)
    yield "long clauses that are deleted", FEW, steps, (ON_FIRST + FOLLOWS + 2 * DELETED + ON_FIRST) * (len(steps) // 5)
    for name, variables, made in (
            ("definitions", SOME, Extension(range(3, FREE + 3), SOME + 1)),
            ("definitions of the formula's variables", MANY, Extension(range(3, FREE + 3), FREE + 3, MANY))):
        yield (name, variables, made.definitions + made.later,
               ON_FIRST * len(made.definitions) + FOLLOWS * len(made.later))


def definitions(program, tally, _):
    for name, variables, steps, marks in proofs():
        clauses, proof = contradiction(1, 2), steps + added([1])
        wanted = f"{marks}{FOLLOWS} {REFUTED}"
        spellings = SPELLINGS if variables < MANY else SPELLINGS[:1]
        texts = [spelled(proof) for _, spelled in spellings]
        if variables < MANY:
            tally.compare(f"definitions: {name}, the plain checker", line_of(clauses, texts[0]), wanted)
        lines = lines_of(program, [case(variables, clauses, text) for text in texts])
        for (form, _), line in zip(spellings, lines):
            tally.compare(f"definitions: {name}, {form}", line, wanted)
