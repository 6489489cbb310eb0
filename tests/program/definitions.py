"""Right proofs with variables of their own (library/definitions.py) are taken: names that differ in one bit,
definitions of three literals and more, long clauses, first literals over 100,000, and deletions of long clauses."""

from library.definitions import FREE, Extension, added, deletions, one_bit
from library.runs import refused, write
from program.proofs import REFUTED, SPELLINGS
from program.rows import Rows

# Names of which those that differ in one bit are the variables of no formula with few of them.
NAMES = (97, 0x2aaaaaaa, 0x55555555)
# How many inputs a circuit has.
FEW, SOME, MANY = 2, FREE + 2, 150_000


def gate(literal, left, right):
    """A gate of the binary format."""
    out = b""
    for number in (literal - left, left - right):
        while number >= 128:
            out += bytes([number % 128 + 128])
            number //= 128
        out += bytes([number])
    return out


def never(inputs):
    """A circuit whose bad state is (a | b) & (a | !b) & (!a | b) & (!a | !b) of its last two inputs, and that one of the
    others is 0. In the formula for one frame the variable of input i is i + 2. Propagation leaves four clauses of a and
    b."""
    a, b = 2 * inputs - 2, 2 * inputs
    gates = []

    def made(left, right):
        literal = 2 * (inputs + len(gates) + 1)
        gates.append(gate(literal, max(left, right), min(left, right)))
        return literal

    neither, only_b, only_a, both = made(b + 1, a + 1), made(b, a + 1), made(b + 1, a), made(b, a)
    bad = made(made(both + 1, only_a + 1), made(only_b + 1, neither + 1))
    all_others = 2
    for at in range(1, inputs - 2):
        all_others = made(all_others, 2 * at + 2)
    bad = made(bad, all_others + 1) if inputs > 2 else bad
    return b"aig %d %d 0 0 %d 1\n%d\n%s" % (inputs + len(gates), inputs, len(gates), bad, b"".join(gates))


def variables_of(inputs):
    """How many variables its formula has: the constant, the inputs, seven gates, and one for each further input."""
    return 1 + inputs + 7 + inputs - 2


def definitions(program, tally, _):
    rows = Rows("definitions", program, tally)
    some = Extension(range(2, FREE + 2), variables_of(SOME) + 1)
    many = Extension(range(MANY - FREE, MANY), variables_of(MANY) + 1)
    proofs = [("names that differ in one bit", FEW, [*one_bit(NAMES)]),
              ("long clauses that are deleted", FEW, deletions(variables_of(FEW) + 1))]
    proofs += [(name, inputs, made.definitions + made.later) for name, inputs, made in (
        ("many variables", MANY, many), ("variables of its own", SOME, some))]
    for name, inputs, steps in proofs:
        write("circuit", never(inputs))
        for form, spelled in SPELLINGS:
            rows.ends(f"{name}, {form}", "refute --frames 1 circuit proof", REFUTED,
                      proof=spelled(steps + added([inputs])))
    for form, spelled in SPELLINGS:
        rows.refuses(f"a wrong step after these, {form}", "refute --frames 1 circuit proof",
                     f"proof: step {len(steps) + 1}", proof=spelled(steps + added([])))
