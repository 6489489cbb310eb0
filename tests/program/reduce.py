"""Rows of `aig reduce`: witnesses and their reduced ones, other verdicts, and refusals."""

from library.circuits import write_all
from library.reduction import reduced, witness_text
from library.reference import Parts
from library.runs import EXAMPLES, contents, write
from program.check import REFUSALS, TOGGLED, VERDICTS
from program.rows import Rows

# The property is that both inputs are 1, or the third.
EITHER = "aag 5 3 0 0 2 1/2/4/6/11/8 4 2/10 9 7/"
# A register of two bits that shifts the input in, from any start; the property is its last bit.
SHIFT = "aag 3 1 2 0 0 1/2/4 2 4/6 4 6/6/"
# The property is that an uninitialised latch and the one that starts at 0, or the one at 1, are 1.
STARTS = "aag 5 0 3 0 2 1/2 2 2/4 4 0/6 6 1/11/8 4 2/10 9 7/"
# The property is the first input; the constraint is that the second or the third is 1.
GUARDED = "aag 4 3 0 0 1 1 1/2/4/6/2/9/8 7 5/"
# A latch that keeps 1 once the input is 1, with the second input as an alternative at the last frame.
HELD = "aag 5 2 1 0 2 1/2/4/6 9/11/8 7 3/10 7 5/"
# The property is that an input of two is 1.
EITHER_SIDE = "aag 3 2 0 0 1 1/2/4/7/6 3 5/"
# The property is the first input, by a gate that reads it twice.
TWICE = "aag 3 2 0 0 1 1/2/4/7/6 3 3/"
# The property is that the first input was 1 two frames ago, and the second one frame ago.
DELAYED = "aag 6 2 3 0 1 1/2/4/6 2/8 6/10 4/12/12 8 10/"
# The property is what the first of two uninitialised latches starts at.
KEPT = "aag 4 1 2 0 1 1/2/4 4 4/6 6 6/8/8 4 4/"
# The property is that three inputs are 1; each gate reads the one after it.
BACKWARD_GATES = "aag 7 4 0 0 3 1/2/4/6/8/10/10 12 2/12 14 4/14 8 1/"
# The property is the first input, by gates that read constants.
CONSTANT_SIDES = "aag 5 2 0 0 3 1/2/4/10/6 1 2/8 0 4/10 9 6/"

# A name of the row, a circuit, a confirmed witness, and the reduced one; / stands for LF.
REDUCTIONS = (
    ("nothing can be x", "aag 1 1 0 0 0 1/2/2/", "1/b0//1/./", "1/b0//1/./"),
    ("an earlier frame", "aag 1 1 0 0 0 1/2/2/", "1/b0//0/1/./", "1/b0//x/1/./"),
    ("no inputs", TOGGLED, "1/b0/0///./", "1/b0/0///./"),
    ("no inputs and no latches", "aag 0 0 0 0 0 1/1/", "1/b0///./", "1/b0///./"),
    ("no latches", EITHER, "1/b0//111/./", "1/b0//xx1/./"),
    ("no latches, and both are needed", EITHER, "1/b0//110/./", "1/b0//11x/./"),
    ("x in the witness", EITHER, "1/b0//x11/./", "1/b0//xx1/./"),
    ("a constant", "aag 1 1 0 0 0 1/2/1/", "1/b0//0/1/./", "1/b0//x/x/./"),
    ("the second property", "aag 2 2 0 0 0 2/2/4/2/4/", "1/b1//11/11/./", "1/b1//xx/x1/./"),
    ("free latches", SHIFT, "1/b0/01/0/./", "1/b0/x1/x/./"),
    ("free latches, and frames", SHIFT, "1/b0/10/0/1/./", "1/b0/1x/x/x/./"),
    ("free latches that are not needed", SHIFT, "1/b0/11/1/0/1/./", "1/b0/xx/1/x/x/./"),
    ("a free latch that is x", SHIFT, "1/b0/x1/0/./", "1/b0/x1/x/./"),
    ("starts by resets", STARTS, "1/b0/101//./", "1/b0/x01//./"),
    ("a constraint that can do without a value", GUARDED, "1/b0//011/111/./", "1/b0//xx1/1x1/./"),
    ("a constraint at each frame", GUARDED, "1/b0//010/110/./", "1/b0//x1x/11x/./"),
    ("a latch that is held", HELD, "1/b0/0/10/00/00/./", "1/b0/0/1x/xx/xx/./"),
    ("both sides of a gate", EITHER_SIDE, "1/b0//11/11/./", "1/b0//xx/x1/./"),
    ("a side that is 0 beside one that is not", EITHER_SIDE, "1/b0//11/01/./", "1/b0//xx/x1/./"),
    ("a side that is 0 beside x", EITHER_SIDE, "1/b0//11/x1/./", "1/b0//xx/x1/./"),
    ("one side twice", TWICE, "1/b0//11/./", "1/b0//1x/./"),
    ("needed by a latch", DELAYED, "1/b0/000/10/01/00/./", "1/b0/000/1x/x1/xx/./"),
    ("needed by an uninitialised latch", KEPT, "1/b0/11/1/./", "1/b0/1x/x/./"),
    ("gates in no order", BACKWARD_GATES, "1/b0//1101/./", "1/b0//11x1/./"),
    ("constants that gates read", CONSTANT_SIDES, "1/b0//11/./", "1/b0//1x/./"),
    ("one of two ways", HELD, "1/b0/0/10/00/01/./", "1/b0/0/xx/xx/x1/./"),
)


# How many values that are not needed are between two that are.
GAPS = (0, 1, 2, 3, 4, 5, 7, 8, 9, 15, 16, 17, 31, 32, 33, 127, 128, 129)


def lines(text):
    return text.replace("/", "\n")


def plain(circuit, witness):
    """The reduced witness by a plain simulator, of a text with / for LF."""
    _, bad, start, *rows = lines(witness).split("\n")[:-2]
    bad = int(bad[1:])
    return witness_text(bad, *reduced(Parts(lines(circuit)), bad, start, rows))


def reduce(program, tally, _):
    rows = Rows("reduce", program, tally)
    write_all()
    for name, circuit, witness, wanted in REDUCTIONS:
        tally.compare(f"reduce: {name}, by a plain reducer", plain(circuit, witness), lines(wanted))
        write("circuit", lines(circuit))
        rows.gives(name, "reduce circuit witness", lines(wanted), witness=lines(witness))
        write("reduced", lines(wanted))
        rows.gives(f"{name}, checked", "check circuit reduced", "confirmed\n")
        rows.copies(f"{name}, again", "reduce circuit reduced", "reduced")
    for circuit, witness, verdict in VERDICTS:
        wanted, status = (plain(circuit, witness), 0) if verdict == "confirmed" else (verdict + "\n", 1)
        write("circuit", lines(circuit))
        rows.gives(f"{circuit} {witness}", "reduce circuit witness", wanted, status, witness=lines(witness))
    for witness, text in REFUSALS:
        texts = {"circuit": lines(TOGGLED), "witness": lines(witness)}
        rows.refuses(f"{TOGGLED} {witness}", "reduce circuit witness", f"witness: {text}", **texts)
    gaps(rows)
    refusals(rows)
    example = f"{EXAMPLES}/wraps.aag"
    rows.gives("an example", ["reduce", example, f"{EXAMPLES}/wraps.wit"], contents(f"{EXAMPLES}/wraps.wit"))


def gaps(rows):
    """Witnesses in which every value after a gap is needed: of the inputs over several frames, and of the starts. Then
    the same behind gates that read a literal twice: no look back over the run shows that what they read is needed."""
    for gap in GAPS:
        for twice in (False, True):
            how = f"a gap of {gap}{', by gates' if twice else ''}:"
            size = gap + 1
            inputs = "".join(f"{2 * number}\n" for number in range(1, size + 1))
            top, (needed,), gates = read_twice(size, (2 * size,)) if twice else (size, (2 * size,), ())
            write("inputs", f"aag {top} {size} 0 0 {len(gates)} 1 1\n{inputs}1\n{needed}\n{''.join(gates)}")
            given, wanted = "1" * size + "\n", "x" * gap + "1\n"
            rows.gives(f"{how} inputs", "reduce inputs witness", f"1\nb0\n\n{wanted * 5}.\n",
                       witness=f"1\nb0\n\n{given * 5}.\n")
            # every second latch starts at 0; the last two are needed
            total = 2 * size + 1
            free = [number for number in range(1, total + 1) if number % 2]
            latches = "".join(f"{2 * number} {2 * number} {2 * number if number in free else 0}\n"
                              for number in range(1, total + 1))
            last = (2 * total, 2 * free[-2])
            top, (bad, constraint), gates = read_twice(total, last) if twice else (total, last, ())
            write("starts", f"aag {top} 0 {total} 0 {len(gates)} 1 1\n{latches}{bad}\n{constraint}\n{''.join(gates)}")
            given = "".join("1" if number in free else "0" for number in range(1, total + 1))
            wanted = "x0" * gap + "101"
            rows.gives(f"{how} starts", "reduce starts witness", f"1\nb0\n{wanted}\n\n\n.\n",
                       witness=f"1\nb0\n{given}\n\n\n.\n")


def read_twice(top, literals):
    """Gates after the variable `top`, each with twice the negation of a literal: the last variable, the literals that
    have the same values, and the gates' lines."""
    gates = [f"{2 * (top + place)} {literal + 1} {literal + 1}\n" for place, literal in enumerate(literals, start=1)]
    return top + len(literals), [2 * (top + place) + 1 for place, _ in enumerate(literals, start=1)], gates


def frames(count):
    """A confirmed witness of `bad_input` and of `wide`, with so many frames."""
    return "1\nb0\n\n" + "1\n" * count + ".\n"


def refusals(rows):
    words = "reduce wide witness"
    write("wide", "aag 4194303 1 0 0 0 1\n2\n2\n")
    rows.gives("as many cells as a bench has", words, "1\nb0\n\n" + "x\n" * 15 + "1\n.\n", witness=frames(16))
    rows.refuses("a frame more than a bench has cells for", words, "bench: limit", witness=frames(17))
    rows.refuses("too many cells win over a verdict", words, "bench: limit", witness="1\nb0\n\n" + "0\n" * 17 + ".\n")
    rows.refuses("a witness's fault wins over its cells", words, "witness: property",
                 witness=frames(17).replace("b0", "b1"))
    rows.refuses("more frames than a witness may have", "reduce bad_input witness", "witness: limit",
                 witness=frames(65537))
    rows.refuses("a circuit wins over a witness", "reduce cycle bad_input", "circuit: cycle 2")
    for part, runs in (("circuit", ("nowhere witness", "nowhere nowhere", ". witness")),
                       ("witness", ("bad_input nowhere", "bad_input .", "cycle nowhere"))):
        for files in runs:
            rows.fails(f"the {part}'s file is told of {files}", f"reduce {files}", part)
