"""More rows of `aig strengthen`: models and certificates by hand, to the byte, and also as a plain writer has them;
many latches and claims; and what is refused."""

from library.certificate import strengthened
from library.plain_reader import Reader, in_order, spelled
from program.rows import Rows, data

# A model with names, two properties, a constraint, and resets of all kinds but 0.
MODEL = "aag 5 2 2 0 1 2 1\n2\n4\n6 10 1\n8 4 8\n10\n9\n3\n10 6 4\ni0 req\nl1 state\nb1 oops\nc0 quiet\n"
# Names say what is shared: an input is a negated latch. An input and a latch are its own; it claims an output, and its
# constraint.
NAMED = "aag 5 2 2 1 1 0 1\n2\n4\n6 10 1\n8 3 0\n5\n7\n10 4 2\ni0 = 7\ni1 free\nl0 started\nl1 = 8\no0 claim\nc0 held\n"
# No name says what is shared, so the first two inputs and latches are the model's.
PLACED = "aag 7 3 3 0 1 1 0\n2\n4\n6\n8 12\n10 9\n12 14 12\n14\n14 12 6\ni2 more\nl0 shared\nl2 last\nb0 claim\n"
# The last of 13 properties is the input, and the others are its negation.
THIRTEEN = "aag 1 1 0 0 0 13\n2\n" + "3\n" * 12 + "2\nb12 last\nb1 second\ni0 in\n"
# Eleven inputs, of which the first is shared, twelve properties, and a constraint.
TWELVE = ("aag 12 11 0 0 1 12 1\n2\n4\n6\n8\n10\n12\n14\n16\n18\n20\n22\n3\n4\n7\n8\n11\n12\n15\n16\n19\n20\n23\n24\n"
          "25\n24 22 2\ni10 own\nb11 claim\nc0 held\n")

# A name of the row, a model, a certificate, a property, and the text of the strengthened circuit.
TEXTS = (
    ("names say what is shared", MODEL, NAMED, 1,
     "aag 10 3 3 3 4 1 1\n2\n4\n12\n6 10 1\n8 4 8\n14 16 1\n9\n13\n14\n21\n3\n10 6 4\n16 12 7\n18 12 8\n20 18 15\n"
     "i0 req\nl1 state\no0 oops\nc0 quiet\ni2 free\nl2 started\no1 claim\no2 held\n"),
    ("places say what is shared", MODEL, PLACED, 0,
     "aag 9 3 3 2 3 1 1\n2\n4\n12\n6 10 1\n8 4 8\n14 16 14\n10\n16\n19\n3\n10 6 4\n16 14 12\n18 17 11\n"
     "i0 req\nl1 state\nc0 quiet\ni2 more\nl2 last\no1 claim\n"),
    ("numbers of two digits", THIRTEEN, TWELVE, 12,
     "aag 25 11 0 14 14 1\n2\n4\n6\n8\n10\n12\n14\n16\n18\n20\n22\n2\n3\n4\n7\n8\n11\n12\n15\n16\n19\n20\n23\n24\n24\n"
     "51\n24 22 2\n26 3 2\n28 26 5\n30 28 6\n32 30 9\n34 32 10\n36 34 13\n38 36 14\n40 38 17\n42 40 18\n44 42 21\n"
     "46 44 22\n48 46 25\n50 48 25\no0 last\ni0 in\ni10 own\no12 claim\no13 held\n"),
)

# A name of the row, a certificate for MODEL, the first line of the strengthened circuit, with how many entries it has,
# and how its last latch or gate begins.
SIZES = (
    ("300 latches", "aig 300 0 300 0 0\n" + "0\n" * 300, "aag 303 2 300 1 1 1 1", "606 "),
    ("300 claims", "aag 0 0 0 300 0\n" + "0\n" * 300, "aag 305 2 2 301 301 1 1", "610 "),
)

# A name of the row, a certificate for MODEL, a property, and the message.
REFUSALS = (
    ("a comment of another form", "aag 0 0 0 0 0\nc\nMAPPING 1\n2 2\n", 0, "certificate: comment"),
    ("a name, where such a comment is one", "aag 1 1 0 0 0\n2\ni0 = 2\nc\nMAPPING 1\n", 2, "strengthen: property"),
    ("a variable over the last", "aag 2 1 1 0 0\n2\n4 4\ni0 = 12\nl0 = 2\n", 0, "certificate: symbol i0"),
    ("a zero in front", "aag 2 1 1 0 0\n2\n4 4\nl0 = 02\ni0 = 2\n", 0, "certificate: symbol l0"),
    ("no number", "aag 1 1 0 0 0\n2\ni0 = \n", 0, "certificate: symbol i0"),
    ("no such property", "aag 0 0 0 0 0\n", 2, "strengthen: property"),
    ("latch 12", "aag 13 0 13 0 0\n" + "".join(f"{2 * at} 0\n" for at in range(1, 14)) + "l12 = 12\n", 0,
     "certificate: symbol l12"),
)


def strengthened_texts(program, tally, _):
    rows = Rows("strengthened", program, tally)
    for name, model, claims, asked, text in TEXTS:
        made = strengthened(Reader(data(model)).parts(), asked, Reader(data(claims)).parts())
        tally.compare(f"strengthened: {name}, as the plain writer has it", spelled(made, "aag"), data(text))
        words = f"--certificate claims --property {asked} model"
        rows.gives(name, f"strengthen --to aag {words}", text, model=model, claims=claims)
        rows.gives(f"{name}, in binary", f"strengthen --to aig {words}", spelled(in_order(made), "aig"))
    for name, claims, head, begins in SIZES:
        made = spelled(strengthened(Reader(data(MODEL)).parts(), 0, Reader(data(claims)).parts()), "aag")
        rows.gives(name, "strengthen --to aag --certificate claims model", made, model=MODEL, claims=claims)
        lines = made.decode().split("\n")
        is_right = lines[0] == head and any(line.startswith(begins) for line in lines)
        tally.check(f"strengthened: the sizes of {name}", is_right, lines[0])
    for name, claims, asked, text in REFUSALS:
        rows.refuses(name, f"strengthen --to aag --certificate claims --property {asked} model", text, claims=claims)
