"""Rows of `aig cut`: circuits by hand, to the byte, and also as a plain writer has them; sizes over a first block, and
what is refused."""

from library.circuits import TEXTS, write_all
from library.cuts import cut as plainly_cut
from library.plain_reader import Reader, in_order, spelled
from library.runs import EXAMPLES
from program.rows import Rows, data

# Each section but fairness has entries, some with names; gates and definitions are out of order, and variable 9 is
# unused.
DESIGN = ("aag 9 2 3 1 3 2 3 1\n2\n14\n6 10 1\n8 6\n16 16 16\n9\n10\n0\n3\n8\n5\n1\n17\n12 10 6\n4 2 15\n10 4 17\n"
          "l1 state\nb1 both\nc2 held\ni0 go\nj0 live\no0 sum\nc\nby hand\n")
HEAD, ENDS = "aag 9 2 3 1 3 2 3 1\n2\n14\n", "l1 state\nb1 both\nc2 held\ni0 go\nj0 live\no0 sum\nc\nby hand\n"
LATCHES, REST, GATES = "6 10 1\n8 6\n16 16 16\n", "9\n10\n0\n3\n8\n5\n1\n17\n", "12 10 6\n4 2 15\n10 4 17\n"

# A name of the row, the cuts, and what is written of the design.
CUTS = (
    ("nothing", "", DESIGN),
    ("a latch", "f 6\n", "aag 10 3 3 1 3 2 3 1\n2\n14\n20\n6 20 1\n8 6\n16 16 16\n" + REST + GATES + ENDS),
    ("a gate", "f 4\n", "aag 10 3 3 1 3 2 3 1\n2\n14\n20\n" + LATCHES + REST + "12 10 6\n4 20 1\n10 4 17\n" + ENDS),
    ("a reset", "r 6\n", HEAD + "6 10 6\n8 6\n16 16 16\n" + REST + GATES + ENDS),
    ("a reset of 0", "r 8\n", HEAD + "6 10 1\n8 6 8\n16 16 16\n" + REST + GATES + ENDS),
    ("a reset that is none", "r 16\n", DESIGN),
    ("a constraint", "c 1\n", HEAD + LATCHES + "9\n10\n0\n3\n1\n5\n1\n17\n" + GATES + ENDS),
    ("the first and the last constraint", "c 2\nc 0\n", HEAD + LATCHES + "9\n10\n0\n1\n8\n1\n1\n17\n" + GATES + ENDS),
    ("latches before gates, in their order", "f 10\nf 12\nf 16\nf 6\n", "aag 13 6 3 1 3 2 3 1\n2\n14\n20\n22\n24\n26\n"
     "6 20 1\n8 6\n16 22 16\n" + REST + "12 24 1\n4 2 15\n10 26 1\n" + ENDS),
    ("all of a latch", "r 8\nf 8\n",
     "aag 10 3 3 1 3 2 3 1\n2\n14\n20\n6 10 1\n8 20 8\n16 16 16\n" + REST + GATES + ENDS),
    ("twice the same", "f 8\nf 8\nr 8\nf 8\nr 8\n",
     "aag 10 3 3 1 3 2 3 1\n2\n14\n20\n6 10 1\n8 20 8\n16 16 16\n" + REST + GATES + ENDS),
)

# Other circuits: a name of the row, a circuit, cuts, a format, and what is written.
CIRCUITS = (
    ("nothing of nothing", "aag 0 0 0 0 0\n", "", "aag", "aag 0 0 0 0 0\n"),
    ("a ready circuit stays", "aag 1 0 1 0 0 1\n2 3\n2\n", "r 2\n", "aig", "aig 1 0 1 0 0 1\n3 2\n2\n"),
    ("a free latch of a ready one is renumbered", "aag 1 0 1 0 0 1\n2 3\n2\n", "f 2\n", "aig",
     "aig 2 1 1 0 0 1\n2\n4\n"),
    ("a free gate is renumbered", "aag 2 1 0 1 1\n2\n4\n4 2 2\no0 q\n", "f 4\n", "aig",
     "aig 3 2 0 1 1\n6\n\x02\x03o0 q\n"),
    ("the greatest literal", "aag 4194303 0 1 1 0\n8388606 0\n8388606\n", "r 8388606\n", "aag",
     "aag 4194303 0 1 1 0\n8388606 0 8388606\n8388606\n"),
    ("the last variable of all", "aag 4194302 0 1 1 0\n8388604 0\n8388604\n", "f 8388604\n", "aag",
     "aag 4194303 1 1 1 0\n8388606\n8388604 8388606\n8388604\n"),
)

# A name of the row, cuts of the design, and the number of the line that is refused.
WRONG = (
    ("an input", "f 2\n", 1), ("a negated latch", "f 7\n", 1), ("a negated gate", "f 13\n", 1),
    ("the constant", "f 0\n", 1), ("an unused variable", "f 18\n", 1), ("a variable over the last", "f 20\n", 1),
    ("the reset of a gate", "r 4\n", 1), ("the reset of a negated latch", "r 9\n", 1),
    ("a constraint that is not there", "c 3\n", 1), ("the greatest number", "c 4294967295\n", 1),
    ("a number over it", "f 4294967302\n", 1), ("a greater number", "f 18446744073709551622\n", 1),
    ("the second line", "f 6\nf 3\n", 2), ("the first of two", "x\nf 3\n", 1),
    ("line 12", "r 6\n" * 11 + "r 4\nf 2\n", 12),
    ("no LF at the end", "f 6\nr 6", 2), ("no LF", "f 6", 1), ("an empty line", "f 6\n\nr 6\n", 2),
    ("an empty first line", "\n", 1), ("a carriage return", "f 6\r\n", 1), ("two spaces", "f  6\n", 1),
    ("a space at the end", "f 6 \n", 1), ("a space in front", " f 6\n", 1), ("a tab", "f\t6\n", 1),
    ("a zero in front", "f 06\n", 1), ("a sign", "f +6\n", 1), ("no number", "f \n", 1), ("a letter alone", "f\n", 1),
    ("no space", "f6\n", 1), ("a capital letter", "F 6\n", 1), ("another letter", "g 6\n", 1),
    ("a byte of no text", b"f 6\n\xff\xfe\n", 2), ("a null byte", b"f 6\0\n", 1), ("hexadecimal", "f 0x6\n", 1),
)

# Circuits at the limit: a name of the row, a circuit, and cuts.
LIMITS = (
    ("no variable left", "aag 4194303 0 1 1 0\n2 0\n2\n", "f 2\n"),
    ("one variable left for two", "aag 4194302 0 2 1 0\n2 0\n4 0\n2\n", "f 2\nf 4\n"),
)


def words(to):
    return f"cut --to {to} --cuts cuts source"


def sizes():
    """Circuits and texts of more than a block, and a table of more than 65,536 entries: a name, a circuit and cuts."""
    many = 70000
    latches = "".join(f"{2 * at} {2 * at + 1}\n" for at in range(1, many + 1))
    gates = "".join(f"{2 * at} {2 * at - 2} 1\n" for at in range(2, many + 2))
    return (
        ("70,000 latches", f"aag {many} 0 {many} 1 0\n{latches}2\n",
         "".join(f"{'fr'[at % 2]} {2 * at}\n" for at in range(many, 0, -1))),
        ("70,000 gates", f"aag {many + 1} 1 0 1 {many}\n2\n{2 * many + 2}\n{gates}",
         "".join(f"f {2 * at}\n" for at in range(2, many + 2, 3))),
        ("70,000 constraints", f"aag 1 1 0 0 0 0 {many}\n2\n" + "2\n" * many,
         "".join(f"c {at}\n" for at in range(0, many, 7))),
        ("one cut 200,000 times", "aag 1 0 1 1 0\n2 3\n2\n", "f 2\n" * 200000),
    )


def cut(program, tally, _):
    rows = Rows("cut", program, tally)
    write_all()
    for name, cuts, text in CUTS:
        made = plainly_cut(Reader(data(DESIGN)).parts(), data(cuts))
        tally.compare(f"cut: {name}, as the plain writer has it", spelled(made, "aag"), data(text))
        rows.gives(name, words("aag"), text, source=DESIGN, cuts=cuts)
        rows.gives(f"{name}, in binary", words("aig"), spelled(in_order(made), "aig"))
    for name, circuit, cuts, to, text in CIRCUITS:
        rows.gives(name, words(to), text, source=circuit, cuts=cuts)
    for name, cuts, number in WRONG:
        rows.refuses(name, words("aag"), f"cuts: line {number}", source=DESIGN, cuts=cuts)
    for name, circuit, cuts in LIMITS:
        for to in ("aag", "aig"):
            rows.refuses(f"{name}, to {to}", words(to), "cut: limit", source=circuit, cuts=cuts)
    for name, circuit, cuts in sizes():
        made = plainly_cut(Reader(data(circuit)).parts(), data(cuts))
        rows.gives(name, words("aag"), spelled(made, "aag"), source=circuit, cuts=cuts)
        rows.refuses(f"{name}, and a wrong line", words("aag"), f"cuts: line {cuts.count(chr(10)) + 1}",
                     cuts=cuts + "f 1\n")
    rows.refuses("a wrong circuit comes first", words("aag"), "circuit: cycle 2", source=TEXTS["cycle"], cuts="x")
    rows.refuses("a wrong line comes before a limit", words("aag"), "cuts: line 2", source=LIMITS[0][1],
                 cuts="f 2\nf 4\n")
    rows.fails("no file of cuts", f"cut --to aag --cuts nowhere {EXAMPLES}/wraps.aag", "cuts")
    rows.fails("no file", "cut --to aag --cuts cuts nowhere", "circuit")
    for arguments in ("cut --to aag source", "cut --cuts cuts source", "cut --to aag --cuts cuts",
                      "cut --to aag --cuts"):
        ended = program.run(*arguments.split())
        tally.check(arguments, (ended.status, ended.out) == (2, b"") and ended.err != b"", ended)
