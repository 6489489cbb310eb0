"""Rows of `aig toaig`: conversions with known bytes, refused files, and the beginnings of files."""

from library.circuits import write_all
from library.runs import EXAMPLES
from program.rows import Rows, data

# how many bytes are read at a time
BLOCK = 32768

# What is converted, as text and as a binary file.
CONVERSIONS = (
    ("the empty circuit", "aag 0 0 0 0 0\n", "aig 0 0 0 0 0\n"),
    ("one gate, with its right sides swapped", "aag 3 2 0 1 1\n2\n4\n6\n6 2 4\n", "aig 3 2 0 1 1\n6\n\x02\x02"),
    ("a gate used before its line", "aag 4 2 0 1 2\n2\n4\n8\n8 6 2\n6 2 4\n", "aig 4 2 0 1 2\n8\n\x02\x02\x02\x04"),
    ("unused variables", "aag 7 1 0 1 2\n14\n5\n4 10 14\n10 14 15\n", "aig 3 1 0 1 2\n7\n\x01\x01\x02\x02"),
    ("a ready circuit, not renumbered", "aag 4 1 0 1 3\n2\n8\n4 2 2\n6 4 2\n8 2 2\n",
     "aig 4 1 0 1 3\n8\n\x02\x00\x02\x02\x06\x00"),
    ("levels before variables", "aag 5 2 0 1 3\n2\n4\n10\n10 6 8\n8 2 4\n6 4 3\n",
     "aig 5 2 0 1 3\n10\n\x02\x01\x04\x02\x02\x02"),
    ("a symbol of a constraint, and a comment", "aag 1 1 0 0 0 0 1\n2\n2\nc0 go\nc\nhi",
     "aig 1 1 0 0 0 0 1\n2\nc0 go\nc\nhi"),
    ("justice and fairness", "aag 1 1 0 0 0 0 0 1 1\n2\n2\n2\n3\n2\n", "aig 1 1 0 0 0 0 0 1 1\n2\n2\n3\n2\n"),
    ("an empty comment", "aag 1 1 0 0 0\n2\nc\n", "aig 1 1 0 0 0\nc\n"),
    ("all sections and symbols",
     "aag 3 1 1 1 1 1 1 1 1\n2\n4 6 4\n6\n6\n4\n1\n6\n4\n6 4 2\n"
     "f0 fair\nj0 just\nc0 con\nb0 bad state\no0 out\nl0 state\ni0 in\nc\nhi\n",
     "aig 3 1 1 1 1 1 1 1 1\n6 4\n6\n6\n4\n1\n6\n4\n\x02\x02"
     "f0 fair\nj0 just\nc0 con\nb0 bad state\no0 out\nl0 state\ni0 in\nc\nhi\n"),
    ("resets", "aag 9 1 2 1 1\n18\n4 6 4\n8 19 1\n5\n6 4 18\n", "aig 4 1 2 1 1\n8 4\n3 1\n5\n\x04\x02"),
    ("a ready circuit with a latch", "aag 3 1 1 1 1\n2\n4 6 4\n4\n6 4 2\n", "aig 3 1 1 1 1\n6 4\n4\n\x02\x02"),
    ("a latch before its input", "aag 3 1 1 1 1\n4\n2 6 1\n3\n6 4 2\n", "aig 3 1 1 1 1\n6 1\n5\n\x02\x02"),
    ("a latch without an output", "aag 3 1 1 0 1\n2\n4 6 4\n6 4 2\n", "aig 3 1 1 0 1\n6 4\n\x02\x02"),
    ("a justice property with a name", "aag 3 1 1 1 1 0 0 1\n2\n4 6 4\n4\n2\n3\n5\n6 4 2\nj0 go\nc\nhi",
     "aig 3 1 1 1 1 0 0 1\n6 4\n4\n2\n3\n5\n\x02\x02j0 go\nc\nhi"),
    ("a name and a comment without LF", "aag 1 1 0 0 0\n2\ni0 ab\nc\nhi", "aig 1 1 0 0 0\ni0 ab\nc\nhi"),
    ("names in another order", "aag 2 2 0 2 0\n2\n4\n2\n4\no1 out\ni1 in\ni0 first\n",
     "aig 2 2 0 2 0\n2\n4\no1 out\ni1 in\ni0 first\n"),
)

# Gates out of order, where there are 31.5 variables for each gate, and 32: gates are found by a look at each variable,
# or they are sorted. The canonical order goes by level, then by variable. Each has a text, its greatest level, and the
# binary file, in which the gates have that order.
ORDERS = (
    ("aag 4 2 0 1 2\n2\n4\n8\n8 6 2\n6 2 4\n", 2, "aig 4 2 0 1 2\n8\n\x02\x02\x02\x04"),
    ("aag 7 1 0 1 2\n14\n5\n4 10 14\n10 14 15\n", 2, "aig 3 1 0 1 2\n7\n\x01\x01\x02\x02"),
    ("aag 4 2 0 1 2\n2\n4\n8\n8 2 4\n6 2 4\n", 1, "aig 4 2 0 1 2\n8\n\x02\x02\x04\x02"),
    ("aag 63 2 0 1 2\n2\n4\n126\n126 2 4\n100 2 4\n", 1, "aig 4 2 0 1 2\n8\n\x02\x02\x04\x02"),
    ("aag 63 2 0 1 2\n2\n4\n126\n126 2 4\n100 126 4\n", 2, "aig 4 2 0 1 2\n6\n\x02\x02\x02\x02"),
    ("aag 63 2 0 1 2\n2\n4\n126\n126 100 4\n100 2 4\n", 2, "aig 4 2 0 1 2\n8\n\x02\x02\x02\x02"),
    ("aag 64 2 0 1 2\n2\n4\n128\n128 2 4\n100 2 4\n", 1, "aig 4 2 0 1 2\n8\n\x02\x02\x04\x02"),
    ("aag 64 2 0 1 2\n2\n4\n128\n128 2 4\n100 128 4\n", 2, "aig 4 2 0 1 2\n6\n\x02\x02\x02\x02"),
    ("aag 64 2 0 1 2\n2\n4\n128\n128 100 4\n100 2 4\n", 2, "aig 4 2 0 1 2\n8\n\x02\x02\x02\x02"),
)

# Binary files that are written back as they stand, by their deltas.
DELTAS = (
    ("127 and 1", b"aig 64 63 0 0 1\n\x7f\x01"),
    ("128 and 0", b"aig 64 63 0 0 1\n\x80\x01\x00"),
    ("300 and 0", b"aig 150 149 0 0 1\n\xac\x02\x00"),
    ("16,383 and 1", b"aig 8192 8191 0 0 1\n\xff\x7f\x01"),
    ("16,384 and 0", b"aig 8192 8191 0 0 1\n\x80\x80\x01\x00"),
    ("2,097,151 and 1", b"aig 1048576 1048575 0 0 1\n\xff\xff\x7f\x01"),
    ("2,097,152 and 0", b"aig 1048576 1048575 0 0 1\n\x80\x80\x80\x01\x00"),
    ("8,388,606 and 0, the greatest", b"aig 4194303 4194302 0 0 1\n\xfe\xff\xff\x03\x00"),
)

# Six gates after 4,194,297 inputs, with deltas of each length, and the lines of the gates.
MANY_DELTAS = (b"aig 4194303 4194297 0 0 6\n\x01\x00\x7f\x80\x01\xac\x02\xff\x7f\x80\x80\x01\xff\xff\x7f\x80\x80\x80"
               b"\x01\x01\xfe\xff\xff\x03\x00")
GATES = ("8388596 8388595 8388595\n8388598 8388471 8388343\n8388600 8388300 8371917\n8388602 8372218 6275067\n"
         "8388604 6291452 6291451\n8388606 0 0\n")

REFUSALS = (
    ("the empty file", "", "text at 0"),
    ("more inputs than variables", "aag 1 2 0 0 0\n", "counts"),
    ("a binary file with a gap", "aig 2 1 0 0 0\n", "counts"),
    ("a count over the limit", "aag 4194304 0 0 0 0\n", "limit"),
    ("a tenth count", "aag 0 0 0 0 0 0 0 0 0 0\n", "text at 21"),
    ("a leading zero", "aag 01 0 0 0 0\n", "text at 4"),
    ("a literal over the limit", "aag 1 1 0 1 0\n2\n8388608\n", "limit"),
    ("a literal out of range", "aag 1 1 0 1 0\n2\n8388607\n", "range"),
    ("an output out of range", "aig 1 1 0 1 0\n4\n", "range"),
    ("an odd left side", "aag 2 1 0 0 1\n2\n5 2 2\n", "definition"),
    ("a variable defined twice", "aag 2 1 1 0 0\n2\n2 1\n", "redefined 1"),
    ("an undefined variable", "aag 2 1 0 1 0\n2\n4\n", "undefined 2"),
    ("a wrong reset", "aag 2 1 1 0 0\n2\n4 1 3\n", "reset 2"),
    ("a cycle", "aag 3 1 0 1 2\n2\n4\n4 6 2\n6 4 2\n", "cycle 2"),
    ("a gate that reads itself", "aag 2 1 0 1 1\n2\n4\n4 4 2\n", "cycle 2"),
    ("an end between two deltas", "aig 3 2 0 1 1\n6\n\x02", "text at 17"),
    ("a long delta", b"aig 3 2 0 1 1\n6\n\x82\x00\x02", "text at 16"),
    ("a first delta of 0", "aig 3 2 0 1 1\n6\n\x00\x02", "text at 16"),
    ("a second delta that is too great", "aig 3 2 0 1 1\n6\n\x02\x05", "text at 17"),
    ("a symbol out of range", "aag 1 1 0 0 0\n2\ni1 a\n", "text at 17"),
    ("a symbol named twice", "aag 1 1 0 0 0\n2\ni0 a\ni0 b\n", "text at 22"),
    ("a comment letter at the end", "aag 1 1 0 0 0\n2\nc", "text at 17"),
    ("counts, whatever follows", "aag 1 2 0 0 0\nx", "counts"),
    ("inputs that do not follow", "aag 4194303 4194303 0 0 0\n", "text at 26"),
    ("a count of 400 digits", "aag " + "9" * 400, "limit"),
    ("a position of 400 digits", "aag 0 0 0 0 0\ni" + "9" * 400, "limit"),
    ("a delta of ten groups", b"aig 3 2 0 1 1\n6\n\x80\x80\x80\x80\x80\x80\x80\x80\x80\x00\x02", "text at 16"),
    ("a delta of five groups", b"aig 3 2 0 1 1\n6\n\xff\xff\xff\xff\x0f\x00", "text at 16"),
    ("an end inside a delta", b"aig 3 2 0 1 1\n6\n\x02\x82", "text at 17"),
    ("an empty name", "aag 1 1 0 0 0\n2\ni0 \n", "text at 19"),
    ("a name that the end cuts", "aag 1 1 0 0 0\n2\ni0 ab", "text at 21"),
    ("a comment on the line of its letter", "aag 1 1 0 0 0\n2\nc hi\n", "text at 17"),
    ("a position over the limit", "aag 1 1 0 0 0\n2\ni8388608 a\n", "limit"),
    ("justice sizes over the limit together", "aag 0 0 0 0 0 0 0 2\n4194303\n1\n", "limit"),
    ("CR before LF", "aag 0 0 0 0 0\r\n", "text at 13"),
    ("two spaces", "aag  0 0 0 0 0\n", "text at 4"),
    ("a letter alone", "a", "text at 1"),
    ("a format word alone", "aag", "text at 3"),
    ("the other format word alone", "aig", "text at 3"),
    ("no format word", "abg 0 0 0 0 0\n", "text at 0"),
    ("a tab behind the format word", "aag\t", "text at 0"),
    ("a letter behind a count", "aag 1x", "text at 5"),
    ("wrong counts whose line is cut", "aag 1 2 0 0 0", "text at 13"),
    ("a symbol without a name", "aag 1 1 0 0 0\n2\ni0 ", "text at 19"),
    ("a letter behind a position", "aag 1 1 0 0 0\n2\ni0a", "text at 18"),
    ("a letter of no section", "aag 1 1 0 0 0\n2\nx", "text at 16"),
    ("a letter behind the comment's", "aag 1 1 0 0 0\n2\ncx", "text at 17"),
    ("a constraint's symbol where there is none", "aag 1 1 0 0 0\n2\nc0 a\n", "text at 17"),
    ("justice sizes over the limit, before a letter", "aag 0 0 0 0 0 0 0 2\n4194303\n1x", "limit"),
    ("a first delta that is cut", b"aig 3 2 0 1 1\n6\n\x82", "text at 16"),
    ("a first delta that is cut behind two groups", b"aig 3 2 0 1 1\n6\n\x82\x82", "text at 16"),
    ("a first delta of four groups that is too great", b"aig 3 2 0 1 1\n6\n\xff\xff\xff\x03\x00", "text at 16"),
    ("range before undefined", "aag 1 1 0 1 0\n2\n4\n", "range"),
    ("range before definition", "aag 1 1 0 1 0\n3\n4\n", "range"),
    ("a constant that is defined", "aag 1 1 0 0 0\n0\n", "definition"),
    ("an odd input", "aag 1 1 0 0 0\n3\n", "definition"),
    ("definition before redefined", "aag 3 3 0 0 0\n4\n4\n3\n", "definition"),
    ("an input twice", "aag 2 2 0 0 0\n2\n2\n", "redefined 1"),
    ("the least variable that is defined twice", "aag 4 4 0 0 0\n4\n4\n2\n2\n", "redefined 1"),
    ("redefined before undefined", "aag 2 1 0 1 1\n2\n4\n2 0 1\n", "redefined 1"),
    ("the least undefined variable", "aag 3 1 0 2 0\n2\n7\n4\n", "undefined 2"),
    ("undefined before reset", "aag 2 0 1 0 0\n2 4 9\n", "undefined 2"),
    ("the least latch with a wrong reset", "aag 2 0 2 0 0\n4 0 2\n2 0 3\n", "reset 1"),
    ("a reset by another latch", "aag 2 0 2 0 0\n2 2\n4 2 2\n", "reset 2"),
    ("reset before cycle", "aag 2 0 1 0 1\n4 0 2\n2 2 2\n", "reset 2"),
    ("the least variable of two cycles", "aag 3 1 0 0 2\n2\n6 6 2\n4 7 2\n", "cycle 2"),
    ("variable 3 defined twice", "aag 3 3 0 0 0\n2\n6\n6\n", "redefined 3"),
    ("variable 3 undefined", "aag 3 2 0 1 0\n2\n4\n6\n", "undefined 3"),
    ("variable 3 with a wrong reset", "aag 3 2 1 0 0\n2\n4\n6 2 4\n", "reset 3"),
    ("a cycle of variable 3", "aag 3 2 0 0 1\n2\n4\n6 6 2\n", "cycle 3"),
)

# Files of which these beginnings alone are circuits; each other one is refused where it ends.
BEGINNINGS = (
    ("a text", "aag", "aag 1 1 0 0 0 0 1\n2\n2\nc0 go\nc\nhi", (22, 28, 30, 31)),
    ("a binary file", "aig", "aig 3 2 0 1 1\n6\n\x02\x02", ()),
)


def toaig(program, tally, _):
    rows = Rows("toaig", program, tally)
    write_all()
    for name, text, binary in CONVERSIONS:
        rows.gives(f"{name}, as text", "toaig --to aag source", text, source=text)
        rows.gives(f"{name}, as binary", "toaig --to aig source", binary, source=text)
        rows.gives(f"{name}, binary as it stands", "toaig --to aig source", binary, source=binary)
    rows.gives("zeros that may be left out", "toaig --to aag source", "aag 1 0 1 0 0\n2 2\n",
               source="aag 1 0 1 0 0 0 0\n2 2 0\n")
    for name, binary in (*DELTAS, ("of each length", MANY_DELTAS)):
        rows.gives(f"deltas {name}", "toaig --to aig source", binary, source=binary)
    gates = "".join(rows.run("toaig", "--to", "aag", "source").out.decode().splitlines(keepends=True)[-6:])
    tally.compare("toaig: gates with deltas of each length", gates, GATES)
    orders(rows)
    for name, text, fault in REFUSALS:
        rows.refuses(name, "toaig --to aag source", f"circuit: {fault}", source=text)
        rows.refuses(f"{name}, read whole", "unroll --frames 1 --to aag source", f"circuit: {fault}", source=text)
    for name, to, text, lengths in BEGINNINGS:
        for length in range(1, len(text)):
            case, words = f"the first {length} bytes of {name}", f"toaig --to {to} source"
            beginning = data(text[:length])
            if length in lengths:
                rows.gives(case, words, beginning, source=beginning)
            else:
                rows.refuses(case, words, f"circuit: text at {length}", source=beginning)
    long_names(rows)
    distant_names(rows)
    rows.fails("no file", "toaig --to aig nowhere", "circuit")
    for design in ("two_gates", "counter", "fifo"):
        text, binary = (f"{EXAMPLES}/{design}.{ending}" for ending in ("aag", "aig"))
        rows.copies(f"{design}, to binary", ["toaig", "--to", "aig", text], binary)
    text, binary = (f"{EXAMPLES}/counter.{ending}" for ending in ("aag", "aig"))
    rows.copies("a ready design, to binary and back", ["toaig", "--to", "aag", binary], text)


def orders(rows):
    for text, level, binary in ORDERS:
        rows.gives(f"the order of {text!r}", "toaig --to aig source", binary, source=text)
        facts = rows.run("info", "source").out.decode().splitlines()
        rows.tally.check(f"toaig: the greatest level of {text!r}", f"levels {level}" in facts, facts)


def long_names(rows):
    """Files of a block, of one byte less and more, and of two blocks: one input has a name that fills the file. What
    comes after it has its fault at its place."""
    head = "aag 1 1 0 0 0\n2\ni0 "
    for size in (BLOCK - 1, BLOCK, BLOCK + 1, 2 * BLOCK):
        text = head + "a" * (size - len(head) - 1) + "\n"
        rows.gives(f"a name in {size} bytes", "toaig --to aag source", text, source=text)
        for end, at in (("x", size), ("c", size + 1)):
            for words in ("toaig --to aag source", "unroll --frames 1 --to aag source"):
                rows.refuses(f"{end} after {size} bytes, {words}", words, f"circuit: text at {at}", source=text + end)


def distant_names(rows):
    """Names of entries far apart, in any order: at both ends of a page of bits, and of one position in two sections."""
    names = ("i4194302", "o16383", "o16384", "f16383", "i0")
    text = "aig 4194303 4194303 0 16385 0 0 0 0 16384\n" + "0\n" * (16385 + 16384)
    text += "".join(f"{name} name\n" for name in names)
    rows.gives("names of distant entries", "toaig --to aig source", text, source=text)
    rows.gives("one more name", "toaig --to aig source", text + "i1 name\n", source=text + "i1 name\n")
    for name in names:
        rows.refuses(f"another name of {name}", "toaig --to aig source", f"circuit: text at {len(text) + 1}",
                     source=f"{text}{name} name\n")
