"""Rows of `aig select`: the order of the properties and their names, both sections, both formats, and refusals."""

from library.circuits import TEXTS, write_all
from library.runs import EXAMPLES
from program.rows import Rows, data

# Three bad state properties and two outputs, with names in an order of their own, and the other sections.
DESIGN = ("aag 5 2 1 2 2 3 1 1 1\n2\n4\n6 10 1\n8\n1\n8\n9\n0\n5\n2\n8\n2\n6\n8 4 2\n10 8 6\n"
          "b2 never\nj0 live\ni1 go\no1 high\nb0 both\nf0 fair\nc0 held\nl0 state\no0 sum\nc\nby hand\n")
GATES = "8 4 2\n10 8 6\n"

# A name of the row, options, and what is written of the design.
SELECTIONS = (
    ("all bad state properties", "", "aag 5 2 1 0 2 3 1\n2\n4\n6 10 1\n8\n9\n0\n5\n" + GATES
     + "b2 never\ni1 go\nb0 both\nc0 held\nl0 state\nc\nby hand\n"),
    ("one", "--property 1", "aag 5 2 1 0 2 1 1\n2\n4\n6 10 1\n9\n5\n" + GATES
     + "i1 go\nc0 held\nl0 state\nc\nby hand\n"),
    ("another order", "--property 2 --property 0", "aag 5 2 1 0 2 2 1\n2\n4\n6 10 1\n0\n8\n5\n" + GATES
     + "b0 never\ni1 go\nb1 both\nc0 held\nl0 state\nc\nby hand\n"),
    ("one twice", "--property 0 --property 2 --property 0", "aag 5 2 1 0 2 3 1\n2\n4\n6 10 1\n8\n0\n8\n5\n" + GATES
     + "b1 never\ni1 go\nb0 both\nb2 both\nc0 held\nl0 state\nc\nby hand\n"),
    ("all, as outputs", "--as outputs", "aag 5 2 1 3 2 0 1\n2\n4\n6 10 1\n8\n9\n0\n5\n" + GATES
     + "o2 never\ni1 go\no0 both\nc0 held\nl0 state\nc\nby hand\n"),
    ("all outputs, as properties", "--from outputs", "aag 5 2 1 0 2 2 1\n2\n4\n6 10 1\n8\n1\n5\n" + GATES
     + "i1 go\nb1 high\nc0 held\nl0 state\nb0 sum\nc\nby hand\n"),
    ("an output as an output", "--from outputs --as outputs --property 1", "aag 5 2 1 1 2 0 1\n2\n4\n6 10 1\n1\n5\n"
     + GATES + "i1 go\no0 high\nc0 held\nl0 state\nc\nby hand\n"),
    ("both sections by their names", "--from bad --as bad --property 0", "aag 5 2 1 0 2 1 1\n2\n4\n6 10 1\n8\n5\n"
     + GATES + "i1 go\nb0 both\nc0 held\nl0 state\nc\nby hand\n"),
)

# The same with names: a name of the row, options, the file of names, and what is written of the design.
NAMED = (
    ("each property", "", "first\nsecond\nthird\n", "aag 5 2 1 0 2 3 1\n2\n4\n6 10 1\n8\n9\n0\n5\n" + GATES
     + "i1 go\nc0 held\nl0 state\nb0 first\nb1 second\nb2 third\nc\nby hand\n"),
    ("an empty line is no name", "", "\nsecond\n\n", "aag 5 2 1 0 2 3 1\n2\n4\n6 10 1\n8\n9\n0\n5\n" + GATES
     + "i1 go\nc0 held\nl0 state\nb1 second\nc\nby hand\n"),
    ("in the order that is written", "--property 2 --property 0", "third\nfirst\n",
     "aag 5 2 1 0 2 2 1\n2\n4\n6 10 1\n0\n8\n5\n" + GATES
     + "i1 go\nc0 held\nl0 state\nb0 third\nb1 first\nc\nby hand\n"),
    ("as outputs", "--as outputs --property 1", " b1  x = 7 \n", "aag 5 2 1 1 2 0 1\n2\n4\n6 10 1\n9\n5\n" + GATES
     + "i1 go\nc0 held\nl0 state\no0  b1  x = 7 \nc\nby hand\n"),
    ("one name twice", "--from outputs", "same\nsame\n", "aag 5 2 1 0 2 2 1\n2\n4\n6 10 1\n8\n1\n5\n" + GATES
     + "i1 go\nc0 held\nl0 state\nb0 same\nb1 same\nc\nby hand\n"),
)

# Files of names that are not one line per property.
UNNAMED = (
    ("a line is missing", "", "first\nsecond\n"),
    ("a line too many", "", "first\nsecond\nthird\n\n"),
    ("no LF at the end", "", "first\nsecond\nthird"),
    ("bytes after the last line", "--property 0", "first\nsecond"),
    ("no lines", "--property 0", ""),
)

# Other circuits.
CIRCUITS = (
    ("no property to choose from", "", "aag 2 1 0 1 1\n2\n4\n4 2 2\no0 a\n", "aag 2 1 0 0 1\n2\n4 2 2\n"),
    ("no output to choose from", "--from outputs", TEXTS["bad_input"], "aag 1 1 0 0 0\n2\n"),
    ("constants", "--property 1 --property 0", "aag 0 0 0 0 0 2\n0\n1\n", "aag 0 0 0 0 0 2\n1\n0\n"),
    ("unused variables stay in text", "--from outputs", TEXTS["unused"],
     "aag 7 1 0 0 2 1\n14\n5\n4 10 14\n10 14 15\n"),
    ("gates out of order stay in text", "--from outputs --as outputs", TEXTS["two_gates"], TEXTS["two_gates"]),
    ("an empty comment", "", "aag 1 1 0 0 0 1\n2\n2\nc\n", "aag 1 1 0 0 0 1\n2\n2\nc\n"),
)

# What is written in the binary format.
BINARY = (
    ("a ready circuit, as it stands", "", "aag 4 1 0 1 3 1\n2\n8\n8\n4 2 2\n6 4 2\n8 2 2\nb0 p\n",
     "aig 4 1 0 0 3 1\n8\n\x02\x00\x02\x02\x06\x00b0 p\n"),
    ("gates out of order, renumbered", "--from outputs", "aag 4 2 0 1 2\n2\n4\n9\n8 6 2\n6 2 4\no0 p\n",
     "aig 4 2 0 0 2 1\n9\n\x02\x02\x02\x04b0 p\n"),
)

REFUSALS = (
    ("a property that is not there", "--property 3", DESIGN),
    ("one of two that is not there", "--property 0 --property 4294967295", DESIGN),
    ("an output that is not there", "--from outputs --property 2", DESIGN),
    ("a property where there is none", "--property 0", TEXTS["one_gate"]),
    ("an output where there is none", "--from outputs --property 0", TEXTS["bad_input"]),
)

WORDS = ("--from inputs", "--as Bad", "--property", "--property -1",
         "--from bad --from bad")


def select(program, tally, _):
    rows = Rows("select", program, tally)
    write_all()
    for name, options, text in SELECTIONS:
        rows.gives(name, arguments("aag", options), text, source=DESIGN)
    for name, options, circuit, text in CIRCUITS:
        rows.gives(name, arguments("aag", options), text, source=circuit)
    for name, options, circuit, binary in BINARY:
        rows.gives(name, arguments("aig", options), binary, source=circuit)
    for name, options, names, text in NAMED:
        rows.gives(f"names: {name}", arguments("aag", f"{options} --names names"), text, source=DESIGN,
                   names=names)
    for name, options, names in UNNAMED:
        rows.refuses(f"names: {name}", arguments("aag", f"{options} --names names"), "names: lines",
                     source=data(DESIGN),
                     names=names)
    rows.gives("names: of no property", arguments("aig", "--names names"), "aig 1 1 0 0 0\n",
               source="aag 1 1 0 0 0\n2\n",
               names=b"")
    rows.refuses("names: a property that is not there", arguments("aag", "--property 3 --names names"),
                 "select: property",
                 source=data(DESIGN), names=b"")
    rows.refuses("names: no circuit", arguments("aag", "--names names"), "circuit: text at 0", source="", names=b"")
    rows.fails("names: no file", f"select --to aag --names nowhere {EXAMPLES}/wraps.aag", "names")
    for name, options, circuit in REFUSALS:
        for to in ("aag", "aig"):
            rows.refuses(f"{name}, to {to}", arguments(to, options), "select: property", source=data(circuit))
    for fault, circuit in (("text at 0", ""), ("cycle 2", TEXTS["cycle"]), ("counts", "aag 1 2 0 0 0\n")):
        rows.refuses(f"a circuit with the fault {fault}", arguments("aag", "--property 7"), f"circuit: {fault}",
                     source=circuit)
    rows.fails("no file", "select --to aag nowhere", "circuit")
    for words in WORDS:
        ended = program.run(*arguments("aag", words))
        tally.check(f"select: {words}", (ended.status, ended.out) == (2, b"") and ended.err != b"", ended)
    tally.check("select: no format", program.run("select", "source").status == 2)
    flow(program, tally)


def arguments(to, options):
    return ["select", *options.split(), "--to", to, "source"] if options else ["select", "--to", to, "source"]


def flow(program, tally):
    """A witness of a property of the new file has the verdict that it has for the named one."""
    ended = program.run("select", "--to", "aag", "--property", "0", f"{EXAMPLES}/wraps.aag")
    with open("kept", "wb") as file:
        file.write(ended.out)
    tally.compare("select: a witness of the property", program.run("check", "kept", f"{EXAMPLES}/wraps.wit"),
                  program.run("check", f"{EXAMPLES}/wraps.aag", f"{EXAMPLES}/wraps.wit"))
