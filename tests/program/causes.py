"""More rows of `aig why`, each also by the plain explainer: which causes are found, worked out by hand from the rule;
what names of signals mean; and how values are spelled. Of two sides that are 0 the lighter one counts, the first where
they weigh the same, but the other one where that is known already."""

import random
from typing import NamedTuple

from library.causes import Asked, Names, explained, resets_of
from library.reference import Parts
from library.runs import write
from program.rows import Rows

# 12 is 1 where neither 8 nor 10 is; 8 = 2 AND 4 and 10 = 6 AND 2.
SHARED = "aag 6 3 0 1 3/2/4/6/12/8 2 4/10 6 2/12 9 11/"
# 10 is 0 where 8 = 2 AND 4 is 1, or 6 is 0.
LIGHTER = "aag 5 3 0 2 2/2/4/6/10/8/8 2 4/10 9 6/o0 v[0]/o1 v[1]/"
# One latch takes the first input, the other the second and the first.
EARLIER = "aag 5 2 2 0 1/2/4/6 2/8 10/10 4 2/l0 a v[0]/l1 b v[1]/"
# One latch takes a gate, the other an input and that gate.
GATE = "aag 7 3 2 0 2/2/4/6/8 12/10 14/12 2 4/14 6 12/"
# Two latches take one gate.
BOTH = "aag 5 2 2 0 1/2/4/6 10/8 10/10 2 4/l0 a v[0]/l1 b v[1]/"
# 20 is 0 by two inputs that are 1, or by 16, whose weight differs from frame to frame.
WEIGHTS = "aag 11 4 2 0 4/2/4/8/10/6 20 1/22 20/14 2 4/16 15 6/18 8 10/20 19 16/"
TWO_GATES = "aag 4 2 0 1 2/2/4/8/8 6 2/6 2 4/"



class Line(NamedTuple):
    """A name of the row, a circuit, a stimulus, what is asked at the last frame, and the text; / stands for LF."""

    name: str
    circuit: str
    stimulus: str
    asked: str
    text: str


LINES = (
    ("the side that is 0", TWO_GATES, "10/", "8", "8=0 at 0: i1=0/"),
    ("both sides, which are x", TWO_GATES, "xx/", "9", "9=x at 0: i0=x i1=x/"),
    ("an input that is known when the other gate is looked at", SHARED, "000/", "12", "12=1 at 0: i0=0/"),
    ("the side that weighs less", LIGHTER, "110/", "10", "10=0 at 0: i2=0/"),
    ("two literals", LIGHTER, "011/", "v", "v=2'h1 at 0: i0=0 i2=1/"),
    ("an input that an earlier line of the frame names", EARLIER, "00/11/", "v",
     "a=0 at 1, by 0: i0=0/b=0 at 1, by 0: i0=0/"),
    ("an input that no earlier line names", EARLIER, "00/11/", "8", "b=0 at 1, by 0: i1=0/"),
    ("a gate that an earlier line visited is not known", GATE + "l0 a v[0]/l1 b v[1]/", "000/111/", "v",
     "a=0 at 1, by 0: i0=0/b=0 at 1, by 0: i2=0/"),
    ("a gate that the same line visited is known", GATE + "l0 q[0]/l1 q[1]/", "000/111/", "q",
     "q=2'h0 at 1, by 0: i0=0/"),
    ("each line has its own marks", BOTH, "11/00/", "v", "a=1 at 1, by 0: i0=1 i1=1/b=1 at 1, by 0: i0=1 i1=1/"),
    ("each frame has its own weights", WEIGHTS, "1111/0111/0000/", "22",
     "l1=0 at 2, by 1: l0=0/l0=0 at 1, by 0: i2=1 i3=1/"),
    ("a name goes on where a value is kept", "aag 3 1 2 0 0/2/4 4/6 4/", "0/0/0/", "6",
     "l1=0 at 2, by 1: l0=0/at 0, by reset: l0=0/"),
    ("a latch that changes does not keep its value", "aag 1 0 1 0 0/2 3/", "///", "3",
     "3=1 at 2: l0=0/l0=0 at 2, by 1: l0=1/l0=1 at 1, by 0: l0=0/at 0, by reset: l0=0/"),
    ("a constant needs nothing", "aag 2 1 1 0 0/2/4 1/", "0/0/0/", "4", "l0=1 at 2, by 1: always/"),
)

# A vector from 0, one that does not start at 0, two runs of one name, words of a vector at several entries, and names
# with blanks and bytes that cannot be printed.
NAMED = ("aag 13 2 10 1 1 1/2/4/6 8/8 6/10 2/12 4/14 14/16 16/18 18/20 20/22 22/24 24/26/27/26 6 4/"
         "i0 clk a  b v[1]/i1 q[0]x v[0]/l0 q[0] top.q/l1 q[1]/l2 q[2]/l3 r g[0] g[2]/l4 m[3] v[0]/l5 m[4]/"
         "l6 t[0]/l7 t[1]/l8 t[0]/l9 t[1]/b0 red\x1bcolour/")
SIGNALS = ["clk", "q[0]x", "q", "r", "m[4:3]", "t[1:0]", "t[1:0]", "o0", "red_colour"]

# A name, and the literals that it means, from bit 0 up; none where it means none.
MEANINGS = (
    ("clk", [2]), ("a", [2]), ("b", [2]), ("top.q", [6]), ("r", [12]), ("!r", [13]), ("g", None), ("q[1]", [8]),
    ("q", [6, 8, 10]), ("!q", [7, 9, 11]), ("m[4:3]", [14, 16]), ("m", [14, 16]), ("t[1:0]", [18, 20]), ("t", [18, 20]),
    ("v", [4, 2]), ("!v", [5, 3]), ("l3", [12]), ("i1", [4]), ("o0", [26]), ("red_colour", [27]), ("26", [26]),
    ("!27", [26]), ("0", [0]), ("28", None), ("026", None), ("i2", None), ("nothing", None), ("", None),
)
RUNS = 8

# The bits of a vector from bit 0 up, and its value.
VALUES = (("0", "0"), ("1", "1"), ("1100", "4'h3"), ("00010", "5'h08"), ("11110000", "8'h0f"),
          ("0101101111", "10'h3da"), ("x", "x"), ("1x", "2'bx1"), ("xxx", "x"))

# A circuit, a stimulus, and the text on the output, whose causes are some bits of a vector.
SOME_BITS = (
    ("aag 5 4 0 1 1/2/4/6/8/10/10 8 3/i0 a[0]/i1 a[1]/i2 a[2]/i3 a[3]/", "0011/", "o0=1 at 0: a=4'b1??0/"),
    ("aag 2 2 0 1 0/2/4/2/i0 a[0]/i1 a[1]/", "x0/", "o0=x at 0: a=2'b?x/"),
    ("aag 1 1 0 1 0/2/2/i0 a\x00\x7f\xffb c/", "1/", "o0=1 at 0: a___b=1/"),
)


def lines(text):
    return text.replace("/", "\n")


def causes(program, tally, _):
    rows = Rows("causes", program, tally)
    for line in LINES:
        gives(rows, Line(*line))
    meanings(rows, tally)
    for bits, value in VALUES:
        inputs = "".join(f"{2 * at}/" for at in range(1, len(bits) + 1))
        names = "".join(f"i{at} a[{at}]/" for at in range(len(bits))) if len(bits) > 1 else "i0 a/"
        gives(rows, Line(f"the value of {bits}", f"aag {len(bits)} {len(bits)} 0 0 0/{inputs}{names}", f"{bits}/", "a",
                         f"a={value} at 0: a={value}/"))
    for circuit, stimulus, text in SOME_BITS:
        gives(rows, Line(f"some bits: {text}", circuit, stimulus, "o0", text))


def gives(rows, row):
    """The text of a row, by the program and by the plain explainer."""
    name, circuit, stimulus, asked, text = row
    circuit, run, parts = lines(circuit), stimulus.split("/")[:-1], Parts(lines(circuit))
    rows.tally.compare(f"causes: {name}, the plain explainer",
                       explained(circuit, resets_of(parts), run, Asked(asked, len(run) - 1)), lines(text))
    rows.gives(name, ["why", "--of", asked, "circuit", "rows"], lines(text), circuit=circuit.encode("latin-1"),
               rows=lines(stimulus))


def meanings(rows, tally):
    """What names mean: in runs at random, the explanation is that of these literals."""
    circuit, parts = lines(NAMED), Parts(lines(NAMED))
    names = Names(circuit, parts)
    tally.compare("causes: the signals", [signal.name for signal in names.signals], SIGNALS)
    write("circuit", circuit)
    for name, literals in MEANINGS:
        tally.compare(f"causes: what {name!r} means", names.literals(name, parts), literals)
        for number in range(RUNS if literals else 1):
            rng = random.Random(f"meanings {name} {number}")
            start, *run = ["".join(rng.choices("01", k=size)) for size in (10, 2, 2)]
            write("witness", "\n".join(["1", "b0", start, *run, "."]) + "\n")
            words = ["why", f"--of={name}", "--frame", "1", "--witness", "circuit", "witness"]
            if literals:
                rows.gives(f"{name}, run {number}", words, explained(circuit, start, run, Asked(name, 1)))
            else:
                rows.refuses(f"no name: {name!r}", words, "why: name")
