"""Rows of `aig why`: explanations by hand, names, refusals, and random circuits beside a plain explainer. For a
witness, the values that an explanation names are given to `aig check` without the others: the run is confirmed, or
lacks a constraint."""

import random
import re

from library.causes import Asked, Names, explained, resets_of
from library.circuits import write_all
from library.reference import Parts
from library.runs import EXAMPLES, EXPECTED, contents, refused, write
from library.tour import steps
from program.rows import Rows

BOTH = "aag 3 2 0 0 1 1/2/4/6/6 4 2/"
EITHER = "aag 3 2 0 0 1 1/2/4/7/6 5 3/"
# the first side is of two inputs, the second of one
HEAVY = "aag 5 3 0 1 2 1/2/4/6/10/11/8 4 2/10 8 6/"
# a counter of two bits that counts where the input is 1; bad where it is 3
COUNTER = ("aag 8 1 2 0 5 1/2/4 11/6 17/12/8 4 2/10 9 13/12 6 4/14 8 6/16 15 6/"
           "i0 en/l0 count[0]/l1 count[1]/b0 full/")
# a register of two bits; its second bit starts at any value, and its first shifts the input in
SHIFT = "aag 3 1 2 0 0 1/2/4 2/6 4 6/6/i0 d/l0 q[0]/l1 q[1]/b0 q[1]/"
# a latch that keeps its value, and one that follows it
KEPT = "aag 2 0 2 0 0 1/2 2 2/4 2/4/l0 early/l1 late/b0 wrong/"

# A name of the row, a circuit, a witness, options, and the text; / stands for LF.
WITNESSES = (
    ("both sides", BOTH, "1/b0//11/./", "", "b0=1 at 0: i0=1 i1=1/"),
    ("the side that is 0", EITHER, "1/b0//10/./", "", "b0=1 at 0: i0=1/"),
    ("the first of two sides of one weight", EITHER, "1/b0//11/./", "", "b0=1 at 0: i1=1/"),
    ("a constant", "aag 0 0 0 0 0 1/1/", "1/b0///./", "", "b0=1 at 0: always/"),
    ("the lighter side", HEAVY, "1/b0//110/./", "--of o0", "o0=0 at 0: i2=0/"),
    ("a literal by its number", BOTH, "1/b0//11/./", "--of 7", "7=0 at 0: i0=1 i1=1/"),
    ("the negation of a name", BOTH, "1/b0//11/./", "--of !i1", "!i1=0 at 0: i1=1/"),
    ("a start", SHIFT, "1/b0/01/x/./", "", "at 0, by start: q=2'b1?/"),
    ("an input one frame before", SHIFT, "1/b0/0x/1/x/x/./", "--of q[1]",
     "q=2'b1? at 2, by 1: q=2'b?1/q=2'b?1 at 1, by 0: d=1/"),
    ("a depth", SHIFT, "1/b0/0x/1/x/x/./", "--of q[1] --depth 1",
     "q=2'b1? at 2, by 1: q=2'b?1/at 1, not explained: q=2'b?1/"),
    ("no depth", SHIFT, "1/b0/0x/1/x/x/./", "--of q[1] --depth 0", "at 2, not explained: q=2'b1?/"),
    ("a frame", SHIFT, "1/b0/0x/1/x/x/./", "--of q --frame 1",
     "q=2'h1 at 1, by 0: d=1 q=2'b?0/at 0, by reset: q=2'b?0/"),
    ("a value that is kept", KEPT, "1/b0/10////./", "", "late=1 at 2, by 1: early=1/at 0, by start: early=1/"),
    ("a reset and a start", KEPT, "1/b0/10/./".replace("/10/", "/x0//"), "--of late", "at 0, by reset: late=0/"),
)

# The same of stimuli: x, and what has no value.
STIMULI = (
    ("x by both sides", BOTH, "xx/", "--of b0", "b0=x at 0: i0=x i1=x/"),
    ("x by one side", BOTH, "x1/", "--of b0", "b0=x at 0: i0=x/"),
    ("an uninitialised latch", SHIFT, "0/", "--of b0", "at 0, by start: q=2'bx?/"),
    ("the negation of an uninitialised latch", SHIFT, "0/", "--of !b0", "!b0=x at 0: q=2'bx?/at 0, by start: q=2'bx?/"),
    ("a vector that is x", "aag 2 2 0 0 0/2/4/i0 a[0]/i1 a[1]/", "xx/", "--of a", "a=x at 0: a=x/"),
    ("a vector from another bit than 0", "aag 2 2 0 0 0/2/4/i0 a[3]/i1 a[4]/", "10/", "--of a[4:3]",
     "a[4:3]=2'h1 at 0: a[4:3]=2'h1/"),
)


def lines(text):
    return text.replace("/", "\n")


def words_of(options, *files):
    return ["why", *options.split(), *files]


def why(program, tally, _):
    rows = Rows("why", program, tally)
    write_all()
    for name, circuit, witness, options, wanted in WITNESSES:
        write("circuit", lines(circuit))
        rows.gives(name, words_of(options, "--witness", "circuit", "witness"), lines(wanted), witness=lines(witness))
    for name, circuit, stimulus, options, wanted in STIMULI:
        write("circuit", lines(circuit))
        rows.gives(name, words_of(options, "circuit", "rows"), lines(wanted), rows=lines(stimulus))
    refusals(rows)
    queue(rows)
    at_random(rows, tally)


def queue(rows):
    """The overflow of the queue, and what the page on behaviour shows of it."""
    rows.gives("the queue", ["why", "--witness", f"{EXAMPLES}/queue.aig", f"{EXAMPLES}/queue.wit"],
               contents(f"{EXPECTED}/queue.why"))
    shown = [(command, text) for command, text in steps("docs/BEHAVIOUR.md") if command.startswith("aig why ")]
    for command, text in shown:
        rows.gives(f"docs/BEHAVIOUR.md: {command}", command.replace("examples/", f"{EXAMPLES}/").split()[1:], text)


def refusals(rows):
    write("witness", "1\nb0\n\n11\n.\n")
    write("rows", "11\n")
    write("circuit", lines(BOTH))
    for text in ("i2", "I0", "8", "01", "!!i0", "", "b1", "-1", "6 ", "!"):
        rows.refuses(f"no name: {text!r}", ["why", f"--of={text}", "circuit", "rows"], "why: name")
    for frame in ("1", "4294967295"):
        rows.refuses(f"frame {frame}", f"why --of b0 --frame {frame} circuit rows", "why: frame")
    rows.refuses("no frames", "why --of b0 circuit none", "why: frame", none="")
    rows.refuses("a name before a frame", "why --of no --frame 7 circuit rows", "why: name")
    rows.refuses("a faulty circuit", "why --of b0 cycle rows", "circuit: cycle 2")
    rows.refuses("a faulty stimulus", "why --of b0 circuit faulty", "stimulus: length of line 1", faulty="1\n")
    rows.refuses("a faulty witness", "why --witness circuit faulty", "witness: text", faulty="1\nb0\n\n1\n.\n")
    rows.refuses("a property that is not there", "why --witness circuit faulty", "witness: property",
                 faulty="1\nb1\n\n11\n.\n")
    rows.refuses("a stimulus in place of a witness", "why --witness circuit rows", "witness: text")
    rows.refuses("over the cells of a bench", "why --of 0 many deep", "bench: limit", deep="\n" * 17)
    rows.fails("no circuit", "why --of b0 nowhere rows", "circuit")
    rows.fails("no stimulus", "why --of b0 circuit nowhere", "stimulus")
    rows.fails("no witness", "why --witness circuit nowhere", "witness")


# ---- circuits at random

def circuit_at_random(rng):
    """A circuit in text with names, some of them of vectors."""
    inputs, latches, gates = rng.randrange(5), rng.randrange(1, 6), rng.randrange(15)
    greatest = inputs + latches + gates
    variables = rng.sample(range(1, greatest + 1), greatest)
    defined = [0, *variables[:inputs + latches]]

    def one():
        return 2 * rng.choice(defined) + rng.randrange(2)

    ands = []
    for variable in variables[inputs + latches:]:
        ands.append(f"{2 * variable} {one()} {one()}")
        defined.append(variable)
    rng.shuffle(ands)
    lits = [2 * variable for variable in variables]
    latch_lines = [f"{lit} {one()} {rng.choice((0, 1, lit))}" for lit in lits[inputs:inputs + latches]]
    constraints = rng.randrange(3)
    body = [*lits[:inputs], *latch_lines, *(one() for _ in range(3 + 2 + constraints)), *ands]
    for letter, count in (("i", inputs), ("l", latches), ("o", 3), ("b", 2)):
        first = rng.choice((0, 0, 1, 3))
        for position in range(count):
            if rng.randrange(4):
                words = rng.choice((f"q[{position + first + rng.choice((0, 0, 0, 1))}]",
                                    f"q[{position + first}] w[{rng.randrange(4)}]", f"n{position} again",
                                    f"a\t{position}"))
                body.append(f"{letter}{position} {letter}_{words}")
    head = f"aag {greatest} {inputs} {latches} 3 {gates} 2 {constraints}"
    return "".join(f"{line}\n" for line in [head, *body])


def at_random(rows, tally):
    for number in range(150):
        rng = random.Random(f"why {number}")
        text = circuit_at_random(rng)
        parts = Parts(text)
        run = ["".join(rng.choices("01x", (4, 4, 1), k=len(parts.inputs))) for _ in range(rng.randrange(1, 6))]
        start = "".join(rng.choice("01x") if reset > 1 or rng.randrange(10) == 0 else str(reset) for _, _,
                        reset in parts.latches)
        write("circuit", text)
        write("rows", "".join(f"{row}\n" for row in run))
        write("witness", "\n".join(["1", "b1", start, *run, "."]) + "\n")
        for name in rng.sample(sorted(Names(text, parts).known), 3):
            frame, depth = rng.randrange(len(run)), rng.choice((None, 0, 1, 2))
            options = ["--of", name, "--frame", str(frame), *(["--depth", str(depth)] if depth is not None else [])]
            note = f"case {number}, {options}"
            rows.gives(f"{note}, a stimulus", ["why", *options, "circuit", "rows"],
                       explained(text, resets_of(parts), run, Asked(name, frame, depth)))
            rows.gives(f"{note}, a witness", ["why", *options, "--witness", "circuit", "witness"],
                       explained(text, start, run, Asked(name, frame, depth)))
        named_alone(rows, tally, number, text, run)


def named_alone(rows, tally, number, text, run):
    """A stimulus's witness with the values alone that its explanation names."""
    made = rows.run("witness", "circuit", "rows")
    if made == refused("witness: no run"):
        return
    _, bad, start, *kept = made.out.decode().split("\n")[:-2]
    write("reached", made.out)
    said = rows.run("why", "--witness", "circuit", "reached")
    write("named", "\n".join(["1", bad, *values_named(text, said.out.decode(), start, kept), "."]) + "\n")
    verdict = rows.run("check", "circuit", "named").out.decode()
    tally.check(f"why: case {number}, the named values alone", re.match("confirmed|constraint", verdict),
                (said, verdict))


# The frame that the causes of a line are of, or the starts.
HEAD = re.compile(r".* at \d+, by (?P<before>\d+)|.* at (?P<last>\d+)|at 0, by (?P<starts>reset|start)")


def values_named(text, said, start, rows):
    """The start and the rows of a run, with x for each value that no line names. Starts by resets stay."""
    parts = Parts(text)
    signals = {(signal.letter, signal.name): signal for signal in Names(text, parts).signals}
    starts = [value if reset < 2 else "x" for value, (_, _, reset) in zip(start, parts.latches)]
    found = [["x"] * len(row) for row in rows]
    for line in said.splitlines():
        head, _, causes = line.partition(": ")
        at = HEAD.fullmatch(head)
        for word in [] if causes == "always" else causes.split(" "):
            name, _, value = word.rpartition("=")
            if at["starts"]:
                note(signals["l", name], value, start, starts)
            elif ("i", name) in signals:
                frame = int(at["before"] or at["last"])
                note(signals["i", name], value, rows[frame], found[frame])
    return ["".join(starts), *map("".join, found)]


def note(signal, value, given, found):
    """Notes the bits of a signal that a value names."""
    digits = value.partition("'b")[2][::-1]
    for bit, position in enumerate(signal.positions):
        if digits[bit:bit + 1] != "?":
            found[position] = given[position]
