"""Rows of `aig sim`: stimuli and their traces, refused lines, and which file a failure names."""

from library.circuits import write_all
from library.runs import EXAMPLES, EXPECTED
from program.rows import Rows

# What is run, the circuit, the stimulus and the trace.
TRACES = (
    ("a latch that negates itself", "toggle", "\n\n\n", "0  01 1\n1  10 0\n0  01 1\n"),
    ("an uninitialised latch", "uninitialised_toggle", "\n", "x  xx x\n"),
    ("unknown inputs", "one_gate", "x0\nx1\n", " x0 0 \n x1 x \n"),
    ("nothing is folded", "a_and_not_a", "x\n", " x x \n"),
    ("AND of all values", "one_gate", "00\n01\n0x\n10\n11\n1x\nx0\nx1\nxx\n",
     " 00 0 \n 01 0 \n 0x 0 \n 10 0 \n 11 1 \n 1x x \n x0 0 \n x1 x \n xx x \n"),
    ("NOT of all values", "negates", "0\n1\nx\n", " 0 1 \n 1 0 \n x x \n"),
    ("no frames", "one_gate", "", ""),
    ("an empty circuit", "empty", "\n\n", "   \n   \n"),
    ("an empty circuit and no frames", "empty", "", ""),
    ("more frames than a bench may have", "one_gate", "11\n" * 65537, " 11 1 \n" * 65537),
)

# What is run, the second line of the stimulus and the refusal; the trace of the first line was written.
REFUSALS = (
    ("a wrong character", "1z\n", "character in line 2"),
    ("a wrong character past the width", "1111111z\n", "character in line 2"),
    ("a wrong character in a line that is too long", "1z1\n", "character in line 2"),
    ("a short line", "1\n", "length of line 2"),
    ("an unfinished line", "1z1111", "unfinished"),
    ("an empty line", "\n", "length of line 2"),
    ("a row and a CR", "11\r\n", "character in line 2"),
    ("a row and a further character", "110\n", "length of line 2"),
    ("a row and no LF", "11", "unfinished"),
    ("a row of one character less and two LFs", "1\n\n", "length of line 2"),
)

# Files that are missing or are directories, by the part that the message names.
FAILURES = (
    ("circuit", ("nowhere rows", "nowhere nowhere", "nowhere .", ". rows", ". .")),
    ("stimulus", ("one_gate nowhere", "one_gate .", "cycle nowhere", ". nowhere")),
)

# Inputs, latches and outputs at which a trace line, or a field of one, is spelled in another way: lines of 63, 64 and
# 65 bytes, and fields of 31, 32 and 33 literals, and of 256 and 257.
WIDTHS = ((20, 10, 19), (20, 10, 20), (20, 10, 21), (59, 0, 0), (60, 0, 0), (61, 0, 0), (0, 30, 0), (0, 31, 0),
          (31, 31, 31),
          (32, 32, 32), (33, 33, 33), (1, 256, 31), (31, 257, 256))


def wide(inputs, latches, outputs):
    """A circuit of so many inputs, latches and outputs, two rows for it, and their trace. A latch takes the value of an
    input, or its own, and every second one the negation; an output shows what a latch takes."""
    lits = [2 * (1 + i) for i in range(inputs + latches)]
    states = lits[inputs:]
    nexts = [(lits[i % inputs] if inputs else lit) + i % 2 for i, lit in enumerate(states)]
    shown = [(nexts[i % latches] if latches else lits[i % inputs]) ^ (i // 7 % 2) for i in range(outputs)]
    text = [f"aag {inputs + latches} {inputs} {latches} {outputs} 0", *map(str, lits[:inputs])]
    text += [f"{lit} {after} {'01'[i % 3 == 1] if i % 3 < 2 else lit}" for i,
             (lit, after) in enumerate(zip(states, nexts))]
    text += map(str, shown)
    rows = ["".join("01x"[(i * i + frame) % 3] for i in range(inputs)) for frame in range(2)]
    state, trace = "".join("01x"[i % 3] for i in range(latches)), []
    for row in rows:
        def value(lit, values=row + state):
            value = values[lit // 2 - 1]
            return value if lit % 2 == 0 or value == "x" else "10"[int(value)]
        after = "".join(map(value, nexts))
        trace.append(f"{state} {row} {''.join(map(value, shown))} {after}\n")
        state = after
    return "\n".join(text) + "\n", "".join(row + "\n" for row in rows), "".join(trace)


def sim(program, tally, _):
    rows = Rows("sim", program, tally)
    write_all()
    for name, circuit, stimulus, trace in TRACES:
        rows.gives(name, f"sim {circuit} rows", trace, rows=stimulus)
    for widths in WIDTHS:
        circuit, stimulus, trace = wide(*widths)
        name = "{} inputs, {} latches and {} outputs".format(*widths)
        rows.gives(name, "sim wide rows", trace, wide=circuit, rows=stimulus)
        rows.gives(f"{name}, by `t`", "bench wide rows lines", trace + ".\n", lines="t\n")
    for name, line, text in REFUSALS:
        rows.refuses(name, "sim one_gate rows", f"stimulus: {text}", " 11 1 \n", rows="11\n" + line)
    for cut in range(1, 7):
        stimulus, trace = "11\nx0\n"[:cut], " 11 1 \n x0 0 \n"[:cut // 3 * 7]
        name = f"the first {cut} bytes of two rows"
        if cut % 3 == 0:
            rows.gives(name, "sim one_gate rows", trace, rows=stimulus)
        else:
            rows.refuses(name, "sim one_gate rows", "stimulus: unfinished", trace, rows=stimulus)
    rows.refuses("a refused circuit", "sim cycle rows", "circuit: cycle 2", rows="11\n")
    rows.refuses("a refused circuit wins over a stimulus that cannot be read", "sim cycle .", "circuit: cycle 2")
    for design in ("two_gates", "counter", "fifo"):
        files = [f"{EXAMPLES}/{design}.{ending}" for ending in ("aag", "stim")]
        rows.copies(design, ["sim", *files], f"{EXPECTED}/{design}.trace")
    for part, runs in FAILURES:
        for files in runs:
            rows.fails(f"the {part}'s file is told of {files}", f"sim {files}", part)
