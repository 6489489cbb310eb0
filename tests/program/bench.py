"""Rows of `aig bench`: lines of a script and their replies, refusals, and which file a failure names."""

from library.circuits import write_all
from library.runs import EXAMPLES, EXPECTED
from program.rows import Rows

# What is run, the circuit, the stimulus, the script and the replies.
REPLIES = (
    ("a value before and after an edit", "two_gates", "11\n01\n", "v 0 8\ns 0 1 0\nv 0 8\n", "1\nok\n0\n"),
    ("negation, unknown, a later frame, out of range, no command", "two_gates", "11\n01\n",
     "v 0 9\ns 0 0 x\nv 0 8\nv 1 8\nv 0 10\nq\n", "0\nok\nx\n0\nno 3\nbad\n"),
    ("lines that are no command", "two_gates", "11\n01\n", "\nv 00 8\nv 0  8\nv 0 4294967296\ns 0 0 2\nt \n",
     "bad\n" * 6),
    ("a number of 400 digits", "two_gates", "11\n01\n", f"v 0 {'9' * 400}\n", "bad\n"),
    ("a last line without its end", "two_gates", "11\n01\n", "v 0 8\nv 0 8", "1\nbad\n"),
    ("an empty script", "two_gates", "11\n01\n", "", ""),
    ("frames and inputs that are not there", "two_gates", "11\n01\n",
     "s 2 0 1\ns 0 2 1\ns 2 2 1\nv 2 10\nv 2 8\nv 0 10\n", "no 6\nno 7\nno 6\nno 3\nno 6\nno 3\n"),
    ("traces", "one_gate", "11\n", "t\ns 0 0 x\nt\n", " 11 1 \n.\nok\n x1 x \n.\n"),
    ("no frames", "one_gate", "", "t\nv 0 6\n", ".\nno 6\n"),
    ("an undefined variable", "gap", "1\n", "v 0 3\nv 0 4\n", "0\nno 4\n"),
    ("more lines that are no command", "two_gates", "11\n01\n", "+\nw 6 2\n+ 12\nq\n", "bad\n" * 4),
    ("edits that are no command", "two_gates", "11\n01\n", "- \nr 4 2\nw 6 2 2 2\n+ 1 1\n+  11\nw 6 2 \n", "bad\n" * 6),
    ("long rows", "two_gates", "11\n01\n", f"+ {'01x' * 2000}\n+ {'1' * 6000}z\n-\n-\n-\n",
     "no 8\nbad\nok\nok\nno 9\n"),
    ("edits, and a line that is no command", "two_gates", "11\n01\n", "w 6 2 2\nr 2 1\n+ 11\n-\nu \nv 0 8\n",
     "ok\nno 2\nok\nok\nbad\n1\n"),
    ("a gate that is rewired", "two_gates", "11\n01\n", "v 0 8\ns 0 1 0\nv 0 8\nw 6 2 2\nv 0 8\n", "1\nok\n0\nok\n1\n"),
    ("refused edits", "two_gates", "11\n",
     "w 2 0 0\nw 9 2 2\nw 6 10 2\nw 6 8 2\nr 6 0\ns 1 2 1\ns 0 2 1\n+ 111\n+ 111z\n"
     "v 5 10\nv 5 8\nv 0 8\ns 0 1 0\nv 0 6\n",
     "no 1\nno 1\nno 3\nno 5\nno 2\nno 6\nno 7\nno 8\nbad\nno 3\nno 6\n1\nok\n0\n"),
    ("a cycle that is no more one", "two_gates", "11\n", "w 6 8 2\nv 0 6\nw 8 2 4\nw 6 8 2\nv 0 6\n",
     "no 5\n1\nok\nok\n1\n"),
    ("unused variables", "unused", "1\n", "w 4 2 14\nw 4 16 2\nv 9 2\nv 0 5\nw 10 14 14\nv 0 4\n",
     "no 4\nno 3\nno 4\n1\nok\n1\n"),
    ("frames added to none", "one_gate", "", "-\nu\nv 0 6\n+ 11\n+ 1\n+ 11", "no 9\nno 9\nno 6\nok\nno 8\nbad\n"),
    ("a reset", "feedback", "1\n1\n", "t\nr 4 1\nt\nu\n",
     "x 1 x x\nx 1 x x\n.\nok\n1 1 1 1\n1 1 1 1\n.\naag 4 2 0 2 2\n2\n4\n1\n6\n6 2 1\n8 6 4\n.\n"),
    ("as many cells as a bench may have, and more", "many", "\n" * 16, "+ \n-\n+ \n", "no 10\nok\nok\n"),
    ("as many cells as a bench may have", "many", "\n" * 16, "v 15 0\nv 15 8388606\nv 15 8388608\n", "0\nno 4\nno 3\n"),
    ("a gate that is appended, and an output that is set", "two_gates", "11\n01\n",
     "g 9 2\nv 0 10\nv 1 10\no 0 10\nw 6 10 2\nt\no 1 2\no 1 12\ng 12 0\nu\n",
     "ok\n0\n0\nok\nno 5\n 11 0 \n 01 0 \n.\nno 13\nno 3\nno 3\n"
     "aag 10 4 0 2 6\n2\n4\n6\n8\n14\n20\n10 4 2\n12 10 2\n14 13 2\n16 8 6\n18 16 6\n20 19 6\n.\n"),
    ("lines that append no gate and set no output", "two_gates", "11\n01\n",
     "g 9\no 0\ng 9 2 2\no 0 2 2\ng 09 2\no 0 x\ng 4294967296 0\no 0 4294967296\nG 9 2\ng  9 2\no 0 2 \n",
     "bad\n" * 11),
    ("the greatest numbers, and a negated output", "two_gates", "11\n01\n",
     "o 4294967295 2\no 4294967295 4294967295\ng 4294967295 4294967295\no 0 9\nt\n",
     "no 13\nno 3\nno 3\nok\n 11 0 \n 01 1 \n.\n"),
    ("a variable over the limit", "many", "", "g 0 0\n", "no 10\n"),
    ("an undefined side, an undefined output and one that is not there", "unused", "", "g 2 14\no 0 2\no 7 14\n",
     "no 4\nno 4\nno 13\n"),
    ("a gate with as many cells as a bench may have, and one with more", "wide", "\n" * 65536,
     "g 0 1\ng 0 1\nv 65535 2047\nv 65535 2048\n-\ng 2047 1\n", "ok\nno 10\n1\nno 3\nok\nno 10\n"),
    ("cells on both sides of a word", "two_words", "0\n", "v 0 130\ns 0 0 1\nv 0 130\n-\n+ x\nv 0 130\n",
     "1\nok\n0\nok\nok\nx\n"),
    ("the greatest numbers", "two_gates", "11\n01\n", "v 4294967295 8\nv 0 4294967295\ns 4294967295 4294967295 x\n",
     "no 6\nno 3\nno 6\n"),
    ("a line that is longer than a block", "two_gates", "11\n01\n", f"v 0 8{' ' * 5000}\nv 0 8\n", "bad\n1\n"),
    ("of several faults the one of least number", "gap", "1\n", "v 1 4\nv 1 6\nv 1 2\n", "no 4\nno 3\nno 6\n"),
    ("an edit reaches later frames", "chain", "1\n0\n0\n", "v 2 6\ns 0 0 x\nv 2 6\nt\n",
     "1\nok\nx\n00 x 0 x0\nx0 0 0 0x\n0x 0 x 00\n.\n"),
    ("as many rows as a stimulus may have", "empty", "\n" * 65536, "v 65535 1\nv 65536 1\n", "1\nno 6\n"),
    ("unrolled as it was rewired", "two_gates", "11\n", "u\nw 8 2 4\nw 6 8 2\nu\n",
     "aag 4 2 0 1 2\n2\n4\n8\n6 4 2\n8 6 2\n.\nok\nok\naag 4 2 0 1 2\n2\n4\n6\n6 4 2\n8 6 2\n.\n"),
    ("unrolled for a frame that was added", "two_gates", "11\n", "w 8 2 4\nv 0 8\n+ 10\nv 1 6\nu\nv 0 8\n",
     "ok\n1\nok\n0\naag 8 4 0 2 4\n2\n4\n6\n8\n12\n16\n10 4 2\n12 4 2\n14 8 6\n16 8 6\n.\n1\n"),
    ("a guarded bad literal", "guarded", "11\n11\n", "u\n",
     "aag 8 4 0 0 4 2\n2\n4\n6\n8\n12\n16\n10 4 1\n12 10 2\n14 10 8\n16 14 6\n.\n"),
    ("unrolled with justice and fairness", "live", "1\n", "u\n-\nu\n", "no 12\nok\nno 9\n"),
    ("unrolled over its limit", "inputs", f"{'0' * 64}\n" * 65536, "u\n-\n", "no 10\nok\n"),
    ("a trace, and bits that are not there", "two_gates", "11\n01\n", "t\ns 2 2 1\ns 0 2 1\n",
     " 11 1 \n 01 0 \n.\nno 6\nno 7\n"),
    ("lines that are no command, behind one row", "two_gates", "11\n",
     "\nv 00 8\nv 0  8\nv 0 4294967296\ns 0 0 2\nw 6 2\n+ 12\n+\n- \nr 4 2\nw 6 2 2 2\nt ", "bad\n" * 12),
    ("the greatest numbers, and a row of 37 characters", "two_gates", "11\n",
     f"w 4294967295 4294967295 4294967295\nw 4294967295 4294967295 42949672950\n+ {'1' * 36}z\n", "no 1\nbad\nbad\n"),
    ("a start at each value", "feedback", "1\n1\n", "r 4 1\nu\nr 4 0\nu\nr 4 x\nu\n",
     "ok\naag 4 2 0 2 2\n2\n4\n1\n6\n6 2 1\n8 6 4\n.\nok\naag 4 2 0 2 2\n2\n4\n0\n6\n6 2 0\n8 6 4\n.\n"
     "ok\naag 5 3 0 2 2\n2\n4\n6\n6\n8\n8 6 2\n10 8 4\n.\n"),
    ("right sides that close a cycle, and that do not", "two_gates", "11\nx0\n",
     "w 6 8 2\nw 6 2 9\nw 8 8 2\nw 8 2 4\nw 6 8 2\nv 1 2\nv 1 4\no 0 3\nt\n",
     "no 5\nno 5\nno 5\nok\nok\nx\n0\nok\n 11 0 \n x0 x \n.\n"),
    ("a frame of no inputs, and away with it", "toggle", "\n", "+ \nt\n-\nt\n",
     "ok\n0  01 1\n1  10 0\n.\nok\n0  01 1\n.\n"),
    ("an output that is an appended gate", "two_gates", "11\n01\n",
     "g 9 4\no 0 10\nt\ng 12 0\no 9 12\no 1 2\ng 9\no 0 10 \n",
     "ok\nok\n 11 0 \n 01 1 \n.\nno 3\nno 3\nno 13\nbad\nbad\n"),
)

# What is run, the circuit, the stimulus and the refusal.
REFUSALS = (
    ("a refused stimulus", "two_gates", "11\n1z\n", "stimulus: character in line 2"),
    ("a refused circuit", "cycle", "11\n01\n", "circuit: cycle 2"),
    ("more cells than a bench may have", "many", "\n" * 17, "bench: limit"),
    ("a short row", "two_gates", "11\n1\n", "stimulus: length of line 2"),
    ("a wrong character wins over a wrong length", "two_gates", "11\n1z1\n", "stimulus: character in line 2"),
    ("an unfinished row wins over a wrong character", "two_gates", "11\n1z", "stimulus: unfinished"),
    ("more rows than a stimulus may have", "empty", "\n" * 65537, "stimulus: limit"),
)

# Files that are missing or are directories, by the part that the message names. The program opens files in argument
# order, and reads them in that order when all are open.
FAILURES = (
    ("circuit", ("nowhere rows script", "nowhere nowhere script", "nowhere rows nowhere", "nowhere nowhere nowhere",
                 "nowhere . script", "nowhere rows .", ". rows script", ". . script", ". rows .", ". . .",
                 "nowhere . nowhere")),
    ("stimulus", ("two_gates nowhere script", "two_gates nowhere nowhere", "two_gates nowhere .", ". nowhere script",
                  ". nowhere nowhere", ". nowhere .", "cycle nowhere nowhere", "cycle . script", "two_gates . script",
                  "two_gates . .", "cycle . .")),
    ("script", ("two_gates rows nowhere", "two_gates rows .", ". rows nowhere", "two_gates . nowhere", ". . nowhere",
                "cycle rows nowhere", "cycle . nowhere")),
)


def bench(program, tally, _):
    rows = Rows("bench", program, tally)
    write_all()
    for name, circuit, stimulus, script, replies in REPLIES:
        rows.gives(name, f"bench {circuit} rows script", replies, rows=stimulus, script=script)
    for name, circuit, stimulus, text in REFUSALS:
        rows.refuses(name, f"bench {circuit} rows script", text, rows=stimulus, script="v 0 8\n")
    ends_of_words(rows)
    traces_of_neighbours(rows)
    levels_far_apart(rows)
    rows.refuses("a circuit wins over a stimulus", "bench reads_itself two_gates script", "circuit: cycle 2")
    example = [f"{EXAMPLES}/{name}" for name in ("cyclic.aag", "two_gates.stim", "two_gates.script")]
    rows.refuses("a refused example", ["bench", *example], "circuit: cycle 2", rows="11\n01\n")
    for design in ("two_gates", "counter", "fifo"):
        files = [f"{EXAMPLES}/{design}.{ending}" for ending in ("aag", "stim", "script")]
        rows.copies(design, ["bench", *files], f"{EXPECTED}/{design}.replies")
    for part, runs in FAILURES:
        for files in runs:
            rows.fails(f"the {part}'s file is told of {files}", f"bench {files}", part)


def falling_chain(greatest, inputs=1):
    """Inputs at the greatest variables, and below them gates down to variable 1, each the negation of the one above."""
    first = greatest + 1 - inputs
    named = "".join(f"{2 * at}\n" for at in range(first, greatest + 1))
    gates = "".join(f"{2 * at} {2 * at + 3} {2 * at + 3}\n" for at in range(1, first))
    return f"aag {greatest} {inputs} 0 0 {first - 1}\n{named}{gates}"


def ends_of_words(rows):
    """An edit, a new frame and appended gates go through all cells, wherever a word of cells ends."""
    for greatest in (31, 32, 33, 62, 63, 64, 65, 95, 96, 97, 127, 128, 129, 130):
        rows.gives(f"a chain of {greatest} variables", "bench chain rows script",
                   f"{1 - greatest % 2}\nok\n{greatest % 2}\nok\nx\n", chain=falling_chain(greatest), rows="0\n",
                   script="v 0 2\ns 0 0 1\nv 0 2\n+ x\nv 1 2\n")
    for greatest, gates in ((9, 7), (9, 8), (31, 7), (31, 8), (32, 15), (32, 16), (63, 15), (63, 16), (64, 23),
                            (64, 24)):
        others = "1" * (greatest - gates - 1)
        rows.gives(f"a chain of {gates} gates among {greatest} variables", "bench chain rows script",
                   f"{gates % 2}\nok\n{1 - gates % 2}\n{(others or '1')[-1]}\nok\nx\n{(others or 'x')[-1]}\n",
                   chain=falling_chain(greatest, greatest - gates), rows=f"0{others}\n",
                   script=f"v 0 2\ns 0 0 1\nv 0 2\nv 0 {2 * greatest}\n+ x{others}\nv 1 2\nv 1 {2 * greatest}\n")
    appended = "".join(f"g {2 * at + 1} {2 * at + 1}\n" for at in range(1, 131))
    rows.gives("a chain of 130 appended gates", "bench wire rows script", "ok\n" * 131 + "1\n0\n",
               wire="aag 1 1 0 0 0\n2\n", rows="0\n", script=appended + "s 0 0 1\nv 0 262\nv 0 260\n")


def traces_of_neighbours(rows):
    """A trace shows inputs and latches side by side, wherever a word of cells or a piece of 256 characters ends."""
    turned = {"0": "1", "1": "0", "x": "x"}
    for inputs, latches in ((1, 30), (1, 31), (31, 1), (32, 32), (33, 64), (64, 63), (65, 200), (255, 256), (257, 255),
                            (300, 513)):
        stimulus, state, trace = [("01x" * inputs)[at:at + inputs] for at in range(2)], "0" * latches, ""
        for row in stimulus:
            after = "".join(turned[row[at % inputs]] for at in range(latches))
            trace += f"{state} {row} {turned[row[-1]]} {after}\n"
            state = after
        circuit = f"aag {inputs + latches} {inputs} {latches} 1 0\n"
        circuit += "".join(f"{2 * at + 2}\n" for at in range(inputs))
        circuit += "".join(f"{2 * (inputs + at) + 2} {2 * (at % inputs) + 3}\n" for at in range(latches))
        for command in ("bench neighbours rows script", "sim neighbours rows"):
            ends = ".\n" if command.startswith("bench") else ""
            rows.gives(f"a trace of {inputs} inputs and {latches} latches", command, trace + ends,
                       neighbours=circuit + f"{2 * inputs + 1}\n", rows="\n".join(stimulus) + "\n", script="t\n")


def levels_far_apart(rows):
    """An edit at level 1 goes through gates at the levels 5, 70, 9000 and 9001, whose other sides stand in a chain."""
    sides = ((1, 1), (18004, 17994), (18004, 17865), (18004, 5), (18006, 18010))
    script = "".join(f"g {left} {right}\n" for left, right in sides)
    rows.gives("levels far apart", "bench chain rows script", "ok\n" * 5 + "1\nok\n0\n0\n0\n0\n",
               chain=falling_chain(9001), rows="1\n",
               script=script + "v 0 18012\nw 18004 0 0\nv 0 18012\nv 0 18010\nv 0 18008\nv 0 18006\n")
