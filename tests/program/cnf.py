"""Rows of `aig cnf`: formulas with known bytes, whether unit propagation refutes them, and refusals."""

from library.circuits import TEXTS, write_all
from library.runs import write
from program.rows import Rows

# A free latch, and one that is not named; names with blanks. The property reads the first input and the last two latches.
STARTS = ("aag 6 2 4 0 0 1\n2\n4\n6 2 1\n8 4 8\n10 2\n12 10 12\n12\ni0 in\nl0 not free\nl3 free one\nb0 in\n")
# A latch that starts at 0 and negates itself, as a bad literal.
TOGGLES = "aag 1 0 1 0 0 1\n2 3\n2\n"
# 64 inputs, one of which is bad, and the same with all as constraints.
INPUTS = "".join(f"{2 * at}\n" for at in range(1, 65))
WIDE, WIDE_KEPT = f"aag 64 64 0 0 0 1\n{INPUTS}2\n", f"aag 64 64 0 0 0 1 64\n{INPUTS}2\n{INPUTS}"

# Two inputs, of which the property reads the second.
SECOND = "aag 2 2 0 0 0 1\n2\n4\n4\ni0 one\ni1 two\n"

# A latch whose next state is the gate, so the gate of the last frame is read by nothing.
LATER = "aag 3 1 1 0 1 1\n2\n4 6\n4\n6 4 2\n"

# What is asked for, the circuit, and what is written.
FORMULAS = (
    ("a bad literal that is a negated input", "--frames 1 negated", "aag 1 1 0 0 0 1\n2\n3\n",
     "c aig cnf --frames 1 --property 0 \n"
     "c i 2 0 0 \nc b -2 0\np cnf 2 2\n-1 0\n-2 0\n"),
    ("no inputs, and constants as bad literals", "--frames 3 toggles", TOGGLES,
     "c aig cnf --frames 3 --property 0 \n"
     "c b 1 0\nc b -1 1\nc b 1 2\np cnf 1 2\n-1 0\n1 -1 1 0\n"),
    ("no latches, and no gates", "--frames 2 --property 1 two", "aag 1 1 0 0 0 2\n2\n2\n3\n",
     "c aig cnf --frames 2 --property 1 \n"
     "c i 2 0 0 \nc i 3 1 0 \nc b -2 0\nc b -3 1\np cnf 3 2\n-1 0\n-2 -3 0\n"),
    ("the constant 0", "--frames 1 constants", "aag 0 0 0 0 0 2\n0\n1\n", "c aig cnf --frames 1 --property 0 \n"
     "c b 1 0\np cnf 1 2\n-1 0\n1 0\n"),
    ("the constant 1", "--property 1 --frames 1 constants", "aag 0 0 0 0 0 2\n0\n1\n",
     "c aig cnf --frames 1 --property 1 \n"
     "c b -1 0\np cnf 1 2\n-1 0\n-1 0\n"),
    ("uninitialised latches, and names", "--frames 2 --property 0 starts", STARTS,
     "c aig cnf --frames 2 --property 0 in\n"
     "c i 2 0 0 in\nc i 3 1 0 in\nc l 4 3 free one\nc b 4 0\nc b 1 1\np cnf 4 2\n-1 0\n4 1 0\n"),
    ("a constraint", "--frames 2 guarded", TEXTS["guarded"],
     "c aig cnf --frames 2 --property 0 \n"
     "c i 2 0 0 \nc i 3 0 1 \nc i 4 1 0 \nc i 5 1 1 \nc b 7 0\nc b 9 1\np cnf 9 14\n-1 0\n7 9 0\n"
     "-6 3 0\n-6 -1 0\n6 -3 1 0\n-7 6 0\n-7 2 0\n7 -6 -2 0\n-8 6 0\n-8 5 0\n8 -6 -5 0\n-9 8 0\n-9 4 0\n9 -8 -4 0\n"),
    ("a gate and an input that the property does not read", "--frames 1 outside",
     "aag 5 3 0 1 2 1\n2\n4\n6\n10\n8\n8 4 2\n10 8 6\n",
     "c aig cnf --frames 1 --property 0 \n"
     "c i 2 0 0 \nc i 3 0 1 \nc b 4 0\np cnf 4 5\n-1 0\n4 0\n-4 3 0\n-4 2 0\n4 -3 -2 0\n"),
    ("an input before those that are read", "--frames 2 second", SECOND,
     "c aig cnf --frames 2 --property 0 \n"
     "c i 2 0 1 two\nc i 3 1 1 two\nc b 2 0\nc b 3 1\np cnf 3 2\n-1 0\n2 3 0\n"),
    ("a gate that a later frame reads", "--frames 2 later", LATER,
     "c aig cnf --frames 2 --property 0 \n"
     "c i 2 0 0 \nc i 3 1 0 \nc b 1 0\nc b 4 1\np cnf 5 5\n-1 0\n1 4 0\n-4 2 0\n-4 1 0\n4 -2 -1 0\n"),
    ("justice and fairness, which are ignored", "--frames 1 sections", TEXTS["sections"],
     "c aig cnf --frames 1 --property 0 \n"
     "c i 2 0 0 in\nc l 3 0 state\nc b 6 0\np cnf 6 11\n-1 0\n6 0\n"
     "-4 3 0\n-4 2 0\n4 -3 -2 0\n-5 3 0\n-5 -1 0\n5 -3 1 0\n-6 5 0\n-6 4 0\n6 -5 -4 0\n"),
)

# A bad state that is the AND of the inputs; a latch that keeps 0; and latches of all three resets, with as bad state
# the AND of the first two, and a gate that it needs only a frame later.
BOTH = "aag 3 2 0 0 1 1\n2\n4\n6\n6 4 2\ni1 a b\n"
KEPT = "aag 1 0 1 0 0 1\n2 2\n2\n"
RESETS = "aag 6 1 3 0 2 1\n2\n4 10 1\n6 4\n8 6 8\n12\n10 8 2\n12 6 4\n"

# What is asked for, the circuit, what is written, and whether unit propagation alone refutes it: then the empty proof
# is enough.
REFUTED = (
    ("a conjunction", "--frames 1 both", BOTH,
     "c aig cnf --frames 1 --property 0 \n"
     "c i 2 0 0 \nc i 3 0 1 a b\nc b 4 0\np cnf 4 5\n-1 0\n4 0\n-4 3 0\n-4 2 0\n4 -3 -2 0\n", False),
    ("a latch that keeps 0", "--frames 1 kept", KEPT,
     "c aig cnf --frames 1 --property 0 \nc b 1 0\np cnf 1 2\n-1 0\n1 0\n", True),
    ("latches of all three resets", "--frames 1 resets", RESETS,
     "c aig cnf --frames 1 --property 0 \n"
     "c i 2 0 0 \nc l 3 2 \nc b 5 0\np cnf 5 5\n-1 0\n5 0\n-5 -1 0\n-5 1 0\n5 1 -1 0\n", True),
    ("induction over latches of all three resets", "--certificate empty resets", RESETS,
     "c aig cnf --certificate --property 0 \n"
     "c i 2 0 0 \nc i 3 1 0 \nc l 4 0 \nc l 5 1 \nc l 6 2 \nc b 8 0\nc b 10 1\np cnf 10 13\n"
     "-1 0\n8 10 0\n-8 4 0\n-8 -5 0\n-7 6 0\n-7 2 0\n7 -6 -2 0\n-8 5 0\n-8 4 0\n8 -5 -4 0\n"
     "-10 7 0\n-10 4 0\n10 -7 -4 0\n", False),
    ("induction over a latch that keeps 0", "--certificate empty kept", KEPT,
     "c aig cnf --certificate --property 0 \n"
     "c l 2 0 \nc b 2 0\nc b 2 1\np cnf 2 3\n-1 0\n2 2 0\n-2 -2 0\n", True),
)

# What is asked for, and the first line of what is written. The circuit has eleven properties.
ELEVEN = "aag 1 1 0 1 0 11\n2\n2\n2\n3\n" + "3\n" * 9 + "o0 seen\nb1 not full\nb10 out\n"
HEADS = (
    ("--frames 12 --property 1 eleven", "c aig cnf --frames 12 --property 1 not full"),
    ("--alive --frames 20 eleven", "c aig cnf --alive --frames 20 "),
    ("--certificate empty --property 10 eleven", "c aig cnf --certificate --property 10 out"),
)

# The formulas of induction steps.
STEPS = (
    ("a step of a conjunction", "--step --frames 1 both", BOTH,
     "c aig cnf --step --frames 1 --property 0 \n"
     "c i 2 0 0 \nc i 3 0 1 a b\nc i 4 1 0 \nc i 5 1 1 a b\nc b 6 0\nc b 7 1\np cnf 7 9\n"
     "-1 0\n-6 0\n7 0\n-6 3 0\n-6 2 0\n6 -3 -2 0\n-7 5 0\n-7 4 0\n7 -5 -4 0\n"),
    ("a step of a latch that keeps its value", "--step --frames 1 kept", KEPT,
     "c aig cnf --step --frames 1 --property 0 \n"
     "c l 2 0 \nc b 2 0\nc b 2 1\np cnf 2 3\n-1 0\n-2 0\n2 0\n"),
    ("a step of a latch that negates itself", "--step --frames 1 toggles", TOGGLES,
     "c aig cnf --step --frames 1 --property 0 \n"
     "c l 2 0 \nc b 2 0\nc b -2 1\np cnf 2 3\n-1 0\n-2 0\n-2 0\n"),
    ("a step of two frames", "--frames 2 --step toggles", TOGGLES,
     "c aig cnf --step --frames 2 --property 0 \n"
     "c l 2 0 \nc b 2 0\nc b -2 1\nc b 2 2\np cnf 2 4\n-1 0\n-2 0\n2 0\n2 0\n"),
    ("a step of inputs, latches and names", "--step --frames 1 starts", STARTS,
     "c aig cnf --step --frames 1 --property 0 in\n"
     "c i 2 0 0 in\nc i 3 1 0 in\nc l 4 2 \nc l 5 3 free one\nc b 5 0\nc b 4 1\np cnf 5 3\n-1 0\n-5 0\n4 0\n"),
    ("a step with a constraint", "--step --frames 1 guarded", TEXTS["guarded"],
     "c aig cnf --step --frames 1 --property 0 \n"
     "c i 2 0 0 \nc i 3 0 1 \nc i 4 1 0 \nc i 5 1 1 \nc b 7 0\nc b 9 1\np cnf 9 15\n-1 0\n-7 0\n9 0\n"
     "-6 3 0\n-6 -1 0\n6 -3 1 0\n-7 6 0\n-7 2 0\n7 -6 -2 0\n-8 6 0\n-8 5 0\n8 -6 -5 0\n-9 8 0\n-9 4 0\n9 -8 -4 0\n"),
)

# The formulas that a run keeps all constraints.
ALIVE = (
    ("constraints and a bad state", "--alive --frames 2 guarded", TEXTS["guarded"],
     "c aig cnf --alive --frames 2 \n"
     "c i 2 0 1 \nc i 3 1 1 \nc b 5 0\nc b 7 1\np cnf 7 14\n-1 0\n7 0\n"
     "-4 2 0\n-4 -1 0\n4 -2 1 0\n-5 4 0\n-5 -1 0\n5 -4 1 0\n-6 4 0\n-6 3 0\n6 -4 -3 0\n-7 6 0\n-7 -1 0\n7 -6 1 0\n"),
    ("constraints without a bad state", "--frames 1 --alive contradicts", "aag 1 1 0 0 0 0 2\n2\n2\n3\ni0 in\nc1 no\n",
     "c aig cnf --alive --frames 1 \n"
     "c i 2 0 0 in\nc b 5 0\np cnf 5 11\n-1 0\n5 0\n"
     "-3 2 0\n-3 -1 0\n3 -2 1 0\n-4 3 0\n-4 -2 0\n4 -3 2 0\n-5 4 0\n-5 -1 0\n5 -4 1 0\n"),
    ("no constraint", "--alive --frames 3 toggles", TOGGLES,
     "c aig cnf --alive --frames 3 \n"
     "c b -1 0\nc b -1 1\nc b -1 2\np cnf 1 2\n-1 0\n-1 0\n"),
    ("properties, which are ignored, and names", "--alive --frames 1 sections", TEXTS["sections"],
     "c aig cnf --alive --frames 1 \n"
     "c i 2 0 0 in\nc l 3 0 state\nc b 6 0\np cnf 6 8\n-1 0\n6 0\n"
     "-5 3 0\n-5 -1 0\n5 -3 1 0\n-6 5 0\n-6 -1 0\n6 -5 1 0\n"),
)

REFUSALS = (
    ("no frames of a run", "--alive --frames 0 guarded", "cnf: no frames"),
    ("a run of more frames than there may be", "--alive --frames 65537 guarded", "cnf: limit"),
    ("a run of the greatest number of frames", "--alive --frames 4294967295 guarded", "cnf: limit"),
    ("a run of a refused circuit", "--alive --frames 0 cycle", "circuit: cycle 2"),
    ("a step of no frames", "--step --frames 0 --property 7 guarded", "cnf: no frames"),
    ("a step without the property", "--step --frames 65536 --property 1 guarded", "cnf: property"),
    ("a step of as many frames as there may be", "--step --frames 65536 bad_input", "cnf: limit"),
    ("a step of the greatest number of frames", "--step --frames 4294967295 bad_input", "cnf: limit"),
    ("a step of a refused circuit", "--step --frames 1 cycle", "circuit: cycle 2"),
    ("no frames", "--frames 0 guarded", "cnf: no frames"),
    ("no frames before no property", "--frames 0 --property 1 guarded", "cnf: no frames"),
    ("no property", "--frames 1 --property 1 guarded", "cnf: property"),
    ("no bad state property at all", "--frames 1 one_gate", "cnf: property"),
    ("no property before a limit", "--frames 65537 --property 1 guarded", "cnf: property"),
    ("the greatest position", "--frames 1 --property 4294967295 guarded", "cnf: property"),
    ("more frames than there may be", "--frames 65537 bad_input", "cnf: limit"),
    ("the greatest number of frames", "--frames 4294967295 bad_input", "cnf: limit"),
    ("a variable over its limit", "--frames 65536 wide_kept", "cnf: limit"),
    ("justice and fairness before a limit", "--frames 65537 sections", "cnf: limit"),
    ("a refused circuit", "--frames 2 cycle", "circuit: cycle 2"),
    ("a refused circuit before no frames", "--frames 0 --property 7 cycle", "circuit: cycle 2"),
)


def cnf(program, tally, _):
    rows = Rows("cnf", program, tally)
    write_all()
    write("wide_bad", WIDE)
    write("wide_kept", WIDE_KEPT)
    write("eleven", ELEVEN)
    for name, words, circuit, text in FORMULAS:
        write(words.split(" ")[-1], circuit)
        rows.gives(name, f"cnf {words}", text)
    for name, words, circuit, text, is_refuted in REFUTED:
        write(words.split(" ")[-1], circuit)
        rows.gives(name, f"cnf {words}", text)
        if is_refuted:
            within = "" if "--certificate" in words else " within 1"
            rows.gives(f"{name}, refuted", f"refute {words} no_proof", f"unreachable{within}\n", no_proof="")
        else:
            rows.refuses(f"{name}, not refuted", f"refute {words} no_proof", "proof: no refutation", no_proof="")
    rows.gives("both parts of an induction", "refute --frames 1 --step no_proof kept no_proof", "unreachable\n")
    for words, head in HEADS:
        written = rows.run("cnf", *words.split(" "))
        tally.compare(f"cnf: the head of {words}", written.out.decode().split("\n")[0], head)
    for name, words, circuit, text in STEPS:
        write(words.split(" ")[-1], circuit)
        rows.gives(name, f"cnf {words}", text)
    for name, words, circuit, text in ALIVE:
        write(words.split(" ")[-1], circuit)
        rows.gives(name, f"cnf {words}", text)
    for name, words, fault in REFUSALS:
        rows.refuses(name, f"cnf {words}", fault)
    rows.fails("no file", "cnf --frames 2 nowhere", "circuit")
    binary(rows)
    many_frames(rows)


def binary(rows):
    """A circuit whose text is renumbered for the binary format has the same formula there."""
    write("sections.aig", rows.program.run("toaig", "--to", "aig", "sections").out)
    rows.gives("a binary circuit", "cnf --frames 1 sections.aig", FORMULAS[-1][3])


def many_frames(rows):
    """The greatest number of frames, in many blocks, also where the property reads one of many inputs."""
    frames = range(65536)
    text = "c aig cnf --frames 65536 --property 0 \n"
    text += "".join(f"c i {at + 2} {at} 0 \n" for at in frames) + "".join(f"c b {at + 2} {at}\n" for at in frames)
    text += "p cnf 65537 2\n-1 0\n" + "".join(f"{at + 2} " for at in frames) + "0\n"
    for name in ("bad_input", "wide_bad"):
        rows.gives(f"the greatest number of frames, {name}", f"cnf --frames 65536 {name}", text)
