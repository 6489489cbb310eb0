"""Reads and writes that fail, one in each run, where each call moves one byte: so a run fails at each place of its
files and of its results. A write may also take no byte. Each such run ends with status 3 and names the part whose call
failed. After a failed write exactly the bytes before it were written; before a failing read of a script or a
stimulus all lines that were read are answered."""

from typing import List, NamedTuple, Tuple

from faults.refusing import Refusing
from library.circuits import TEXTS, write_all
from library.runs import Ended, input_or_output, write

ONE_GATE, TWO_GATES = TEXTS["one_gate"].encode(), TEXTS["two_gates"].encode()
BAD_INPUT, CYCLE = TEXTS["bad_input"].encode(), TEXTS["cycle"].encode()
SECTIONS = TEXTS["sections"].encode()
# No run reaches the bad state; propagation alone does not show it.
NEVER = b"aag 9 2 0 0 7 1\n2\n4\n18\n6 5 3\n8 4 3\n10 5 2\n12 4 2\n14 9 7\n16 13 11\n18 16 14\n"
FACTS = (b"format aag\nvariables 3\ninputs 2\nlatches 0\noutputs 1\ngates 1\nbad 0\nconstant 0\nconstraints 0\nimpossible 0\n"
         b"justice 0\nfairness 0\nuninitialised 0\nresets 0\nlevels 1\nfanout 1\nsymbols 0\ncomment 0\nready no\n")
UNROLLED = b"aag 8 4 0 2 4\n2\n4\n6\n8\n12\n16\n10 4 2\n12 10 2\n14 8 6\n16 14 6\n"

# A latch that keeps 0, as the property; a certificate that claims it, and one that claims the contrary.
KEPT = b"aag 1 0 1 0 0 1\n2 2\n2\n"
CLAIM, WRONG_CLAIM = b"aag 1 1 0 0 0 1\n2\n2\ni0 = 2\n", b"aag 1 1 0 0 0 1\n2\n2\ni0 = 3\n"
NO_SUCH = b"aag 1 1 0 0 0\n2\ni0 = 4\n"
STRENGTHENED = b"aag 2 0 1 2 1 1\n2 2\n2\n2\n5\n4 3 3\n"
CUT = b"aag 4 3 0 1 1\n2\n4\n8\n6\n6 8 1\n"
INDUCTION = (b"c aig cnf --certificate --property 0 \nc l 2 0 \nc b -3 0\nc b -4 1\np cnf 4 9\n-1 0\n-3 -4 0\n3 -2 0\n"
             b"-3 -2 0\n-3 -2 0\n3 2 2 0\n-4 -2 0\n-4 -2 0\n4 2 2 0\n")

HEADER = b"""$version aig $end
$timescale 1 ns $end
$scope module inputs $end
$var wire 1 ! i0 $end
$var wire 1 " i1 $end
$upscope $end
$scope module outputs $end
$var wire 1 # o0 $end
$upscope $end
$enddefinitions $end
"""

WITNESS_HEADER = b"""$version aig $end
$timescale 1 ns $end
$scope module inputs $end
$var wire 1 ! i0 $end
$upscope $end
$scope module bad $end
$var wire 1 " b0 $end
$upscope $end
$enddefinitions $end
"""

class Case(NamedTuple):
    """A run: its arguments, and its files in the order in which they are read, each with the part that the message
    names if a read of it fails; those that no argument names come after them. Then come the part of a failed write, the
    status and the fault of the run where no call fails, and its results in pieces. There is one for each line of the
    last file where that is streamed, and one for its end, else one. Last comes what is written before a line is
    read."""

    command: str
    files: List[Tuple[str, bytes]]
    write_part: str
    status: int
    fault: bytes
    pieces: List[bytes]
    header: bytes = b""


RUNS = (
    ("bench", [("circuit", TWO_GATES), ("stimulus", b"11\n01\n"), ("script", b"v 0 8\ns 0 1 0\nv 0 8\n")],
     "script", 0, b"", [b"1\n", b"ok\n", b"0\n"]),
    ("bench", [("circuit", TWO_GATES), ("stimulus", b"11\n"), ("script", b"w 6 8 2\n+ 1z\nt\n+ 11\nu\nv 0")],
     "script", 0, b"", [b"no 5\n", b"bad\n", b" 11 1 \n.\n", b"ok\n", UNROLLED + b".\n", b"bad\n"]),
    ("sim", [("circuit", ONE_GATE), ("stimulus", b"11\nx0\n1x\n")], "stimulus",
     0, b"", [b" 11 1 \n", b" x0 0 \n", b" 1x x \n"]),
    ("sim", [("circuit", ONE_GATE), ("stimulus", b"11\n1z\n")], "stimulus",
     1, b"aig: stimulus: character in line 2\n", [b" 11 1 \n"]),
    ("sim", [("circuit", ONE_GATE), ("stimulus", b"11\n1")], "stimulus",
     1, b"aig: stimulus: unfinished\n", [b" 11 1 \n"]),
    ("wave", [("circuit", ONE_GATE), ("stimulus", b"11\nx1\n")], "stimulus", 0, b"",
     [b'#0\n$dumpvars\n1!\n1"\n1#\n$end\n', b"#1\nx!\nx#\n", b"#2\n"], HEADER),
    ("wave", [("circuit", ONE_GATE), ("stimulus", b"11\n1z\n")], "stimulus",
     1, b"aig: stimulus: character in line 2\n", [b'#0\n$dumpvars\n1!\n1"\n1#\n$end\n'], HEADER),
    ("toaig --to aag", [("circuit", TWO_GATES)], "output", 0, b"", [TWO_GATES]),
    ("toaig --to aig", [("circuit", ONE_GATE)], "output", 0, b"", [b"aig 3 2 0 1 1\n6\n\x02\x02"]),
    ("toaig --to aag", [("circuit", b"aig 3 2 0 1 1\n6\n\x02\x02")], "output",
     0, b"", [b"aag 3 2 0 1 1\n2\n4\n6\n6 4 2\n"]),
    ("toaig --to aag", [("circuit", CYCLE)], "output", 1, b"aig: circuit: cycle 2\n", [b""]),
    ("unroll --frames 2 --to aag", [("circuit", TWO_GATES)], "output", 0, b"", [UNROLLED]),
    ("unroll --frames 2 --to aig", [("circuit", TWO_GATES)], "output",
     0, b"", [b"aig 8 4 0 2 4\n12\n16\n\x06\x02\x02\x08\x06\x02\x02\x08"]),
    ("cnf --frames 2", [("circuit", BAD_INPUT)], "output", 0, b"",
     [b"c aig cnf --frames 2 --property 0 \nc i 2 0 0 \nc i 3 1 0 \nc b 2 0\nc b 3 1\np cnf 3 2\n-1 0\n2 3 0\n"]),
    ("cnf --frames 2 --property 1", [("circuit", BAD_INPUT)], "output", 1, b"aig: cnf: property\n", [b""]),
    ("refute --frames 1", [("circuit", NEVER), ("proof", b"2 0")], "output", 0, b"", [b"unreachable within 1\n"]),
    ("refute --frames 1", [("circuit", NEVER), ("proof", b"24 2 0 2 21 22 15 16 5 8 0\n25 0 24 2 21 18 19 11 14 0")],
     "output", 0, b"", [b"unreachable within 1\n"]),
    ("refute --frames 1", [("circuit", BAD_INPUT), ("proof", b"0\n")], "output", 1, b"aig: proof: step 1\n", [b""]),
    ("info", [("circuit", ONE_GATE)], "output", 0, b"", [FACTS]),
    ("info", [("circuit", CYCLE)], "output", 1, b"aig: circuit: cycle 2\n", [b""]),
    ("select --to aag --property 0", [("circuit", SECTIONS)], "output", 0, b"",
     [b"aag 3 1 1 0 1 1 1\n2\n4 6 4\n6\n4\n6 4 2\ni0 in\nl0 state\nc\nhi\n"]),
    ("select --to aag --property 1", [("circuit", SECTIONS)], "output", 1, b"aig: select: property\n", [b""]),
    ("cut --to aag --cuts cuts", [("cuts", b"f 6\n"), ("circuit", ONE_GATE)], "output", 0, b"", [CUT]),
    ("cut --to aag --cuts cuts", [("cuts", b"r 6\n"), ("circuit", ONE_GATE)], "output", 1, b"aig: cuts: line 1\n",
     [b""]),
    ("info --names", [("circuit", SECTIONS)], "output", 0, b"",
     [b"i 0 2 in\nl 0 4 state\no 0 6 \nb 0 6 \nc 0 4 \nj 0 - \nf 0 4 \n"]),
    ("info --names", [("circuit", CYCLE)], "output", 1, b"aig: circuit: cycle 2\n", [b""]),
    ("check", [("circuit", BAD_INPUT), ("witness", b"1\nb0\n\n1\n.\n")], "output", 0, b"", [b"confirmed\n"]),
    ("check", [("circuit", BAD_INPUT), ("witness", b"1\nb0\n\nx\n.\n")], "output", 1, b"", [b"not bad\n"]),
    ("reduce", [("circuit", BAD_INPUT), ("witness", b"1\nb0\n\n0\n1\n.\n")], "output", 0, b"", [b"1\nb0\n\nx\n1\n.\n"]),
    ("reduce", [("circuit", BAD_INPUT), ("witness", b"1\nb0\n\n0\n.\n")], "output", 1, b"", [b"not bad\n"]),
    ("why --of b0", [("circuit", BAD_INPUT), ("stimulus", b"1\n")], "output", 0, b"", [b"", b"b0=1 at 0: i0=1\n"]),
    ("why --witness", [("circuit", BAD_INPUT), ("witness", b"1\nb0\n\n0\n1\n.\n")], "output", 0, b"",
     [b"b0=1 at 1: i0=1\n"]),
    ("why --of b1", [("circuit", BAD_INPUT), ("stimulus", b"1\n")], "output", 1, b"aig: why: name\n", [b""]),
    ("check --trace", [("circuit", BAD_INPUT), ("witness", b"1\nb0\n\nx\n.\n")], "output",
     1, b"", [b" x  \nnot bad\n"]),
    ("check --trace --properties", [("circuit", BAD_INPUT), ("witness", b"1\nb0\n\nx\n.\n")], "output",
     1, b"", [b" x   x \nnot bad\n"]),
    ("wave --witness", [("circuit", BAD_INPUT), ("witness", b"1\nb0\n\nx\n1\n.\n")], "output", 0, b"",
     [WITNESS_HEADER + b'#0\n$dumpvars\nx!\nx"\n$end\n#1\n1!\n1"\n#2\n']),
    ("wave --witness", [("circuit", BAD_INPUT), ("witness", b"1\nb1\n\nx\n.\n")], "output",
     1, b"aig: witness: property\n", [b""]),
    ("strengthen --to aag --certificate certificate", [("circuit", KEPT), ("certificate", CLAIM)], "output", 0, b"",
     [STRENGTHENED]),
    ("strengthen --to aig --certificate certificate", [("circuit", KEPT), ("certificate", NO_SUCH)], "output",
     1, b"aig: certificate: symbol i0\n", [b""]),
    ("strengthen --to aag --property 1 --certificate certificate", [("circuit", KEPT), ("certificate", CLAIM)],
     "output",
     1, b"aig: strengthen: property\n", [b""]),
    ("cnf --certificate certificate", [("circuit", KEPT), ("certificate", CLAIM)], "output", 0, b"", [INDUCTION]),
    ("cnf --certificate certificate", [("circuit", KEPT), ("certificate", CYCLE)], "output",
     1, b"aig: certificate: cycle 2\n", [b""]),
    ("refute --certificate certificate", [("circuit", KEPT), ("certificate", CLAIM), ("proof", b"2 0")], "output",
     0, b"", [b"unreachable\n"]),
    ("refute --certificate certificate", [("circuit", KEPT), ("certificate", WRONG_CLAIM), ("proof", b"2 0\n")],
     "output",
     1, b"aig: proof: step 1\n", [b""]),
    ("witness --certificate certificate --model model",
     [("circuit", KEPT), ("certificate", WRONG_CLAIM), ("model", b"-2 0\n")], "output", 0, b"", [b"1\nb0\n0\n\n.\n"]),
    ("witness --certificate certificate --model model",
     [("circuit", KEPT), ("certificate", CLAIM), ("model", b"-2 0\n")], "output", 1, b"aig: witness: no run\n", [b""]),
)


def calls(program, tally, _):
    beneath = Refusing(program, "refuse_call")
    write_all()
    for run in RUNS:
        each(beneath, tally, Case(*run))


def answered(run, number):
    """Before the read of this number fails: the part of its file, and the results so far."""
    files = run.files
    for part, content in files[:-1]:
        if number <= len(content) + 1:
            return part, b""
        number -= len(content) + 1
    part, content = files[-1]
    is_streamed = part in ("script", "stimulus") and len(files) > 1
    lines = content[:number - 1].count(b"\n") if is_streamed else 0
    return part, run.header + b"".join(run.pieces[:lines])


def each(beneath, tally, run):
    """The run with short reads and writes; then with each of its reads failing, and with each of its writes."""
    command, files, write_part = run.command, run.files, run.write_part
    words = command.split(" ")
    words += [part for part, _ in files if part not in words]
    for part, content in files:
        write(part, content)
    results = run.header + b"".join(run.pieces)
    whole = Ended(run.status, results, run.fault)
    got = beneath.counted(*words, STEP=1, CALL="write")
    tally.compare(f"calls: {command}, a byte written at a time", got, (whole, len(results)))
    got, reads = beneath.counted(*words, STEP=1, CALL="read")
    tally.compare(f"calls: {command}, a byte read at a time", got, whole)
    tally.check(f"calls: {command}, how many reads", reads >= len(files[0][1]), reads)
    for number in range(1, reads + 1):
        wanted = input_or_output(*answered(run, number))
        got = beneath.run(*words, STEP=1, CALL="read", REFUSE=number)
        tally.compare(f"calls: {command}, read {number} of {reads} fails", got, wanted)
    for number in range(1, len(results) + 1):
        wanted = input_or_output(write_part, results[:number - 1])
        got = beneath.run(*words, STEP=1, CALL="write", REFUSE=number)
        tally.compare(f"calls: {command}, write {number} fails", got, wanted)
        got = beneath.run(*words, STEP=1, CALL="write", REFUSE=number, NONE=1)
        tally.compare(f"calls: {command}, write {number} takes none", got, wanted)
