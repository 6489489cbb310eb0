"""Allocations that are refused, one in each run. The run writes a prefix of what the whole run writes, says that it is
out of memory, and ends with status 3; or it does without, and ends as the whole run does. A script may also answer `no
11` to a line that takes memory, and go on. Then scripts with no memory at all after their beginning: edits take none,
except a fifth and a ninth gate that read a variable, and a gate that is appended."""

import re

from faults.refusing import Refusing
from library.circuits import TEXTS, write_all
from library.definitions import deletions, one_bit
from library.runs import EXAMPLES, Ended, write
from program.proofs import text_of
from program.refute import RENUMBERED

MEMORY = re.compile(rb"aig: ((circuit|stimulus|witness|unroll|cnf|bench|script|select|proof|step proof|model|certificate|strengthen|cut): )?memory\n")
TWO_GATES = [f"{EXAMPLES}/two_gates.{ending}" for ending in ("aag", "stim", "script")]

# Runs of which each allocation is refused in turn.
RUNS = (
    ("bench", ["bench", *TWO_GATES]),
    ("bench that keeps files", ["bench", "--circuit-out", "empty", "--stimulus-out", "kept_rows", *TWO_GATES]),
    ("sim", ["sim", f"{EXAMPLES}/counter.aag", f"{EXAMPLES}/counter.stim"]),
    ("wave", ["wave", f"{EXAMPLES}/counter.aag", f"{EXAMPLES}/counter.stim"]),
    ("toaig to text", ["toaig", "--to", "aag", f"{EXAMPLES}/two_gates.aig"]),
    ("toaig that renumbers", ["toaig", "--to", "aig", f"{EXAMPLES}/two_gates.aag"]),
    ("toaig of all sections", ["toaig", "--to", "aig", "sections"]),
    ("unroll to text", ["unroll", "--frames", "3", "--to", "aag", "guarded_latch"]),
    ("unroll to binary", ["unroll", "--frames", "3", "--to", "aig", "guarded_latch"]),
    ("unroll with a map", ["unroll", "--frames", "3", "--to", "aag", "--map", "map", "guarded_latch"]),
    ("cnf", ["cnf", "--frames", "3", "guarded_latch"]),
    ("check", ["check", f"{EXAMPLES}/wraps.aag", f"{EXAMPLES}/wraps.wit"]),
    ("check with a trace", ["check", "--trace", f"{EXAMPLES}/wraps.aag", f"{EXAMPLES}/wraps.wit"]),
    ("check with properties", ["check", "--trace", "--properties", f"{EXAMPLES}/wraps.aag", f"{EXAMPLES}/wraps.wit"]),
    ("check of a run", ["check", "--alive", "--frames", "3", f"{EXAMPLES}/wraps.aag", f"{EXAMPLES}/wraps.wit"]),
    ("wave of a witness", ["wave", "--witness", f"{EXAMPLES}/wraps.aag", f"{EXAMPLES}/wraps.wit"]),
    ("info", ["info", f"{EXAMPLES}/two_gates.aag"]),
    ("info of all sections", ["info", "sections"]),
    ("names", ["info", "--names", "sections"]),
    ("witness", ["witness", f"{EXAMPLES}/wraps.aag", f"{EXAMPLES}/wraps.stim"]),
    ("witness of a model", ["witness", "--model", "model", "--frames", "2", "guarded"]),
    ("witness of a run", ["witness", "--alive", "--model", "kept_model", "--frames", "2", "guarded"]),
    ("refute", ["refute", "--frames", "1", "never", "own"]),
    ("refute by a proof that deletes", ["refute", "--frames", "3", f"{EXAMPLES}/wraps.aag", f"{EXAMPLES}/wraps.drat"]),
    ("refute by a proof with hints", ["refute", "--frames", "1", "never", "hinted"]),
    ("refute by a long proof with hints", ["refute", "--frames", "1", "never", "long_hinted"]),
    ("refute with a step", ["refute", "--frames", "1", "--step", "step", "never", "proof"]),
    ("reduce", ["reduce", f"{EXAMPLES}/wraps.aag", f"{EXAMPLES}/wraps.wit"]),
    ("why", ["why", "--of", "count", f"{EXAMPLES}/counter.aag", f"{EXAMPLES}/counter.stim"]),
    ("why of a witness", ["why", "--witness", f"{EXAMPLES}/wraps.aag", f"{EXAMPLES}/wraps.wit"]),
    ("cnf of a step", ["cnf", "--step", "--frames", "3", "guarded_latch"]),
    ("cnf of a run", ["cnf", "--alive", "--frames", "3", "guarded_latch"]),
    ("refute of a run", ["refute", "--alive", "--frames", "1", "never_kept", "proof"]),
    ("select", ["select", "--to", "aag", "--property", "0", "--property", "0", "sections"]),
    ("cut", ["cut", "--to", "aag", "--cuts", "cuts", "sections"]),
    ("cut that renumbers", ["cut", "--to", "aig", "--cuts", "cuts", "sections"]),
    ("strengthen", ["strengthen", "--to", "aag", "--certificate", "claims", "--property", "1", "named"]),
    ("strengthen that renumbers", ["strengthen", "--to", "aig", "--certificate", "claims", "named"]),
    ("strengthen by position", ["strengthen", "--to", "aag", "--certificate", "sections", "sections"]),
    ("cnf with a certificate", ["cnf", "--certificate", "claims", "named"]),
    ("refute with a certificate", ["refute", "--certificate", "no_claim", "never", "never_proof"]),
    ("witness of a model with a certificate", ["witness", "--certificate", "claims", "--model", "start", "named"]),
    ("select that renumbers", ["select", "--to", "aig", "--from", "outputs", f"{EXAMPLES}/two_gates.aag"]),
)

# A refutation of it with names that differ in one bit, and a clause of 31 literals that is deleted.
OWN = [*one_bit([97]), *deletions(200)[35:40], (False, [2])]
# One with hints, and a definition that is deleted.
HINTED = "24 -11 2 0 0\n25 -11 3 0 0\n26 11 -2 -3 0 -24 -25 0\n26 d 26 25 24 0\n" + RENUMBERED
# One with many clauses and variables of its own, numbers with gaps, and a long list of each kind.
OWN_LITERALS = " ".join(str(at) for at in range(11, 1011))
MANY_NUMBERS = " ".join(str(at) for at in range(30, 3030, 3))
LONG_HINTED = "".join([
    *(f"{number} {own} 0 0\n" for number, own in zip(range(30, 3030, 3), range(11, 1011))),
    f"3030 {OWN_LITERALS} 0 0\n3040 1011 0 {MANY_NUMBERS} 0\n3040 d {MANY_NUMBERS} 0\n",
    RENUMBERED.replace("27 ", "3050 ").replace("28 ", "3060 ")])

# No run reaches the bad state; propagation alone shows it of no frame.
NEVER = "aag 9 2 0 0 7 1\n2\n4\n18\n6 5 3\n8 4 3\n10 5 2\n12 4 2\n14 9 7\n16 13 11\n18 16 14\n"

# A circuit with names, two properties and gates out of order, and a certificate with an input and a latch of its own, a
# name for each kind of entry, and a constraint that is broken at each start.
NAMED = ("aag 7 2 2 1 2 2 1\n2\n4\n6 10 1\n8 4 8\n9\n10\n9\n3\n10 12 6\n12 4 2\n"
         "i0 req\nl1 state\nb1 oops\no0 seen\nc0 quiet\nc\nby hand\n")
CLAIMS = "aag 5 2 2 1 1 0 1\n2\n4\n6 10 1\n8 3 0\n5\n7\n10 4 2\ni0 = 13\ni1 free\nl0 started\nl1 = 8\no0 claim\nc0 held\n"

# Four gates read an input without memory, so that the fifth takes some: where that is refused, the edits after it see
# the gate as it was, with the levels and the fan-outs of the circuit as it was. So it is with the ninth gate in a
# circuit that has memory for five to eight.
FIFTH = "aag 8 2 0 1 6\n2\n4\n16\n6 4 4\n8 4 4\n10 4 4\n12 0 0\n14 0 0\n16 14 6\n"
NINTH = "aag 12 2 0 1 10\n2\n4\n24\n" + "".join(f"{gate} 4 4\n" for gate in range(6, 24, 2)) + "24 22 6\n"
BEHIND = "ok\n" * 3 + " 10 1 \n.\nok\nno 5\n1\n"


def reading(last):
    """Lines by which the gates from 6 to this one read the first input, and lines behind them."""
    lines = "".join(f"w {gate} 2 2\n" for gate in range(6, last + 2, 2))
    return lines + f"s 0 0 x\nt\nw {last - 2} 4 5\nw {last} 2 2\ns 0 0 1\nt\nw 6 {last} {last}\nw {last} 6 6\nv 0 {last + 2}\n"


def taken(last):
    return "ok\n" * (last // 2 - 1) + " x0 x \n.\n"


def not_taken(last):
    return "ok\n" * (last // 2 - 3) + "no 11\nok\n x0 0 \n.\n"


def unrolled(last):
    """The circuit unrolled after these lines."""
    gates = "".join(f"{gate} 2 2\n" for gate in range(6, last - 4, 2))
    return (f"aag {last // 2 + 1} 2 0 1 {last // 2 - 1}\n2\n4\n{last + 2}\n{gates}{last - 4} 5 4\n{last - 2} 2 2\n"
            f"{last} {last - 2} {last - 2}\n{last + 2} {last} {last - 2}\n.\n")


def replies_of(last):
    return (taken(last) + BEHIND + unrolled(last), not_taken(last) + BEHIND + unrolled(last),
            taken(last) + BEHIND + "no 11\n")


# Gates that are appended. Whether the second one takes memory too is not said.
APPENDED = "g 9 2\nv 0 10\no 0 10\ng 4 10\nv 0 12\nt\nu\nv 0 8\n"
BOTH = "ok\n0\nok\nok\n0\n 11 0 \n.\n"

# Scripts: what they do, circuit, stimulus, lines, the replies one of which each run writes, and those that no run has
# to.
SCRIPTS = (
    ("bench that adds a frame and unrolls", TEXTS["two_gates"], "11\n", "w 8 2 4\nv 0 8\n+ 10\nv 1 6\nu\nv 0 8\n",
     ("ok\n1\nok\n0\naag 8 4 0 2 4\n2\n4\n6\n8\n12\n16\n10 4 2\n12 4 2\n14 8 6\n16 8 6\n.\n1\n",
      "ok\n1\nno 11\nno 6\naag 4 2 0 1 2\n2\n4\n8\n6 4 2\n8 4 2\n.\n1\n",
      "ok\n1\nok\n0\nno 11\n1\n"), ()),
    ("bench that rewires a fifth gate to a variable", FIFTH, "10\n", reading(14) + "u\n", replies_of(14), ()),
    ("bench that rewires a ninth gate to a variable", NINTH, "10\n", reading(22) + "u\n", replies_of(22), ()),
    ("bench that appends gates", TEXTS["two_gates"], "11\n", APPENDED,
     (BOTH + "aag 6 2 0 1 4\n2\n4\n10\n6 4 2\n8 6 2\n10 9 2\n12 10 4\n.\n1\n",
      "no 11\nno 3\nno 3\nno 3\nno 3\n 11 1 \n.\naag 4 2 0 1 2\n2\n4\n8\n6 4 2\n8 6 2\n.\n1\n",
      BOTH + "no 11\n1\n"),
     ("ok\n0\nok\nno 11\nno 3\n 11 0 \n.\naag 5 2 0 1 3\n2\n4\n10\n6 4 2\n8 6 2\n10 9 2\n.\n1\n", )),
)

# Scripts without memory: what they do, circuit, stimulus, lines and replies.
WITHOUT_MEMORY = (
    ("a fifth gate that reads a variable", FIFTH, "10\n", reading(14), not_taken(14) + BEHIND),
    ("a ninth gate that reads a variable", NINTH, "10\n", reading(22), not_taken(22) + BEHIND),
    ("edits", TEXTS["two_gates"], "11\n",
     "w 6 8 2\nv 0 6\nw 8 2 4\nw 6 8 2\nv 0 6\nr 8 1\ns 0 1 x\nt\n+ 11\nu\n-\n-\nv 0 6\n",
     "no 5\n1\nok\nok\n1\nno 2\nok\n 1x x \n.\nno 11\nno 11\nok\nno 9\nno 6\n"),
    ("a gate that is not appended, and an output that is set", TEXTS["two_gates"], "11\n",
     "g 9 2\nv 0 10\no 0 7\no 1 6\nt\nw 6 2 2\nv 0 6\n", "no 11\nno 3\nok\nno 13\n 11 0 \n.\nok\n1\n"),
)


def allocations(program, tally, _):
    beneath = Refusing(program, "refuse_allocation")
    write_all()
    never_kept = NEVER.replace("7 1\n", "7 0 1\n")
    for name, text in (("never", NEVER), ("never_kept", never_kept), ("proof", "2 3 0\n2 0\n"), ("step", "4 0\n"),
                       ("model", "-2 3 4 5 0\n"), ("kept_model", "2 3 0\n"), ("named", NAMED), ("claims", CLAIMS),
                       ("start", "-2 8 9 0\n"),
                       ("no_claim", "aag 0 0 0 0 0\n"), ("never_proof", "-12 2 0\n-12 0\n4 0\n"),
                       ("cuts", "f 4\nf 6\nr 4\nc 0\n"), ("own", text_of(OWN)), ("hinted", HINTED),
                       ("long_hinted", LONG_HINTED)):
        write(name, text)
    for name, words in RUNS:
        each(beneath, tally, name, words)
    for name, circuit, stimulus, script, wanted, others in SCRIPTS:
        each_of(beneath, tally, name, files(circuit, stimulus, script), (wanted, others))
    for name, circuit, stimulus, script, replies in WITHOUT_MEMORY:
        # A run without a script shows how many allocations come before its first line; all after them are refused.
        before = beneath.counted(*files(circuit, stimulus, ""), REFUSE=0)[1]
        ended = beneath.run(*files(circuit, stimulus, script), REFUSE=before + 1, AFTER=1)
        tally.compare(f"allocations: {name}, without memory", ended, Ended(0, replies.encode(), b""))


def files(circuit, stimulus, script):
    """The arguments of a run on these files."""
    for name, text in (("circuit", circuit), ("rows", stimulus), ("script", script)):
        write(name, text)
    return ["bench", "circuit", "rows", "script"]


def refusals(beneath, words):
    """The whole run, and the runs with one allocation refused, each with its number."""
    whole, calls = beneath.counted(*words, REFUSE=0)
    numbers = range(1, calls + 1)
    return whole, [(f"allocation {number} of {calls}", beneath.run(*words, REFUSE=number)) for number in numbers]


def tells_memory(ended):
    return ended.status == 3 and MEMORY.fullmatch(ended.err) is not None


def each(beneath, tally, name, words):
    whole, ends = refusals(beneath, words)
    tally.check(f"allocations: {name}, how many", ends, "the run takes no memory")
    for which, ended in ends:
        is_told = tells_memory(ended) and whole.out.startswith(ended.out)
        tally.check(f"allocations: {name}, {which}", is_told or ended == whole._replace(status=0, err=b""), ended)


def each_of(beneath, tally, name, words, replies_of):
    """The same of a script, whose runs with status 0 write one of the wanted replies or of the others. Of the wanted
    ones each is to be written by some run."""
    wanted, others = replies_of
    seen = set()
    for which, ended in refusals(beneath, words)[1]:
        is_taken = ended.status == 0 and ended.err == b"" and ended.out.decode() in (*wanted, *others)
        seen.add(ended.out.decode() if is_taken else None)
        tally.check(f"allocations: {name}, {which}", is_taken or (tells_memory(ended) and ended.out == b""), ended)
    for replies in wanted:
        tally.check(f"allocations: {name}", replies in seen, f"no run wrote {replies!r}")
