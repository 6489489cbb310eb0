"""Rows of `aig unroll`: unrolled circuits with known bytes, refusals, and the outputs of unrolled designs."""

import itertools
import os

from library import reference
from library.circuits import write_all
from library.recipes import make_witness
from library.runs import EXAMPLES, EXPECTED, Ended, contents, input_or_output, write
from program.rows import Rows

# What is unrolled: frames, format, circuit, and what is written.
UNROLLED = (
    ("a latch that negates itself", "3 --to aag toggle", "aag 0 0 0 6 0\n0\n1\n1\n0\n0\n1\n"),
    ("an uninitialised latch", "2 --to aag feedback", "aag 5 3 0 2 2\n2\n4\n6\n6\n8\n8 6 2\n10 8 4\n"),
    ("to binary", "2 --to aig feedback", "aig 5 3 0 2 2\n6\n8\n\x02\x04\x02\x04"),
    ("a guarded bad literal", "2 --to aag guarded",
     "aag 8 4 0 0 4 2\n2\n4\n6\n8\n12\n16\n10 4 1\n12 10 2\n14 10 8\n16 14 6\n"),
    ("a guarded bad literal, to binary", "2 --to aig guarded",
     "aig 8 4 0 0 4 2\n12\n16\n\x06\x03\x02\x08\x04\x02\x02\x08"),
)

REFUSALS = (
    ("no frames", "0 --to aag live", "unroll: no frames"),
    ("justice and fairness", "1 --to aag live", "unroll: liveness"),
    ("justice and fairness before a limit", "65537 --to aag live", "unroll: liveness"),
    ("a variable over its limit", "65536 --to aag inputs", "unroll: limit"),
    ("more frames than there may be", "65537 --to aag toggle", "unroll: limit"),
    ("the greatest number", "4294967295 --to aig toggle", "unroll: limit"),
    ("a refused circuit", "2 --to aag cycle", "circuit: cycle 2"),
    ("a refused circuit before a refused number", "0 --to aag cycle", "circuit: cycle 2"),
)

# What a map says: frames, circuit, and its lines.
MAPS = (
    ("an uninitialised latch", 2, "feedback", "i 0 0 0 \ni 1 1 0 \nl 2 0 \n"),
    ("names", 1, "sections", None),
    ("a latch that starts at 0", 3, "toggle", ""),
    ("inputs and frames", 2, "guarded", "i 0 0 0 \ni 1 0 1 \ni 2 1 0 \ni 3 1 1 \n"),
    ("names and starts", 2, "starts", "i 0 0 0 in\ni 1 0 1 \ni 2 1 0 in\ni 3 1 1 \nl 4 1 \nl 5 3 free one\n"),
    ("12 frames", 12, "bad_input", "".join(f"i {at} {at} 0 \n" for at in range(12))),
    ("12 frames, names and starts", 12, "starts",
     "".join(f"i {2 * at} {at} 0 in\ni {2 * at + 1} {at} 1 \n" for at in range(12))
     + "l 24 1 \nl 25 3 free one\n"),
    ("400 frames", 400, "bad_input", "".join(f"i {at} {at} 0 \n" for at in range(400))),
)
# Two inputs, a latch that counts, one that is free and one that starts at 1; bad where all three are 1, a constraint.
RUN = ("aag 9 2 3 0 4 1 1\n2\n4\n6 18\n8 4 8\n10 8 1\n16\n3\n12 6 8\n14 10 4\n16 12 14\n18 3 4\n")
STARTS = ("aag 6 2 4 0 0 1\n2\n4\n6 2 1\n8 4 8\n10 2\n12 10 12\n12\ni0 in\nl0 not free\nl3 free one\nb0 in\n")


def unroll(program, tally, _):
    rows = Rows("unroll", program, tally)
    write_all()
    for name, words, text in UNROLLED:
        rows.gives(name, f"unroll --frames {words}", text)
    for name, words, fault in REFUSALS:
        rows.refuses(name, f"unroll --frames {words}", fault)
    rows.fails("no file", "unroll --frames 2 --to aag nowhere", "circuit")
    inputs = "".join(f"{2 * variable}\n" for variable in range(1, 4194241))
    rows.gives("the greatest variable", "unroll --frames 65535 --to aag inputs", f"aag 4194240 4194240 0 0 0\n{inputs}")
    for design in ("two_gates", "counter", "fifo"):
        outputs_of_all_frames(rows, design)
    maps(rows)
    recipe(rows)


def maps(rows):
    """Maps of known bytes, and runs that write none."""
    write("starts", STARTS)
    for name, frames, circuit, text in MAPS:
        words = f"--frames {frames} --to aag"
        wanted = rows.program.run("unroll", *words.split(" "), circuit)
        rows.ends(f"map: {name}", f"unroll {words} --map map {circuit}", wanted)
        if text is None:
            rows.tally.check("unroll: map: no unrolling, no map", wanted.status == 1 and not os.path.exists("map"))
        else:
            rows.tally.compare(f"unroll: map: {name}, lines", contents("map"), text.encode())
            os.remove("map")
    rows.ends("map: a folder that is not there", "unroll --frames 2 --to aag --map nowhere/map feedback",
              input_or_output("output"))
    over_its_circuit(rows)
    with open("/dev/full", "wb") as full:
        rows.tally.compare("unroll: map: a full device, no map", rows.program.run(
            "unroll", "--frames", "2", "--to", "aag", "--map", "map", "feedback", stdout=full),
            input_or_output("output", None))
    rows.tally.check("unroll: map: a full device, no map", not os.path.exists("map"))
    rows.ends("map: on a full device", "unroll --frames 2 --to aag --map /dev/full feedback",
              input_or_output("output", UNROLLED[1][2].encode()))


def over_its_circuit(rows):
    """A map that would replace its circuit is refused, under whatever name, and nothing is written."""
    circuit = write("own", UNROLLED[1][2])
    os.link("own", "second_name")
    os.symlink("own", "link")
    for name in ("own", "./own", "second_name", "link"):
        rows.ends(f"map: over its circuit, {name}", f"unroll --frames 2 --to aag --map {name} {circuit}",
                  input_or_output("output"))
    with open("own", "rb") as file:
        ended = rows.program.run("unroll", "--frames", "2", "--to", "aag", "--map", "own", "/dev/stdin", stdin=file)
    rows.tally.compare("unroll: map: over its circuit, which is standard input", ended, input_or_output("output"))
    left = (contents("own"), os.path.islink("link"), [name for name in os.listdir() if name.endswith(".new")])
    rows.tally.compare("unroll: map: over its circuit, which stays", left, (UNROLLED[1][2].encode(), True, []))
    words = ["unroll", "--frames", "2", "--to", "aag"]
    wanted = rows.program.run(*words, "own")
    write("copy", contents("own"))
    ended = rows.program.run(*words, "--map", "copy", "own")
    rows.tally.compare("unroll: map: over a copy of its circuit", ended, wanted)
    rows.tally.check("unroll: map: over a copy of its circuit, which is replaced", contents("copy") != contents("own"))


def recipe(rows):
    """The recipe that makes a witness of a row: of all rows of a circuit, those give one that by the plain simulator
    reach its bad state at some frame, and it is confirmed."""
    write("old.aag", RUN)
    write("unrolled.aag", rows.program.run("unroll", "--frames", "3", "--to", "aag", "old.aag").out)
    parts = reference.Parts(contents("unrolled.aag").decode())
    found = 0
    for values in itertools.product("01", repeat=len(parts.inputs)):
        known = reference.values(parts, [values])[0]
        write("row", "".join(values) + "\n")
        said = make_witness(rows.program, 3)
        is_reached = any(reference.literal(known, literal) == "1" for literal in parts.bad)
        found += is_reached
        name = f"unroll: the witness of {''.join(values)}"
        rows.tally.compare(name, said, "" if is_reached else "aig: witness: no run\n")
        ended = rows.program.run("check", "old.aag", "run.wit")
        rows.tally.compare(f"{name}, checked", ended.out == b"confirmed\n", is_reached)
    rows.tally.check("unroll: rows that reach the bad state", 0 < found < 2 ** len(parts.inputs), found)


def outputs_of_all_frames(rows, design):
    """The outputs of an unrolled design, at one row with all rows and an unknown start, are those of the whole
    trace."""
    lines = contents(f"{EXAMPLES}/{design}.aag").decode().splitlines()
    inputs, latches = map(int, lines[0].split()[2:4])
    states = [line.split() for line in lines[1 + inputs:1 + inputs + latches]]
    unknown = sum(len(state) == 3 and state[0] == state[2] for state in states)
    stimulus = contents(f"{EXAMPLES}/{design}.stim").decode().split("\n")[:-1]
    words = ["unroll", "--frames", str(len(stimulus)), "--to", "aig", f"{EXAMPLES}/{design}.aag"]
    write("unrolled", rows.program.run(*words).out)
    write("rows", "".join(stimulus) + "x" * unknown + "\n")
    ended = rows.program.run("sim", "unrolled", "rows")
    trace = contents(f"{EXPECTED}/{design}.trace").decode().splitlines()
    wanted = "".join(line.split(" ")[2] for line in trace).encode() + b"\n"
    got = b"".join(b"".join(line.split(b" ")[2:3]) + b"\n" for line in ended.out.splitlines())
    rows.tally.compare(f"unroll: {design}, the outputs of all frames", ended._replace(out=got), Ended(0, wanted, b""))
