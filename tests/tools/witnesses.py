"""Runs of Yosys designs to bad states that ABC finds, each made a witness by the recipe of examples/README.md: each is
confirmed. Then the same with one input value turned at a time: where the plain simulator of library/reference.py finds
the constraints and the bad state at 1 in that run too, it is confirmed, else it is not. Other designs have
uninitialised latches: a queue that overflows, and a memory whose bad states need some of them at 1 and some at 0. Their
runs are models that a SAT solver finds."""

import os

from library import reference
from library.plain_reader import in_order, spelled
from library.recipes import find_witness, solve_witness
from library.runs import DESIGNS, EXAMPLES, Ended, contents, write
from tools.external import FORMAL, LOGIC, Tools, Trial, parts_of, with_bad

# Designs with uninitialised latches, their bad states, and those that no run reaches.
FREE = ((f"{EXAMPLES}/queue.v", 2, {1}), (f"{DESIGNS}/unwritten.v", 4, set()))


def witnesses(program, tally, _):
    tools = Tools()
    counts = {"found": 0, "turned": 0, "still": 0, "free": 0}
    trial = Trial(program, tally, tools, counts)
    for design in FORMAL:
        parts = tools.formal_text(design)
        if parts is None:
            tally.check(f"witnesses: yosys {design}", False, tools.last_lines())
            continue
        for place in range(len(parts.outputs)):
            of_output(trial, f"{design}, output {place}", with_bad(parts, place))
    tally.check("witnesses: values that are turned", counts["found"] > 0 and counts["still"] < counts["turned"], counts)
    for file, bad, unreached in FREE:
        uninitialised(trial, file, bad, unreached)
    return (f"{counts['found']} witnesses; of {counts['turned']} with one value turned {counts['still']} still reach "
            f"the bad state; {counts['free']} witnesses of designs with uninitialised latches: ")


def found(program, tools, number):
    """Whether ABC finds a run of `old.aig` to this property; the recipe makes `run.wit` of it. What the recipe says."""
    for file in ("cex.txt", "run.wit"):
        if os.path.exists(file):
            os.remove(file)
    said = find_witness(program, tools.abc_path, number)
    return os.path.exists("cex.txt"), said


def of_output(trial, name, parts):
    program, tally, tools, counts = trial
    write("bad.aag", spelled(parts, "aag"))
    write("old.aig", spelled(in_order(parts), "aig"))
    is_found, _ = found(program, tools, 0)
    if not is_found:
        print(f"{name}: no run to a bad state was found")
        return
    start, *rows = contents("run.wit").decode().splitlines()[2:-1]
    for circuit in ("bad.aag", "old.aig"):
        counts["found"] += 1
        tally.compare(f"witnesses: {name}, {circuit}", verdict(program, circuit, start, rows), "confirmed")
    watched = reference.Parts(spelled(parts._replace(outputs=[*parts.bad, *parts.constraints], bad=[], constraints=[]),
                                      "aag").decode())
    for frame, row in enumerate(rows):
        for place, value in enumerate(row):
            turned = row[:place] + ("0" if value == "1" else "1") + row[place + 1:]
            other = [*rows[:frame], turned, *rows[frame + 1:]]
            counts["turned"] += 1
            is_reached = reaches(watched, other)
            counts["still"] += is_reached
            got = verdict(program, "bad.aag", start, other)
            is_right = got == "confirmed" if is_reached else got == "not bad" or got.startswith("constraint ")
            tally.check(f"witnesses: {name}, value {place} of frame {frame} turned", is_right, got)


def uninitialised(trial, file, bad, unreached):
    """A design that keeps its uninitialised latches: the recipe with a SAT solver gives a confirmed witness of each bad
    state that a run reaches."""
    program, tally, tools, counts = trial
    name = os.path.basename(file).removesuffix(".v")
    if not tools.yosys(f"read_verilog -sv -formal {file}; prep -flatten -top {name}; async2sync; memory_map; {LOGIC}; "
                       "write_aiger -symbols design.aig"):
        tally.check(f"witnesses: yosys {name}", False, tools.last_lines())
        return
    parts = parts_of("design.aig")
    is_free = any(state == reset for state, _, reset in parts.latches)
    tally.check(f"witnesses: {name} has uninitialised latches", is_free and len(parts.bad) == bad, len(parts.bad))
    for number in range(bad):
        said = solve_witness(program, number)
        wanted = "aig: model: unsatisfiable\n" if number in unreached else ""
        tally.compare(f"witnesses: {name}, property {number}: found or not", said, wanted)
        if number not in unreached:
            counts["free"] += 1
            tally.compare(f"witnesses: {name}, property {number}", program.run("check", "design.aig", "design.wit"),
                          Ended(0, b"confirmed\n", b""))


def verdict(program, circuit, start, rows):
    """The verdict, or how else the run ended."""
    write("witness", "\n".join(["1", "b0", start, *rows, ".\n"]))
    ended = program.run("check", circuit, "witness")
    said = ended.out.decode().strip()
    is_verdict = ended in (Ended(0, b"confirmed\n", b""), Ended(1, ended.out, b""))
    return said if is_verdict else f"status {ended.status}: {ended}"


def reaches(parts, rows):
    """Whether by the plain simulator the outputs after the first are 1 in all frames, and the first in the last."""
    outputs = [line.split(" ")[2] for line in reference.trace(parts, [list(row) for row in rows]).splitlines()]
    return all(set(line[1:]) <= {"1"} for line in outputs) and outputs[-1][0] == "1"
