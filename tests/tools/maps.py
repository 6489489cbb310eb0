"""Rows that ABC's `sat` finds for unrolled designs of Yosys, each made a witness by the recipe of examples/README.md:
each is confirmed."""

import os
import re

from library.plain_reader import spelled
from library.recipes import make_witness
from library.runs import Ended, contents, write
from tools.external import FORMAL, Tools, Trial, parts_of, with_bad

FRAMES = 12


def maps(program, tally, _):
    tools = Tools()
    counts = {"found": 0, "free": 0}
    for design in FORMAL:
        parts = tools.formal_text(design)
        if parts is None:
            tally.check(f"maps: yosys {design}", False, tools.last_lines())
            continue
        for place in range(len(parts.outputs)):
            for is_free in (False, True):
                counts["free"] += is_free * of_output(Trial(program, tally, tools, counts), f"{design}, output {place}",
                                                      started(with_bad(parts, place), is_free))
    tally.check("maps: rows were found, some with free latches", counts["found"] > counts["free"] > 0, counts)
    return f"{counts['found']} rows, {counts['free']} of them for circuits with free latches: "


def started(parts, is_free):
    """The circuit, or one in which every second latch may start at any value."""
    if not is_free:
        return parts
    latches = [(state, following, state if place % 2 else reset)
               for place, (state, following, reset) in enumerate(parts.latches)]
    return parts._replace(latches=latches)


def of_output(trial, name, parts):
    """Checks the witnesses of all frames at which ABC finds a row; how many there are."""
    program, tally, tools, counts = trial
    write("old.aag", spelled(parts, "aag"))
    ended = program.run("unroll", "--frames", str(FRAMES), "--to", "aag", "old.aag")
    tally.check(f"maps: {name}", ended.status == 0, ended.err)
    write("unrolled.aag", ended.out)
    whole = parts_of("unrolled.aag")
    found = 0
    for frame, literal in enumerate(whole.bad):
        write("frame.aig", spelled(whole._replace(outputs=[literal], bad=[]), "aig"))
        if os.path.exists("row"):
            os.remove("row")
        if not re.search(r"(?m)^SATISFIABLE", tools.abc("read_aiger frame.aig; sat; write_cex row")):
            continue
        found += 1
        write("row", contents("row").rstrip() + b"\n")
        make_witness(program, FRAMES)
        tally.compare(f"maps: {name}, frame {frame}", program.run("check", "old.aag", "run.wit"),
                      Ended(0, b"confirmed\n", b""))
    counts["found"] += found
    return found
