"""Traces of Yosys: `yosys-witness` makes witnesses of those of its own model checker, which asks another solver and
knows no AIGER, and `check` confirms them. A reduced one becomes a trace, and the same witness again."""

import os
import shutil

from library.runs import DESIGNS, EXAMPLES, Ended, LeftOut, contents, write
from tools.external import Tools

# Designs, and the frames of the shortest run that violates an assertion. It reaches property 0.
FAILING = {f"{EXAMPLES}/queue.v": 11, f"{DESIGNS}/credit.v": 6}
CONFIRMED = Ended(0, b"confirmed\n", b"")


def traces(program, tally, _):
    for name in ("yosys-witness", "yosys-smtbmc", "z3"):
        if not shutil.which(name):
            raise LeftOut(f"{name} is missing: apt-get install yosys python3-click z3")
    tools = Tools()
    for file, frames in FAILING.items():
        top = os.path.basename(file).removesuffix(".v")
        tools.yosys(f"read_verilog -sv -formal {file}; prep -flatten -top {top}; async2sync; memory_map; write_smt2 -wires {top}.smt2; "
                    "opt -full; techmap; opt -fast; dffunmap; aigmap; opt_clean; "
                    f"write_aiger -zinit -symbols -ywmap {top}.ywmap {top}.aig")
        tools.run("yosys-smtbmc", "-s", "z3", "-t", "20", "--dump-yw", "found.yw", f"{top}.smt2")
        tools.run("yosys-witness", "yw2aiw", "found.yw", f"{top}.ywmap", "found.wit")
        tally.compare(f"traces: {top}", program.run("check", f"{top}.aig", "found.wit"), CONFIRMED)
        tally.compare(f"traces: {top}: frames", len(contents("found.wit").splitlines()) - 4, frames)
        write("needed.wit", program.run("reduce", f"{top}.aig", "found.wit").out)
        tools.run("yosys-witness", "aiw2yw", "needed.wit", f"{top}.ywmap", "needed.yw")
        tools.run("yosys-witness", "yw2aiw", "needed.yw", f"{top}.ywmap", "back.wit")
        tally.compare(f"traces: {top}: reduced, there and back", contents("back.wit"), contents("needed.wit"))
