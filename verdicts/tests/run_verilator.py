#!/usr/bin/env python3
"""Tests of the reader of Verilog without Yosys, aig_verdicts.verilator. Parts that need Verilator or Icarus Verilog are left
out where they are missing. --all, --count, --mutants and --seed try more than the gate does."""

import os
import re
import subprocess
import sys

from paths import PYTHONPATH
from aig_verdicts.verilator import probe
from library import runs
from verilator import changes, constructs, mutants, stops, truth
from verilator.shared import need


def probed(_, tally, __):
    """A Verilator has to read the probe as the standard says, at its first use alone."""
    need("verilator")
    made = changes.Probed()
    tally.compare("the probe", made.faults()[0], [])
    os.environ["XDG_CACHE_HOME"] = os.path.abspath("empty")
    asked = []
    for _ in range(2):
        probe.ensure(lambda: asked.append(1) or made.faults()[1], "verilator")
    tally.compare("asked once", len(asked), 1)


def command(program, tally, _):
    """The command line: its help, a circuit with words, and a source that is not read."""
    def ran(*words):
        settings = {**os.environ, "PYTHONPATH": PYTHONPATH}
        return subprocess.run([sys.executable, "-m", "aig_verdicts.verilator", *words], capture_output=True, text=True,
                              check=False, env=settings, timeout=600)

    tally.check("help", "run` does not ask it yet" in ran("--help").stdout)
    need("verilator")
    with open("t.sv", "w", encoding="utf-8") as file:
        file.write("module s(input clk, d, output reg q);\nalways @(posedge clk) q <= d ^ `V;\nalways @* a: assert (q);\n"
                   "endmodule\nmodule t(input clk);\nendmodule\n")
    made = ran("--top", "s", "-D", "V=1'b1", "--outputs", "--btor2", "t.btor", "t.sv")
    tally.compare("its end", (made.returncode, made.stderr), (0, ""))
    tally.check("a circuit", re.match(r"aag \d+ \d+ 1 1 \d+ 1 0\n", made.stdout), made.stdout[:99])
    tally.check("its words", "next" in open("t.btor", encoding="utf-8").read())
    runs.write("circuit.aag", made.stdout)
    tally.compare("the program reads it", program.run("info", "circuit.aag").status, 0)
    other = ran("t.sv")
    tally.check("two tops", other.returncode == 1 and other.stderr.startswith("not read: ") and not other.stdout, other.stderr)


def options(parser):
    parser.add_argument("--all", action="store_true", help="all changes of meaning")
    parser.add_argument("--count", type=int, default=truth.COUNT, metavar="N", help="so many random programs")
    parser.add_argument("--mutants", type=int, default=mutants.COUNT, metavar="N", help="so many changed dumps")
    parser.add_argument("--seed", type=int, default=truth.FIRST, metavar="N",
                        help="the first random program, and which changes")


PARTS = {"probe": probed, "command": command, "gates": stops.gates, "stops": stops.stops, "names": stops.named,
         "truth": truth.designs, "everyday": constructs.everyday, "random": truth.randoms, "meaning": changes.meaning, "dumps": mutants.dumps,
         "recorded": constructs.recorded}

if __name__ == "__main__":
    runs.main(__doc__, PARTS, ("recorded",), options)
