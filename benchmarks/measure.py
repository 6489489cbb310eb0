#!/usr/bin/env python3
"""Measures the toolkit, mostly beside a tuned C++ program that does the same, and prints tables in Markdown.

Tables:
  goals      one job of each kind beside the ratio that it is meant to have: the table of PERFORMANCE.md
  counts     instructions and misses of these jobs, by cachegrind, whatever else the machine does (some 20 minutes)
  ratios     aig / C++, of conversions, simulations and questions (--jobs and --shapes pick, --list names them)
  edits      aig / C++, of edits of every kind on copies of a cipher
  benches    aig / C++, making a bench of a million gates
  refute     aig / C++, checking proofs that cadical wrote, beside cadical's own time
  hints      checking them in DRAT, and with hints that tests/hints/drat2lrat.cpp adds, also trimmed, beside a C++
             checker of proofs with hints (--jobs picks rows; all take some minutes and 2 GB)
  certified  aig / C++, formulas of certificates, beside `info` of the circuit, and memory beside `cnf --step`
  sizes      aig / C++, how conversions, frames and benches grow from 100,000 to 4,000,000 gates
  memory     the greatest resident sizes of both
  limits     what the machine can do at all, and how far from it each kind of job is
  growth     circuit check, levels and order by the number of gates
  rewires    what a rewire costs by how far it reaches
  grids      both grids of cells side by side
  plot       how the cost of an edit grows with the circuit, beside simulating anew after each edit by `aig sim`, ABC
             and Icarus Verilog, where these are there; --svg FILE draws it
  scale      what one job of each kind takes from 10,000 to 4,000,000 gates; --svg FILE draws it
and, which is no table,
  compare    both programs on broken files (--count N, --seed S) and on --circuits FILE..: the same bytes, messages and
             statuses

It measures the program that --aig names, else the proved crates/aig/out/aig; where that is not there, one is built
without proofs. It needs c++, 1 GB for files and, for growth, grids and what is built without proofs, rt; for counts
valgrind; for refute and hints yosys and cadical, without which these tables have no rows of circuits. What it builds
and makes is put into the folder that --room names, for the next call, else into a temporary one. A time is the
processor time of the whole process, the least of --times runs; where two programs are compared their runs take turns,
so that a disturbance meets both."""

import argparse
import os
import shutil
import subprocess
import sys
import tempfile

sys.path.insert(0, os.path.dirname(os.path.dirname(os.path.abspath(__file__))) + "/tests")
from library import supervised  # noqa: E402
from tables import alone, comparing, edits, growing, jobs, proofs, scale  # noqa: E402
from tables.programs import Programs  # noqa: E402

TABLES = {made.__name__: made for made in (
    edits.goals, edits.counts, jobs.ratios, edits.edits, jobs.benches, proofs.refute, proofs.hints, proofs.certified,
    growing.sizes, growing.memory, growing.limits, alone.growth, alone.rewires, alone.grids, edits.plot,
    scale.scale, comparing.compare)}
OPTIONS = (
    ("tables", {"nargs": "+", "choices": list(TABLES), "metavar": "TABLE"}, None),
    ("--aig", {}, "the program that is measured"),
    ("--room", {}, "the folder of what is built and made"),
    ("--times", {"type": int, "default": 5}, None),
    ("--jobs", {"default": ""}, "of ratios, edits and hints, the jobs whose names hold this"),
    ("--shapes", {"default": ""}, "of ratios and edits, the shapes whose names hold this"),
    ("--svg", {"type": os.path.abspath}, "of plot and scale, the picture that they draw"),
    ("--list", {"action": "store_true"}, "names the jobs of ratios alone"),
    ("--count", {"type": int, "default": 300}, "of compare, how many cases"),
    ("--seed", {"type": int, "default": 1}, "of compare"),
    ("--circuits", {"type": os.path.abspath, "nargs": "+", "default": []}, "of compare, files to convert too"),
)


def machine(programs, chosen):
    with open("/proc/cpuinfo", encoding="utf-8") as file:
        model = next(line.split(":")[1].strip() for line in file if line.startswith("model name"))
    with open("/proc/loadavg", encoding="ascii") as file:
        busy = file.read().split()[0]
    said = supervised.run(["c++", "--version"], stdout=subprocess.PIPE, check=True, text=True).stdout
    compiler = said.splitlines()[0]
    print(f"{model}, {os.cpu_count()} cores, load {busy} at the start. The least of {chosen.times} runs.")
    print(f"Program measured: {programs.kind()}. C++ by {compiler}.", flush=True)


def main():
    parser = argparse.ArgumentParser(description=__doc__, formatter_class=argparse.RawDescriptionHelpFormatter)
    for name, settings, text in OPTIONS:
        parser.add_argument(name, help=text, **settings)
    chosen = parser.parse_args()
    programs = Programs(chosen.aig and os.path.abspath(chosen.aig))
    room = os.path.abspath(chosen.room or tempfile.mkdtemp())
    os.makedirs(room, exist_ok=True)
    os.chdir(room)
    try:
        if not chosen.list:
            machine(programs, chosen)
        for name in chosen.tables:
            TABLES[name](programs, chosen)
    finally:
        if not chosen.room:
            shutil.rmtree(room)


if __name__ == "__main__":
    main()
