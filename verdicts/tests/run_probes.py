#!/usr/bin/env python3
"""Small pieces of Verilog (designs/probes), each of one thing that Verilog has. The circuit of a probe has the values
of Icarus Verilog in each frame, under random inputs, or aig-verdicts rejects the probe by its line.

A paragraph of a file is a probe, with its own modules. A line `// rejected: TEXT` in it has a text of the message, and
`// noted: TEXT` one of a note, which says that the circuit may have other values. `// rejected after 0.52: TEXT` is for
versions of Yosys that lose assignments.

usage: run_probes.py [PROGRAM] [FILE_OR_PROBE ..]. It needs yosys and iverilog."""

import os
import re
import shutil
import sys
import tempfile
from collections import namedtuple
from concurrent.futures import ThreadPoolExecutor
from functools import lru_cache
from pathlib import Path

from paths import TESTS as HERE
import simulated
from aig_verdicts.reading.design import Reading, read_verilog
from aig.tools import Stop, ToolFailed, version
from aig_verdicts.reading.versions import loses_assignments

PROBES = HERE / "designs" / "probes"
DATA = [PROBES / "probe.vh", *PROBES.glob("*.hex"), *PROBES.glob("*.bin")]
WIDTHS = {"clk": 1, "c": 1, "a": 6, "b": 6, "s": 6, "t": 6, "i": 3, "j": 3}
PORTS = [simulated.Port(*it) for it in WIDTHS.items()]
SIGNED = "stj"
FRAMES, SEED = 100, 1
FREE_CLOCK = "time between changes of clocks"
FALLING = "falling"  # the file of probes whose clock falls

# name      of its module
# rejected  a text of the message, where it is rejected
# noted     a text of a note, where its circuit may have other values
# lines     the first line of its text in the file, and the one after it
Probe = namedtuple("Probe", "name rejected noted lines")


@lru_cache()
def rejections():
    """The words before the text of a message, for this version of Yosys."""
    return "rejected(?: after 0.52)?" if loses_assignments(version("yosys", Stop())) else "rejected"


def probes_in(text):
    lines = text.split("\n")
    begin = 0
    for end, line in enumerate([*lines, ""]):
        if not line.strip():
            part = "\n".join(lines[begin:end])
            name = re.search(r"^`PROBE\((\w+)\)", part, re.M)
            rejected, noted = (re.search(rf"^ *// {word}: (.*)", part, re.M) for word in (rejections(), "noted"))
            if name:
                yield Probe(name[1], rejected and rejected[1], noted and noted[1], (begin, end))
            begin = end + 1


def without(text, probes):
    """The text with empty lines in place of these probes."""
    lines = text.split("\n")
    for probe in probes:
        begin, end = probe.lines
        lines[begin:end] = [""] * (end - begin)
    return "\n".join(lines)


def top(probes):
    """A module with an instance of each probe."""
    ranges = {it: f"[{it.width - 1}:0] " * (it.width > 1) for it in PORTS}
    inputs = ", ".join(f"input {'signed ' * (it.name in SIGNED)}{ranges[it]}{it.name}" for it in PORTS)
    ports = ", ".join(f".{it.name}({it.name})" for it in PORTS)
    instances = [f"{it.name} {it.name}({ports});" for it in probes]
    return "\n".join([f"module probes({inputs});", *instances, "always @* assert (c || !c);", "endmodule", ""])


def read(path, text, probes, folder):
    """The design of these probes, whose text the folder then has."""
    for data in DATA:
        shutil.copy(data, folder)
    files = [Path(folder, path.name), Path(folder, "probes.v")]
    files[0].write_text(text)
    files[1].write_text(top(probes))
    return read_verilog(files, Reading("probes"), Stop())


def compared(path, design, folder):
    """The differences from Icarus Verilog, at most one for each name, and the names that have values."""
    circuit = simulated.Circuit(design.circuit)
    edge = "free" if any(FREE_CLOCK in note for note in design.notes) else "fall" if path.stem == FALLING else "rise"
    words = list(simulated.stimulus(PORTS, FRAMES, SEED))
    if edge != "free":
        words = [{**it, "clk": int(edge == "fall")} for it in words]
    waves, said = simulated.simulated(folder, [path.name, "probes.v"], PORTS, words, edge)
    if waves is None:
        return [f"Icarus Verilog: {said}"], set()
    found, seen = simulated.compared(circuit, waves, PORTS, words, SEED)
    return [f"{it.name} is {it.simulated} in frame {it.frame}, and {it.circuit} in the circuit" for it in found], seen


def own(name, probe):
    """Whether a signal is one of a probe, and none of its inputs."""
    return name.startswith(f"{probe.name}.") and re.split(r"[.\[]", name)[1] not in [port.name for port in PORTS]


def wrong_together(path, text, probes):
    """What is wrong of the probes of a file that agree: they are one design."""
    every = list(probes_in(text))
    with tempfile.TemporaryDirectory() as folder:
        try:
            design = read(path, without(text, [it for it in every if it not in probes]), probes, folder)
        except ToolFailed as failed:
            return [f"rejected: {failed}"]
        differences, seen = compared(path, design, folder)
    return differences + [f"{it.name}: nothing is compared" for it in probes if not any(own(name, it) for name in seen)]


def wrong_alone(path, text, probe):
    """What is wrong of a probe that is rejected, or that has a note."""
    with tempfile.TemporaryDirectory() as folder:
        try:
            design = read(path, without(text, [it for it in probes_in(text) if it != probe]), [probe], folder)
            said, wanted = "\n".join(design.notes), probe.noted
        except ToolFailed as failed:
            said, wanted = str(failed), probe.rejected
    begin, end = probe.lines
    places = [int(it) for it in re.findall(rf"{re.escape(path.name)}:(\d+)", said)]
    if not wanted or wanted not in said or not any(begin < it <= end for it in places):
        return [f"{probe.name} says {said!r}"]
    return []


def check(task):
    path, probes = task
    text = path.read_text()
    if probes[0].rejected or probes[0].noted:
        return path, probes, wrong_alone(path, text, probes[0])
    return path, probes, wrong_together(path, text, probes)


def tasks(words):
    """The probes of each file that agree, together, and each of the others."""
    for path in sorted(PROBES.glob("*.*v")):
        chosen = [it for it in probes_in(path.read_text()) if not words or path.stem in words or it.name in words]
        agree = [it for it in chosen if not it.rejected and not it.noted]
        yield from [(path, agree)] * bool(agree)
        yield from ((path, [it]) for it in chosen if it not in agree)


if __name__ == "__main__":
    words = sys.argv[1:]
    if words and os.path.isfile(words[0]):
        os.environ["AIG_PROGRAM"] = os.path.abspath(words.pop(0))
    missing = [it for it in ("yosys", "iverilog") if not shutil.which(it)]
    if missing:
        print(f"probes: all left out, for there is no {' and no '.join(missing)}")
        sys.exit(0)
    count = failed = 0
    with ThreadPoolExecutor(min(4, os.cpu_count() or 1)) as pool:
        for path, probes, wrong in pool.map(check, tasks(words)):
            count += len(probes)
            failed += len(wrong)
            for line in wrong:
                print(f"FAILED: {path.name}: {line}", flush=True)
    print(f"probes: {count} compared with Icarus Verilog or rejected, {failed} failed")
    sys.exit(failed > 0)
