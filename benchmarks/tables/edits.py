"""Edits of a bench, beside the C++ program and beside simulating anew; and one job of each kind."""

import os
import re
import subprocess

import plot as drawing
from library import supervised
from library.runs import write
from tables.files import ABC, MILLION, as_binary, kept, missing, resolved
from tables.jobs import COLUMNS, JOBS, MAKING, Job, count, measure_jobs, picked
from tables.runs import Run, head, least, microseconds, row

# Copies of a cipher, bits of half its state, rounds: few cells touched an edit, or nearly all.
CIPHERS = (("sparse", 10, 16, 6), ("sparse", 104, 16, 6), ("sparse", 1041, 16, 6),
           ("dense", 1, 64, 16), ("dense", 1, 64, 156), ("dense", 1, 64, 1562))
EDITED_FRAMES = 16
TOUCHED = 20_000_000  # cells that a load is to touch, about
# The loads, and the ratio that each is meant to have.
EDITS = {"bits": 1.05, "late": 1.05, "rewires": 1.0, "resets": 1.05, "frames": 1.05}
# The circuits of the plot: copies of a cipher, bits of half its state, rounds.
PLOTTED = {"sparse": ((10, 16, 6), (104, 16, 6), (1041, 16, 6), (3900, 16, 6)),
           "dense": ((1, 64, 16), (1, 64, 156), (1, 64, 1562), (1, 64, 6250))}
# Icarus Verilog takes minutes to read more gates.
MOST_OF_ICARUS = 10_000


class Edits:
    """A load of edits on copies of a cipher."""

    def __init__(self, programs, cipher, name):
        self.programs, self.name = programs, name
        self.gates = 10 * cipher[0] * cipher[1] * cipher[2]
        self.cipher = ".".join(map(str, cipher))
        self.words = f"cipher.{self.cipher} zeros.{cipher[0] * cipher[1]}.{EDITED_FRAMES}"
        self.count = 2 * max(5, min(10_000, TOUCHED * 20 // max(self.touched(20), 1) // 2))

    def script(self, count):
        return f"edits.{self.name}.{self.cipher}.{EDITED_FRAMES}.{count}"

    def touched(self, count):
        """How many cells of gates so many edits touch."""
        words = [self.programs.get("tuned"), "touched", *resolved(self.programs, f"{self.words} {self.script(count)}")]
        return int(supervised.run(words, stdout=subprocess.DEVNULL, stderr=subprocess.PIPE, check=True).stderr)

    def cells(self):
        """How many cells an edit touches."""
        return self.touched(self.count) / self.count

    def job(self, kind):
        """The work of a script, without that of an empty one."""
        return Job(f"bench, {self.name}", f"{kind}, {self.gates:,} gates", EDITS[self.name],
                   f"bench {self.words} {self.script(self.count)}", f"bench {self.words} text.empty", self.count, "µs")

    def times(self, times):
        """The least and the median time of an edit, of the C++ program and of `aig`."""
        return [[seconds / self.count for seconds in each] for each in self.job("").measured(self.programs, times)]


def edits(programs, chosen):
    head(f"Edits of {EDITED_FRAMES} frames (processor time an edit; touched cells an edit).", "load", "kind", "gates",
         "edits", "touched", "C++", "aig", "a touched cell: C++", "a touched cell: aig", *COLUMNS[2:])
    for kind, *cipher in CIPHERS:
        if chosen.shapes not in kind:
            continue
        for name in (name for name in EDITS if chosen.jobs in name):
            measured = Edits(programs, cipher, name)
            (tuned, ours), (tuned_median, our_median) = measured.times(chosen.times)
            cells = measured.cells()
            each = [f"{time / cells * 1e9:.1f} ns" if cells else "" for time in (tuned, ours)]
            row(name, kind, f"{measured.gates:,}", f"{measured.count:,}", f"{cells:,.0f}", microseconds(tuned),
                microseconds(ours), *each, f"{ours / tuned:.2f}", f"{our_median / tuned_median:.2f}",
                f"{EDITS[name]:.2f}")


def of_each_kind(programs):
    """One job of each kind."""
    yield from (job for job in JOBS if job.shape not in ("chain", "wide"))
    for kind, *cipher in CIPHERS:
        if 10 * cipher[0] * cipher[1] * cipher[2] <= MILLION / 2:
            yield from (Edits(programs, cipher, name).job(kind) for name in EDITS)
    yield from MAKING


def goals(programs, chosen):
    """One job of each kind."""
    head("Beside the C++ program (processor time).", "job", "load", *COLUMNS)
    measure_jobs(programs, picked(of_each_kind(programs), chosen), chosen.times)
    changing_wave(programs, chosen.times)


def counts(programs, chosen):
    """Instructions and misses of the same jobs. Other work on the machine does not move them."""
    head("Counted by cachegrind: millions of instructions, and of misses of a cache of 1 MB.", "job", "load",
         "instructions: C++", "aig", "aig / C++", "misses: C++", "aig", "aig / C++")
    count(programs, picked(of_each_kind(programs), chosen))


def changing_wave(programs, times):
    """A dump of 1,000 inputs that all change at each frame."""
    words = [[programs.get("aig"), *resolved(programs, f"wave circuit.random.1000.1.1.1 changing.1000.{frames}")]
             for frames in (2000, 0)]
    Run(words[0], "dump")
    whole, none = least(times, *words)
    each = (whole - none) / os.path.getsize("dump") * 1e9
    row("wave, 1,000 inputs that change", "2,000 frames", "", f"{each:.2f} ns a byte", "", "", "2.50 ns")


def verilog(circuit):
    """The circuit in Verilog, by Yosys, with a test bench that gives it zeros for all frames."""
    def make(part):
        Run(["yosys", "-q", "-p", f"read_aiger -clk_name clk -module_name top {circuit}; "
             f"write_verilog -noattr {part}.v"])
        with open(part + ".v", encoding="ascii") as file:
            text = file.read()
        inputs = [each for each in re.findall(r"(?m)^ *input ([^;]+);", text) if each.strip() != "clk"]
        ports = ", ".join([".clk(clk)", *(f".{each.rsplit(' ', 1)[-1]}(1'b0)" for each in inputs)])
        write(part, text + f"module bench; reg clk = 0; top it({ports});\ninitial begin repeat ({EDITED_FRAMES}) "
              "begin #1 clk = 1; #1 clk = 0; end $finish; end endmodule\n")

    return kept(circuit + ".v", make)


def anew(programs, words, gates):
    """Yields the ways to simulate a circuit anew: their names, and their words."""
    circuit, rows = resolved(programs, words)
    yield "aig sim", [programs.get("aig"), "sim", circuit, rows]
    if not missing(ABC):
        yield "ABC, &sim", [ABC, "-q", f"&read {as_binary(programs, circuit)}; &sim -F {EDITED_FRAMES} -W 1"]
    if gates <= MOST_OF_ICARUS and not missing("yosys", "iverilog"):
        Run(["iverilog", "-g2012", "-o", circuit + ".vvp", "-s", "bench", verilog(circuit)])
        yield "Icarus Verilog, vvp", ["vvp", "-n", circuit + ".vvp"]


def plot(programs, chosen):
    """An edit of one input bit, by the workbench, and a whole simulation anew."""
    head(f"An edit of one bit of {EDITED_FRAMES} frames, and simulating all frames anew (processor time).", "circuit",
         "gates", "how", "time")
    series = {}

    def note(name, kind, gates, seconds):
        series.setdefault(f"{name} ({kind})", []).append((gates, seconds))
        row(kind, f"{gates:,}", name, microseconds(seconds))

    for kind, cipher in ((kind, cipher) for kind, ciphers in PLOTTED.items() for cipher in ciphers):
        measured = Edits(programs, cipher, "bits")
        for name, seconds in zip(("an edit, C++", "an edit, aig bench"), measured.times(chosen.times)[0]):
            note(name, kind, measured.gates, seconds)
        for name, words in anew(programs, measured.words, measured.gates) if kind == "sparse" else ():
            note(f"anew, {name}", "any", measured.gates, *least(min(chosen.times, 3), words))
    if chosen.svg:
        write(chosen.svg, drawing.drawn(series, "gates", "time of an edit of one input bit").encode())
