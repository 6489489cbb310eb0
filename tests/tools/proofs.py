"""Properties of Yosys designs by cadical's proofs, beside ABC's opinion. Where ABC's `bmc3` finds a run to a bad state
at a frame, `aig refute` says that it is unreachable within the frames up to it, and never within more, whatever proof
it is given. Where ABC's `pdr` proves that no run reaches it and an induction step of up to 20 frames has a proof, `aig
refute --step` says so of runs of any length, and never where there is a run."""

import os
import re
import shutil
import subprocess
import sys

from library import supervised
from library.plain_reader import in_order, spelled
from library.runs import DESIGNS, EXAMPLES, Ended, write
from tools.external import FORMAL, LOGIC, Tools, Trial, parts_of, with_bad

MOST = 20
SATISFIABLE, UNSATISFIABLE = 10, 20  # cadical's statuses
# Designs whose latches may be uninitialised.
FREE = (f"{EXAMPLES}/queue.v", f"{DESIGNS}/fifo.v", f"{DESIGNS}/unwritten.v", f"{DESIGNS}/shift_register.v")


def proofs(program, tally, _):
    if not shutil.which("cadical"):
        sys.exit("cadical is missing: apt-get install cadical")
    tools = Tools()
    counts = {"reached": 0, "proved": 0, "by induction": 0, "proofs": 0, "refused": 0}
    for name, properties in circuits(tally, tools):
        for place in range(properties):
            Property(Trial(program, tally, tools, counts), f"{name}, property {place}", place).checks()
        tally.check(f"proofs: {name} has properties", properties > 0)
    tally.check("proofs: properties of each kind", min(counts.values()) > 0, counts)
    return (f"{counts['reached']} properties that runs reach, {counts['proved']} that pdr proves, {counts['by induction']} of "
            f"these by induction; {counts['proofs']} proofs taken and {counts['refused']} refused: ")


def circuits(tally, tools):
    """Each circuit in turn as `bad.aig`, with its name and the number of its properties."""
    for design in FORMAL:
        parts = tools.formal_text(design)
        tally.check(f"proofs: yosys {design}", parts is not None, tools.last_lines())
        for place in range(len(parts.outputs) if parts else 0):
            write("bad.aig", spelled(in_order(with_bad(parts, place)), "aig"))
            yield f"{design}, output {place}", 1
    for file in FREE:
        name = os.path.basename(file).removesuffix(".v")
        is_made = tools.yosys(f"read_verilog -sv -formal {file}; prep -flatten -top {name}; async2sync; memory_map; {LOGIC}; "
                              "write_aiger bad.aig")
        tally.check(f"proofs: yosys {name}", is_made, tools.last_lines())
        if is_made:
            yield name, len(parts_of("bad.aig").bad)


class Property:
    """A property of `bad.aig`."""

    def __init__(self, trial, name, place):
        self.program, self.tally, self.tools, self.counts = trial
        self.name, self.place = name, str(place)

    def checks(self):
        reached, is_proved = self.opinion()
        self.counts["reached"] += reached is not None
        self.counts["proved"] += is_proved
        for frames in range(1, MOST + 1):
            is_reached = reached is not None and reached < frames
            status = self.solve("base", frames)
            self.tally.compare(f"proofs: {self.name}, {frames} frames: cadical", status,
                               SATISFIABLE if is_reached else UNSATISFIABLE)
            self.refute(frames, is_reached)
            if self.solve("step", frames, "--step") == UNSATISFIABLE:
                self.induce(frames, is_reached)
                # Beyond the frame that is reached the step may have a proof too, and the base has none.
                if not is_reached:
                    self.tally.check(f"proofs: {self.name}, by induction: pdr", is_proved, "pdr does not prove it")
                    self.counts["by induction"] += 1
                    return
            if is_reached and frames > reached + 3:
                return

    def opinion(self):
        """The frame at which ABC finds a run, if it does, and whether it proves that there is none."""
        write("one.aig", self.program.run("select", "--to", "aig", "--as", "outputs", "--property", self.place,
                                          "bad.aig").out)
        read = "read_aiger one.aig; logic; undc; strash; zero; fold; "
        asserted = re.search(r"was asserted in frame (\d+)\.", self.tools.abc(read + f"bmc3 -F {2 * MOST} -T 20"))
        if asserted:
            return int(asserted[1]), False
        return None, re.search(r"(?m)^Property proved", self.tools.abc(read + "pdr -T 20")) is not None

    def solve(self, name, frames, *options):
        """The status of cadical on a formula. It leaves its proof even where there is no refutation."""
        ended = self.program.run("cnf", "--frames", str(frames), *options, "--property", self.place, "bad.aig")
        write(f"{name}.cnf", ended.out)
        form = ["--no-binary"] if frames % 2 else []
        return supervised.run(["cadical", "-q", *form, f"{name}.cnf", f"{name}.drat"], stdin=subprocess.DEVNULL,
                              stdout=subprocess.DEVNULL, check=False).returncode

    def refute(self, frames, is_reached):
        """The proof of so many frames, and that of fewer where there is a run."""
        files = ["base.drat", "before.drat"] if is_reached and os.path.exists("before.drat") else ["base.drat"]
        for file in files:
            ended = self.program.run("refute", "--frames", str(frames), "--property", self.place, "bad.aig", file)
            self.judged(f"{frames} frames, {file}", ended, is_reached, f"unreachable within {frames}\n")
        if not is_reached:
            os.replace("base.drat", "before.drat")
            shutil.copy("before.drat", "base.drat")

    def induce(self, frames, is_reached):
        ended = self.program.run("refute", "--frames", str(frames), "--property", self.place, "--step", "step.drat",
                                 "bad.aig", "base.drat")
        self.judged(f"{frames} frames and a step", ended, is_reached, "unreachable\n")

    def judged(self, name, ended, is_reached, answer):
        self.counts["refused" if is_reached else "proofs"] += 1
        wanted = Ended(0, answer.encode(), b"")
        is_right = (ended.status == 1 and not ended.out) if is_reached else ended == wanted
        self.tally.check(f"proofs: {self.name}, {name}", is_right, ended)
