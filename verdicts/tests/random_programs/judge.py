"""What Icarus Verilog says of a random program, and whether aig-verdicts agrees."""

from __future__ import annotations

import enum
import os
import re
import subprocess
from dataclasses import dataclass
from functools import partial
from pathlib import Path
from typing import List

from aig_verdicts.search.task import Bounds, Found, Task
from aig_verdicts.reading.design import Reading, read_verilog
from aig_verdicts.search.search import Search
from aig.tools import Stop, ToolFailed

from .apart import TooLong, apart, run_apart
from .program import SUM_WIDTH, TOP, Program

FILE = "program.v"
# What each process may take of the processor: that of a simulation, and each one of a run of aig-verdicts.
SIMULATION_SECONDS, PROCESSOR_SECONDS = 2, 20
# The clock alone ends only what waits for ever.
SECONDS = 600


class Outcome(enum.Enum):
    AGREES = "agree"
    REJECTED = "are rejected by line"
    NOWHERE = "are rejected without a line"
    TOO_LONG = "take too long"
    UNKNOWN = "have an x in Icarus Verilog"
    UNREAD = "are not read by Icarus Verilog"
    DIFFERS = "differ"


@dataclass(frozen=True)
class Judgement:
    outcome: Outcome
    reason: str = ""

    @property
    def key(self) -> str:
        """The kind of the judgement: its message without names, places and numbers."""
        if self.outcome not in (Outcome.REJECTED, Outcome.NOWHERE):
            return self.outcome.name
        line = self.reason.replace("\\x0a", "\n").split("ERROR: ")[-1].splitlines()[0]
        line = re.sub(r"^aig-verdicts: |\S*\.v:\d+(?:\.\d+-\d+\.\d+)?:?", "", line)
        return f"{self.outcome.name} " + " ".join(re.sub(r"\S*[\\$`]\S*|\d+", "..", line).split())


def _called(words: List[str], folder: Path) -> subprocess.CompletedProcess[str]:
    return run_apart(words, folder, SIMULATION_SECONDS, SECONDS)


def _bench(program: Program) -> str:
    idle, active = ("0", "1") if program.edge == "posedge" else ("1", "0")
    return f"""module bench;
reg clk = {idle};
{TOP} dut (clk);
initial begin
repeat ({program.cycles}) begin #5 clk = {active}; #5 clk = {idle}; end
$display("total %b", dut.total);
$finish;
end
endmodule
"""


def said_by_icarus(program: Program, folder: Path) -> Judgement:
    """AGREES with the bits of the sum, or why there are none."""
    for name, text in {**program.files, "bench.v": _bench(program), FILE: str(program.tree)}.items():
        (folder / name).write_text(text)
    try:
        words = ["iverilog", "-g2012", "-o", "bench.vvp", "bench.v", FILE]
        built = _called(words, folder)
        ran = _called(["vvp", "-n", "bench.vvp"], folder) if built.returncode == 0 else built
    except TooLong as error:
        return Judgement(Outcome.UNREAD, str(error))
    said = re.search(r"^total ([01xz]+)$", ran.stdout, re.M)
    if said is None:
        return Judgement(Outcome.UNREAD, ran.stderr)
    return Judgement(Outcome.UNKNOWN if set(said[1]) - set("01") else Outcome.AGREES, said[1])


def with_assertions(program: Program, bits: str) -> str:
    """The program with an assertion that its sum has these bits in its last cycle, and one that it has not."""
    text, end = str(program.tree), "endmodule\n"
    return text[: text.rindex(end)] + f"""always @* begin
agrees: assert (cycle != 6'd{program.cycles} || total == {SUM_WIDTH}'b{bits});
differs: assert (cycle != 6'd{program.cycles} || total != {SUM_WIDTH}'b{bits});
end
{end}"""


def judged(program: Program, folder: Path) -> Judgement:
    try:
        icarus = said_by_icarus(program, folder)
        if icarus.outcome is not Outcome.AGREES:
            return icarus
        (folder / FILE).write_text(with_assertions(program, icarus.reason))
        return apart(partial(_by_circuit, folder, program.cycles), PROCESSOR_SECONDS, SECONDS)
    except TooLong as error:
        return Judgement(Outcome.TOO_LONG, str(error))


def _by_circuit(folder: Path, cycles: int) -> Judgement:
    """What `aig` says of the circuit of the program. It reads the copy in the folder that is current."""
    os.chdir(folder)
    try:
        design = read_verilog([Path(FILE)], Reading(TOP, conditions=False, wires=False, seconds=SECONDS), Stop())
    except ToolFailed as error:
        return _rejected(str(error))
    verdicts = {it.name: _verdict(design.circuit, it.position, cycles + 1, folder) for it in design.assertions}
    wanted = {"agrees": f"holds within {cycles + 1}", "differs": f"fails at {cycles + 1}"}
    return Judgement(Outcome.AGREES) if verdicts == wanted else Judgement(Outcome.DIFFERS, f"{verdicts}, and not {wanted}")


def _verdict(circuit: bytes, position: int, frames: int, folder: Path) -> str:
    """What `aig` confirms of runs of so many frames: a proof that there is none, or a run."""
    found = Found(position)
    search = Search(Task.of(circuit, position, Bounds(frames=frames)), circuit, folder, Stop(), found)
    said = search.reach(frames)
    if said.proof is not None and search.bound():
        return f"holds within {found.frames}"
    if said.model is not None and search.confirmed(search.witness(frames, said.model)):
        return f"fails at {found.frames}"
    raise TooLong("; ".join(found.notes))


def _rejected(said: str) -> Judgement:
    """A message is right if it has the line of the program."""
    if re.search(r"status -(24|9)\b|signal (24|9)\b|did not end in", said):
        raise TooLong(said)
    place = re.search(rf"\b{re.escape(FILE)}:[1-9]\d*", said)
    outcome = Outcome.REJECTED if place else Outcome.NOWHERE
    return Judgement(outcome, said.strip())
