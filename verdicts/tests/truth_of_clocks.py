#!/usr/bin/env python3
"""Icarus Verilog runs designs on all values of their inputs for so many frames, and this script compares the shortest run
to each bad state with designs/truth.py. Neither Yosys nor `aig` is on the way.

In a frame the clocks change first and the data after them, so an edge samples the data of the frame before. Edges to the
first frame do not count: registers have their initial values there. A clock with ^ has a pulse before each frame but the
first.

usage: truth_of_clocks.py [NAME ..]"""

import re
import subprocess
import sys
import tempfile
from pathlib import Path

import paths  # noqa: F401
from designs.truth import DESIGNS
from library import supervised

# The inputs that change first, those that change after them (with their widths), the frames, and the registers at the start.
RUNS = {
    "gated_clock": ("clk en", "", 7, "dut.q = 0; dut.p = 0;"),
    "closed_gate": ("clk en", "", 7, "dut.q = 0;"),
    "chosen_clock": ("c0 c1 s", "", 6, "dut.n = 0; dut.seen = 0;"),
    "clock_as_data": ("clk", "", 14, "dut.n = 0;"),
    "divided_clock": ("clk", "", 14, "dut.a = 0; #1; dut.b = 0; dut.n = 0;"),
    "both_edges": ("clk", "d", 8, "dut.up = 0; dut.down = 0; dut.again = 0;"),
    # the latch is open at the start if the clock is 0
    "gating_cell": ("clk enable", "", 7, "dut.gated = 0; dut.cut = 0; dut.ticked = 0; dut.high = 0; dut.open = clk ? 0 : enable;"),
    "set_reset": ("^clk", "s r d", 6, "dut.a = 0; dut.b = 0; dut.v = 0; dut.begun = 0; dut.s_before = 0; dut.r_before = 0;"),
    "reset_register": ("^clk", "ask d", 7, "dut.r.reset = 0; dut.r.n = 0; #1; dut.count = 5; dut.seen = 0;"),
    "reset_levels": ("^clk", "rst_n load d", 6,
                     "dut.n = 0; dut.same = 0; dut.begun = 0; dut.low_before = 1; dut.load_before = 0; dut.ok_counts = 1;"),
    "loop_variables": ("^clk", "rst d:4", 3, "dut.s = 0; dut.t = 0;"),
    "tasks": ("^clk", "push d:2", 4, "dut.first = 0; dut.second = 0; dut.count = 0; dut.overflow = 0;"),
    "task_state": ("^clk", "go stop n:3", 4, "dut.left = 0; dut.busy = 0; dut.done = 0;"),
    "loop_counts": ("^clk", "d:3", 5, "dut.mem[0] = 0; dut.mem[1] = 1; dut.mem[2] = 2; dut.last = 2;"),
    "empty_item": ("", "a b c", 1, ""),
    "selectors": ("", "a:2", 1, ""),
    "clocks": ("first_clk second_clk", "data", 5, "dut.first = 0; dut.second = 0;"),
}
CHECK = re.compile(r"(\w+): (assert|cover)( property)? \((.*)\);")


def simulated(text):
    """The design with a register ok_NAME in place of each assertion, and their names."""
    names = [match[1] for match in CHECK.finditer(text)]
    text = re.sub(r"(always @\*(?: begin)?\s+)(?=\w+: (?:assert|cover)|assume)", r"\1", text)
    text = CHECK.sub(lambda it: f"ok_{it[1]} = {'!' * (it[2] == 'cover')}({it[4]});", text)
    text = re.sub(r"assume \((.*)\);", r"kept = \1;", text)
    declared = "".join(f"  reg ok_{name};\n" for name in names) + "  reg kept = 1;\n"
    return re.sub(r"(module \w+\([^;]*;\n)", lambda it: it[1] + declared, text, count=1), names


def bench(name, names):
    first, then, frames, start = RUNS[name]
    pulses = [it[1:] for it in first.split() if it.startswith("^")]
    clocks, data = [[it for it in names.split() if not it.startswith("^")] for names in (first, then)]
    widths = {it.partition(":")[0]: int(it.partition(":")[2] or 1) for it in (*clocks, *data)}
    inputs = [f"[{width - 1}:0] {it}" for it, width in widths.items()] + pulses
    wide, count = sum(widths.values()), len(clocks)
    ports = ", ".join(f".{it}({it})" for it in (*widths, *pulses))
    change = f"now = bits[frame * {wide} +: {wide}];"
    for part, high, low in ((clocks, count - 1, 0), (data, wide - 1, count)):
        if part:
            change += f" {{{', '.join(it.partition(':')[0] for it in reversed(part))}}} = now[{high}:{low}]; #1;"
    pulse = "".join(f" {it} = 1; #1; {it} = 0; #1;" for it in pulses)
    off = "".join(f" {it} = 0;" for it in pulses)
    looks = "\n".join(f"          if (kept && !dut.ok_{it} && (best_{it} == 0 || frame + 1 < best_{it})) best_{it} = frame + 1;" for it in names)
    return f"""
module bench;
{chr(10).join(f'  reg {it};' for it in inputs)}
  reg [{wide - 1}:0] now;
  reg kept;
  reg [{wide * frames}:0] bits;
  integer frame, {', '.join(f'best_{it} = 0' for it in names)};
  {name} dut({ports});
  initial begin
    for (bits = 0; !bits[{wide * frames}]; bits = bits + 1) begin
      frame = 0; kept = 1;
      {off} {change} {start} #1;
      for (frame = 0; frame < {frames}; frame = frame + 1) begin
        if (frame > 0) begin {pulse} {change} end
        kept = kept && dut.kept;
{looks}
      end
    end
{chr(10).join(f'    $display("{it} %0d", best_{it});' for it in names)}
    $finish;
  end
endmodule
"""


def shortest(known):
    """The length of the shortest run to each bad state, 0 where no run has it."""
    with tempfile.TemporaryDirectory() as folder:
        text, names = simulated(known.paths[0].read_text().replace("`ifdef FORMAL", "").replace("`endif", ""))
        Path(folder, "all.v").write_text(text + bench(known.name, names))
        for words in (["iverilog", "-g2012", "-o", "all.vvp", "all.v"], ["vvp", "-n", "all.vvp"]):
            done = supervised.run(words, cwd=folder, capture_output=True, text=True, timeout=600, check=False)
            if done.returncode:
                raise SystemExit(f"{known.name}: {done.stdout}{done.stderr}")
        return {name: int(length) for name, length in (line.split() for line in done.stdout.splitlines())}


if __name__ == "__main__":
    rows = wrong = 0
    for known in DESIGNS:
        if known.name in RUNS and (len(sys.argv) < 2 or known.name in sys.argv[1:]):
            frames = RUNS[known.name][2]
            for name, length in shortest(known).items():
                rows += 1
                wanted = known.answers[name]
                if length != (wanted if isinstance(wanted, int) and wanted <= frames else 0):
                    wrong += 1
                    print(f"{known.name}: {name} has a shortest run of {length}, and truth.py has {wanted}", flush=True)
    print(f"{rows} rows, {wrong} of them otherwise")
    sys.exit(wrong > 0)
