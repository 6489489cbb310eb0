"""Everyday constructs, beside Icarus Verilog, or beside the simulation of Verilator where Icarus Verilog does not read
them: everyday.values has those values, and `recorded` writes them. All constructs are modules of one design, which is read
once."""

from __future__ import annotations

import re
import subprocess
from pathlib import Path

from aig_verdicts.verilator.dumps.tree import NotRead

from .shared import HERE, aiger_of, need, outputs_of, said_of

CYCLES = 12
WIDTH = 40
RANDOM = "reg [15:0] n = 16'hb5c3; always @(posedge clk) n <= {n[14:0], n[15] ^ n[13] ^ n[12] ^ n[10]};"
VALUES = HERE / "everyday.values"


def constructs():
    """The module of each paragraph of everyday.sv, by its name."""
    paragraphs = re.split(r"\n{2,}", (HERE / "everyday.sv").read_text().strip())[1:]
    made = {}
    for it in paragraphs:
        name, _, text = it.partition("\n")
        outside, _, inside = ("\n" + text).partition("\n--\n")
        made[name] = f"{outside}\nmodule t_{name}(input clk, output [{WIDTH - 1}:0] y);\n{RANDOM}\n{inside}\nendmodule\n"
    return made


def design(texts):
    """A design of constructs: an output for each."""
    ports = ", ".join(f"output [{WIDTH - 1}:0] y_{name}" for name in texts)
    instances = "\n".join(f"t_{name} u_{name}(clk, y_{name});" for name in texts)
    return "\n".join([*texts.values(), f"module top(input clk, {ports});\n{instances}\nendmodule\n"])


def bench(texts):
    """A bench that prints the value of each construct before each edge."""
    wires = "\n".join(f"wire [{WIDTH - 1}:0] y_{name}; t_{name} u_{name}(clk, y_{name});" for name in texts)
    shown = " ".join(f'$display("{name} %b", y_{name});' for name in texts)
    steps = f"repeat ({CYCLES}) begin #4 {shown} #1 clk = 1; #5 clk = 0; end $finish;"
    return "\n".join([*texts.values(), f"module bench; reg clk = 0;\n{wires}\ninitial begin {steps} end endmodule\n"])


def by_icarus(texts):
    """The values that Icarus Verilog says, by name; none where it does not read the texts."""
    Path("bench.sv").write_text(bench(texts))
    words = ["iverilog", "-g2012", "-o", "bench.vvp", "bench.sv"]
    if subprocess.run(words, capture_output=True, check=False, timeout=60).returncode:
        return {}
    return values(subprocess.run(["vvp", "-n", "bench.vvp"], capture_output=True, text=True, check=False, timeout=60).stdout)


def by_verilator(texts):
    """The values that Verilator's simulation says."""
    Path("bench.sv").write_text(bench(texts))
    words = ["verilator", "--binary", "-CFLAGS", "-O0", "-Wno-fatal", "-Wno-lint", "-Wno-style", "--top-module", "bench",
             "--Mdir", "built", "bench.sv"]
    ran = subprocess.run(words, capture_output=True, text=True, check=False, timeout=1800)
    if ran.returncode:
        return {"nothing": ran.stderr[-400:]}
    return values(subprocess.run(["built/Vbench"], capture_output=True, text=True, check=False, timeout=60).stdout)


def values(said):
    """What a simulator printed: the values of each name, cycle by cycle."""
    made = {}
    for name, bits in re.findall(r"(?m)^(\w+) ([01xz]+)$", said):
        made.setdefault(name, []).append(bits)
    return made


def kept():
    """The values that Verilator's simulation said."""
    lines = (line.split() for line in VALUES.read_text().splitlines() if line and line[0] != "#")
    return {name: bits for name, *bits in lines}


def differences(name, wanted, got):
    """The cycles and bits of a simulator's values that the circuit has not."""
    for cycle, (bits, row) in enumerate(zip(wanted, got)):
        for k, bit in enumerate(reversed(bits)):
            value = row.get(f"y_{name}[{k}]")
            if bit in "01" and value != bit:
                yield f"cycle {cycle}: bit {k} is {value}, not {bit}"


def everyday(program, tally, chosen):
    """Each construct is read, and has the values of a simulator."""
    need("verilator", "iverilog")
    texts, others = constructs(), kept()
    wanted = {**others, **by_icarus({name: text for name, text in texts.items() if name not in others})}
    Path("top.sv").write_text(design(texts))
    try:
        aiger = aiger_of("top.sv", "top", True)
    except NotRead:
        texts = {name: text for name, text in texts.items() if is_read(name, text, tally)}
        Path("top.sv").write_text(design(texts))
        aiger = aiger_of("top.sv", "top", True)
    got = outputs_of(program, aiger, CYCLES)
    for name in texts:
        found = [*differences(name, wanted.get(name, []), got)]
        tally.check(name, len(wanted.get(name, [])) == len(got) == CYCLES and not found, found[:3])
    return f"{len(others)} beside Verilator's simulation, {len(wanted) - len(others)} beside Icarus Verilog, "


def is_read(name, text, tally):
    """Whether a construct is read alone."""
    Path("one.sv").write_text(text)
    said = said_of("one.sv", f"t_{name}")
    tally.check(f"{name}: read", not said, said)
    return not said


def recorded(program, tally, chosen):
    """Writes everyday.values: the constructs that Icarus Verilog does not read, simulated by Verilator. It takes some
    minutes."""
    need("verilator", "iverilog", "c++", "make")
    texts = {name: text for name, text in constructs().items() if not by_icarus({name: text})}
    said = by_verilator(texts)
    tally.compare("what Verilator simulates", (set(said), {len(bits) for bits in said.values()}), (set(texts), {CYCLES}))
    VALUES.write_text("# What Verilator 5.006 simulates of constructs that Icarus Verilog 11 does not read.\n"
                      + "".join(" ".join([name, *bits]) + "\n" for name, bits in said.items()))
