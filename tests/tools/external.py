"""Yosys and ABC, the designs that they make circuit files of, and changes of these files by the plain reader's
parts."""

import re
import shutil
import subprocess
import sys
from typing import Any, Dict, NamedTuple

from library import supervised
from library.plain_reader import Reader, spelled
from library.runs import DESIGNS, contents, write

LOGIC = "opt -full; techmap; opt -fast; dffunmap; abc -g AND -fast; opt_clean"
# Designs with outputs that may be taken for bad states, and how they are read.
FORMAL = ("counter -formal", "shift_register -formal", "fifo -formal", "arbiter")


class Trial(NamedTuple):
    """The program, the tally of its checks, the other tools, and what was counted so far."""

    program: Any
    tally: Any
    tools: Any
    counts: Dict[str, int]


class Tools:
    """The two programs; what one of them said last is kept for a check that fails."""

    def __init__(self):
        self.yosys_path = shutil.which("yosys")
        self.abc_path = shutil.which("berkeley-abc") or shutil.which("yosys-abc") or shutil.which("abc")
        if not self.yosys_path or not self.abc_path:
            sys.exit("yosys or ABC is missing: apt install yosys")
        self.said = ""

    def run(self, *words):
        done = supervised.run(words, stdin=subprocess.DEVNULL, stdout=subprocess.PIPE, stderr=subprocess.STDOUT,
                              errors="replace", text=True, check=False)
        self.said = done.stdout
        return done.returncode == 0

    def yosys(self, commands):
        return self.run(self.yosys_path, "-q", "-p", commands)

    def abc(self, commands):
        """What ABC says of these commands."""
        self.run(self.abc_path, "-q", commands)
        return self.said

    def last_lines(self):
        return " / ".join(self.said.splitlines()[-3:])

    def formal_text(self, design):
        """The text of a design of FORMAL, whose latches all start at a value; None where Yosys makes none."""
        name, *formal = design.split(" ")
        is_made = self.yosys(f"read_verilog {' '.join(formal)} {DESIGNS}/{name}.v; prep -flatten -top {name}; async2sync; "
                             f"memory_map; {LOGIC}; setundef -init -zero; write_aiger -ascii {name}.aag")
        return parts_of(f"{name}.aag") if is_made else None

    def proved(self, left, right):
        """Whether ABC proves two binary files equivalent, with all their properties, at all frames."""
        for name, file in (("left.aig", left), ("right.aig", right)):
            write(name, spelled(flat(parts_of(file)), "aig"))
        if not parts_of(right).latches:
            return re.search(r"(?m)^Networks are equivalent", self.abc("cec -n left.aig right.aig")) is not None
        said = self.abc("&r left.aig; &miter -s right.aig; &ps; &scorr; &put; pdr -a")  # without -a newer ones do not count
        return "miter" in said and re.search(r"All = (\d+)\. +Proved = \1\.", said) is not None


def parts_of(file):
    return Reader(contents(file)).parts()


def short(data):
    """A file without the counts of 0 at the end of its header; all else these tools write as `aig` does."""
    return re.sub(rb"\A(a[ai]g(?: \d+){5}(?:(?: \d+)* [1-9]\d*)?)(?: 0)*\n", rb"\1\n", data)


def flat(parts):
    """The circuit with all its properties as outputs, for ABC reads no justice properties."""
    live = [literal for literals in parts.justice for literal in literals]
    outputs = [*parts.outputs, *parts.bad, *parts.constraints, *live, *parts.fairness]
    return parts._replace(outputs=outputs, bad=[], constraints=[], justice=[], fairness=[])


def shuffled(parts):
    """The circuit with its variables numbered from the last down, every second number unused, the gates in reverse and
    their right sides swapped: one that has to be renumbered for the binary format."""
    def to(literal):
        return literal if literal < 2 else 2 * (2 * (parts.most - (literal >> 1)) + 1) + literal % 2

    def each(literals):
        return [to(literal) for literal in literals]

    return parts._replace(
        most=2 * parts.most, inputs=each(parts.inputs), latches=[tuple(each(latch)) for latch in parts.latches],
        outputs=each(parts.outputs), bad=each(parts.bad), constraints=each(parts.constraints),
        justice=[each(literals) for literals in parts.justice], fairness=each(parts.fairness),
        gates=[(to(left), to(second), to(first)) for left, first, second in reversed(parts.gates)])


def with_bad(parts, place):
    """The circuit with this output as its only bad state property, its constraints, and no names or other
    properties."""
    return parts._replace(outputs=[], bad=[parts.outputs[place]], justice=[], fairness=[], names=[], comment=None)
