"""Icarus Verilog: it preprocesses sources, and runs testbenches."""

from __future__ import annotations

import re
import signal
import tempfile
from dataclasses import dataclass, field
from functools import cached_property
from pathlib import Path
from typing import ClassVar, Dict, Sequence

from aig.tools import Limits, Ran, Stop, found, run
from .words import BENCH as BENCH_MODULE
from .words import NotReplayed, Unreadable
from .lines import numbered

# How long a simulator may take, by the processor and by the clock, and how much it may write.
SECONDS, MOST_SECONDS, MEGABYTES = 60, 1200.0, 256
ENDLESS = f"a simulation takes over {SECONDS} s of processor time, or writes over {MEGABYTES} MB"
# How long sources may be once their macros are there.
MOST_TEXT = 1 << 24
BENCH, BEGIN = "aig_tb.v", "aig.begin.v"
# Icarus Verilog reads the same text as others: it does not have a macro that says which program reads it.
_AS_OTHERS = "`undef __ICARUS__\n"
_ERROR = re.compile(r"aig_tb\.v:(\d+): (?:error|sorry)")
_CAST = re.compile(r"aig_tb\.v:(\d+): error: This assignment requires an explicit cast")
_FIXED = re.compile(r"error: '?dut\.(\S+)\[[^\]]*\]'? is not a valid l-value")
_NO_PORT = re.compile(r"port ``(\S+)'' is not a port")
# What Icarus Verilog 11 and 12 say of a register at an `inout`, and what 13 says.
_DOUBLE = re.compile("unresolved wire|Inout port expression must support continuous assignment")


class Rejected(Exception):
    """The simulator rejects a testbench.

    lines      the lines that it names
    no_ports   the names that are no ports
    is_syntax  whether it does not know a word
    fixed      arrays of wires, of which a word cannot be given a value
    casts      the lines that give a number to a variable of an `enum`
    is_double  whether a register drives what the design drives too
    """

    def __init__(self, said: str):
        super().__init__(first_error(said))
        self.lines = [int(it) for it in _ERROR.findall(said)]
        self.no_ports = _NO_PORT.findall(said)
        self.is_syntax = "syntax error" in said
        self.is_double = _DOUBLE.search(said) is not None
        self.fixed = frozenset(_FIXED.findall(said))
        self.casts = [int(it) for it in _CAST.findall(said)]


@dataclass
class Simulator:
    """A simulator with the command line of `iverilog`, and its `vvp` beside it.

    data        files that the sources read
    is_endless  whether a simulation did not end: another one would not end either
    """

    program: str
    stop: Stop
    data: Dict[str, bytes] = field(default_factory=dict)
    is_endless: bool = False
    has_x: ClassVar[bool] = True

    def __post_init__(self) -> None:
        beside = Path(found(self.program)).with_name("vvp")
        self._vvp = str(beside) if beside.exists() else found("vvp")

    @cached_property
    def name(self) -> str:
        """What it is called in messages, as in `Icarus Verilog 11.0`."""
        with tempfile.TemporaryDirectory(prefix="aig-verdicts-") as name:
            ran = run([self.program, "-V"], Path(name), Limits(MOST_SECONDS, processor_seconds=SECONDS), self.stop)
        words = re.match(r"Icarus Verilog version ([\w.]+)", ran.out.decode("utf-8", "replace"))
        return f"Icarus Verilog {words[1]}" if words else Path(self.program).name

    @property
    def limits(self) -> str:
        """What it does not tell of a design, in words."""
        return ""

    def command(self, macros: str, name: str) -> str:
        """What plays a testbench that is in a file."""
        return f"iverilog -g2012 {macros} -s {BENCH_MODULE} -o aig.vvp {name} && vvp -n aig.vvp"

    def preprocessed(self, sources: Dict[str, str], names: Sequence[str], defines: Sequence[str]) -> str:
        """The sources of these names, one after the other, after the simulator's own preprocessor."""
        with tempfile.TemporaryDirectory(prefix="aig-verdicts-") as name:
            folder = Path(name)
            for source, text in sources.items():
                (folder / source).write_text(numbered(source, text), encoding="latin-1")
            (folder / BEGIN).write_text(_AS_OTHERS)
            files = [f"./{it}" for it in (BEGIN, *names)]  # no name is an option
            words = [self.program, "-g2012", "-E", *(f"-D{it}" for it in defines), "-o", "aig.pre.v", *files]
            ran = self._ran(words, folder)
            if ran.status != 0:
                raise NotReplayed(f"{self.program}: {first_error(ran.said)}")
            made = folder / "aig.pre.v"
            if not made.exists():
                raise NotReplayed(f"{self.program} writes nothing")
            if made.stat().st_size > MOST_TEXT:
                raise NotReplayed(f"its sources have over {MOST_TEXT >> 20} MB after the preprocessor")
            return made.read_text(encoding="latin-1")

    def _ran(self, words: Sequence[str], folder: Path) -> Ran:
        """How a program ended."""
        if not self.is_endless:
            limits = Limits(MOST_SECONDS, file_megabytes=MEGABYTES, processor_seconds=SECONDS)
            ran = run(words, folder, limits, self.stop)
            self.is_endless = ran.status in (None, -signal.SIGXCPU, -signal.SIGXFSZ, -signal.SIGKILL)
        if self.is_endless:
            raise NotReplayed(ENDLESS)
        return ran

    def run(self, text: str, defines: Sequence[str]) -> str:
        """What a testbench prints."""
        with tempfile.TemporaryDirectory(prefix="aig-verdicts-") as name:
            folder = Path(name)
            (folder / BENCH).write_text(text, encoding="latin-1")
            for file, data in self.data.items():
                (folder / file).write_bytes(data)
            options = [*(f"-D{it}" for it in defines), "-s", "aig_tb", "-o", "aig.vvp"]
            made = self._ran([self.program, "-g2012", *options, BENCH], folder)
            if made.status != 0:
                raise Rejected((made.err + made.out).decode("utf-8", "replace"))
            ran = self._ran([self._vvp, "-n", "aig.vvp"], folder)
        if ran.status != 0:
            raise (Unreadable if (ran.status or 0) < 0 else NotReplayed)(f"vvp: {ran.said[-200:]}")
        return ran.out.decode("latin-1")


def first_error(said: str) -> str:
    lines = said.splitlines()
    return next((line for line in lines if re.search("error|sorry|assert", line)), lines[0] if lines else "no message")
