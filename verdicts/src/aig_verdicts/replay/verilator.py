"""Verilator plays the testbenches of sources that Icarus Verilog cannot read. It has no x, so it tells less: it says nothing
of first values that the sources leave open, and designs whose values depend on x are not played."""

from __future__ import annotations

import re
import shutil
import tempfile
from dataclasses import dataclass
from functools import cached_property
from pathlib import Path
from typing import ClassVar, Dict, Optional, Sequence

from aig.tools import Limits, run
from .simulator import MEGABYTES, MOST_SECONDS, SECONDS, Rejected, Simulator, first_error
from .words import NotReplayed, without_comments

PROGRAM = "verilator"
LIMITS = "first values that are open, and x, were not compared"
_BENCH, _MADE = "aig_tb.sv", "Vaig_tb"
_ERROR = re.compile(r"^%Error[^:]*: aig_tb\.sv:(\d+):", re.MULTILINE)
_NO_PORT = re.compile(r"Pin not found: '(?:__pinNumber)?([^']+)'")
# A value by 0 is x in Verilog, and 0 in Verilator.
_DIVISION = re.compile(r"[/%]=?\s*(?!\d|\s)")


@dataclass
class Verilator(Simulator):
    """Verilator, and the compiler that it asks for.

    instead  why the first simulator does not play the design
    library  what is compiled of Verilator itself: all testbenches share it
    """

    instead: str = ""
    library: ClassVar[Dict[str, bytes]] = {}
    has_x: ClassVar[bool] = False

    def __post_init__(self) -> None:
        pass

    @cached_property
    def name(self) -> str:
        with tempfile.TemporaryDirectory(prefix="aig-verdicts-") as name:
            ran = run([self.program, "--version"], Path(name), Limits(MOST_SECONDS, processor_seconds=SECONDS), self.stop)
        words = re.match(r"Verilator ([\w.]+)", ran.out.decode("utf-8", "replace"))
        return f"Verilator {words[1]}" if words else Path(self.program).name

    @property
    def limits(self) -> str:
        return f"{LIMITS}; {self.instead}"

    def command(self, macros: str, name: str) -> str:
        return f"{PROGRAM} --binary --timing -Wno-fatal {macros} --top-module aig_tb {name} && obj_dir/{_MADE}"

    def look_at(self, text: str, has_x: bool) -> None:
        """That no value of the design is x."""
        if has_x:
            raise NotReplayed("a value is x, which Verilator does not know")
        if _DIVISION.search(re.sub(r'"(?:\\.|[^"\\\n])*"|^`line[^\n]*', " ", without_comments(text), flags=re.MULTILINE)):
            raise NotReplayed("a division, of which Verilator does not know the x")

    def run(self, text: str, defines: Sequence[str]) -> str:
        with tempfile.TemporaryDirectory(prefix="aig-verdicts-") as name:
            folder = Path(name)
            (folder / _BENCH).write_text(without_comments(text), encoding="latin-1")
            for file, data in [*self.data.items(), *self.library.items()]:
                (folder / file).write_bytes(data)
            self._make(folder, [f"-D{it}" for it in defines])
            ran = self._ran([str(folder / _MADE), "+verilator+rand+reset+2", "+verilator+seed+1"], folder)
        if ran.status != 0:
            raise NotReplayed(f"{PROGRAM}: {ran.said[-200:]}")
        return ran.out.decode("latin-1")

    def _make(self, folder: Path, defines: Sequence[str]) -> None:
        """The program of a testbench."""
        options = ["--cc", "--exe", "--main", "--timing", "--no-MMD", "-Wno-fatal", "-Wno-lint", "-Wno-style", "-Wno-ENUMVALUE", "-Wno-BLKANDNBLK", "-Wno-MULTIDRIVEN", "--x-initial",
                   "unique", "--x-assign", "unique", "--top-module", "aig_tb", "-Mdir", ".", *defines, _BENCH]
        made = self._ran([self.program, *options], folder)
        if made.status != 0:
            raise Unread((made.err + made.out).decode("utf-8", "replace"))
        fast = ["OPT_FAST=-O0", "OPT_SLOW=-O0", "OPT_GLOBAL=-O0", "VM_PARALLEL_BUILDS=0"]
        built = self._ran(["make", "-s", "-f", f"{_MADE}.mk", *fast, _MADE], folder)
        if built.status != 0:
            raise NotReplayed(f"{PROGRAM}: the compiler: {first_error((built.err + built.out).decode('utf-8', 'replace'))}")
        self.library.update((it.name, it.read_bytes()) for it in folder.glob("verilated*.o"))


class Unread(Rejected):
    """Verilator rejects a testbench."""

    def __init__(self, said: str):
        super().__init__("")
        self.args = (next((line for line in said.splitlines() if line.startswith("%Error")), first_error(said)),)
        self.lines = [int(it) for it in _ERROR.findall(said)]
        self.no_ports = _NO_PORT.findall(said)


def beside(first: Simulator, why: NotReplayed) -> Optional[Verilator]:
    """Verilator, where the first simulator cannot read the sources, if it is there with its compiler."""
    if any(shutil.which(it) is None for it in (PROGRAM, "g++", "make")):
        return None
    return Verilator(PROGRAM, first.stop, dict(first.data), instead=f"{first.name} cannot play the design: {why}")
