"""What the tests of the second reader share: circuits of texts, and how they run."""

from __future__ import annotations

import os
import shutil
import tempfile
from pathlib import Path

from aig_verdicts.verilator import blast, btor2, reader
from aig_verdicts.verilator.command import deep
from aig_verdicts.verilator.dumps.tree import NotRead
from library.runs import LeftOut

HERE = Path(__file__).resolve().parent
# Which Verilators passed the probe: all parts of a run share it.
CACHE = tempfile.TemporaryDirectory()


def need(*names):
    """Leaves the part out where a program is missing."""
    missing = [it for it in names if not shutil.which(it)]
    if missing:
        raise LeftOut(f"there is no {', '.join(missing)}")
    os.environ["XDG_CACHE_HOME"] = CACHE.name


def words_of(file, top="", outputs=False):
    """The circuit of a file, as words."""
    return reader.circuit([str(file)], [], top, outputs).circuit


def aiger_of(file, top="", outputs=False):
    """The circuit of a file, in AIGER."""
    return deep(lambda: blast.blasted(btor2.written(words_of(file, top, outputs))))


def said_of(file, top=""):
    """Why a file is not read; nothing if it is."""
    try:
        aiger_of(file, top)
    except NotRead as why:
        return str(why)
    return ""


def names_of(aiger, letter):
    """The names of inputs, latches, outputs, bad states or constraints."""
    return [it.split(" ", 1)[1] for it in aiger.splitlines() if it[:1] == letter and it[1:2].isdigit()]


def is_reached(program, aiger, position, rows):
    """Whether a stimulus reaches a bad state."""
    Path("circuit.aag").write_text(aiger)
    Path("stimulus").write_text("".join(row + "\n" for row in rows))
    return program.run("witness", "--property", str(position), "circuit.aag", "stimulus").status == 0


def outputs_of(program, aiger, cycles):
    """The values of outputs in each cycle, x for each input: texts of 0, 1 and x, by name."""
    Path("circuit.aag").write_text(aiger)
    Path("stimulus").write_text(("x" * len(names_of(aiger, "i")) + "\n") * cycles)
    ran = program.run("sim", "circuit.aag", "stimulus")
    names = names_of(aiger, "o")
    fields = [line.split(" ")[2] for line in ran.out.decode().splitlines()]
    return [dict(zip(names, it)) for it in fields]
