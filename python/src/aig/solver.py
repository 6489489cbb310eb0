"""SAT solvers that are programs. None is trusted: the toolkit checks each model and each proof."""

from __future__ import annotations

import os
import shutil
import tempfile
from pathlib import Path
from typing import NamedTuple, Optional, Sequence, Union

from .formula import Formula
from .tools import Limits, Stop, run

Solver = Union[str, Sequence[str]]
CADICAL = ("cadical", "-q")
# What stands for no bound, in seconds.
NO_BOUND = 10.0**7


class Solved(NamedTuple):
    """What a solver found: the text of a model, or a proof that there is none; neither if a bound ended it."""

    model: Optional[str]
    proof: Optional[bytes]


def solve(
    formula: Formula, solver: Solver = CADICAL, *, seconds: Optional[float] = None, conflicts: int = 0,
    stop: Optional[Stop] = None,
) -> Solved:
    """Runs a solver on a formula. Its arguments are the formula's file and the proof's file, as for cadical.

    seconds    after which it is ended
    conflicts  after which it gives up: cadical's option `-c`
    stop       ends it when it is called, from a signal or another thread: `solve` then raises `aig.Stopped`
    """
    words = [solver] if isinstance(solver, str) else list(solver)
    words[0] = found(words[0])
    bounded = ["-c", str(conflicts)] if conflicts else []
    with tempfile.TemporaryDirectory(prefix="aig-") as name:
        folder = Path(name)
        proof = folder / "proof"
        (folder / "cnf").write_bytes(formula.text)
        limits = Limits(NO_BOUND if seconds is None else seconds)
        ran = run([*words, *bounded, "cnf", "proof"], folder, limits, stop or Stop())
        if ran.status == 10:
            return Solved(ran.out.decode("utf-8", "replace"), None)
        if ran.status == 20:
            return Solved(None, proof.read_bytes())
        if ran.status is None or ran.status == 0 and (conflicts or seconds is not None):
            return Solved(None, None)
    raise RuntimeError(f"{words[0]} ended with status {ran.status}: {ran.said}")


def found(program: str) -> str:
    """The path of a program."""
    path = shutil.which(program)
    if path is None:
        raise FileNotFoundError(f"there is no program {program} on the path")
    return os.path.abspath(path)
