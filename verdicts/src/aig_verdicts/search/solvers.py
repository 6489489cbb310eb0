"""How a solver is called: its name and its help say which options it takes."""

from __future__ import annotations

import tempfile
from functools import lru_cache
from pathlib import Path
from typing import List

from aig.tools import Limits, Stop, ToolFailed, found, run

HELP_SECONDS = 4.0


def words(program: str, seconds: float, conflicts: int) -> List[str]:
    """A call without the files of the formula and of the proof. A solver that can write hints writes them, as text."""
    limit = max(1, int(seconds))
    if Path(program).name.startswith("kissat"):
        return [program, "-q", f"--time={limit}"] + [f"--conflicts={conflicts}"] * (conflicts > 0)
    called = [program, "-q", "-t", str(limit)]
    if conflicts > 0:
        called += ["-c", str(conflicts)]
    return called + ["--lrat", "--no-binary"] * writes_hints(program)


def writes_hints(program: str) -> bool:
    """Whether a solver writes proofs with hints (LRAT) itself, as cadical does since 1.7."""
    return b" --lrat=bool" in _help(found(program))


@lru_cache(maxsize=None)
def _help(path: str) -> bytes:
    with tempfile.TemporaryDirectory(prefix="aig-verdicts-") as folder:
        try:
            return run([path, "--help"], Path(folder), Limits(HELP_SECONDS, file_megabytes=1), Stop()).out
        except (ToolFailed, OSError):
            return b""
