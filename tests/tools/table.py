"""`aig-verdicts` with a built program: its table, row by row."""

import os
import re
import subprocess
import sys
from typing import List, NamedTuple

from library import supervised
from library.supervised import SCRIPT_SECONDS
from library.tour import SOURCE


class Row(NamedTuple):
    """A row of the table: its position, the name, the words of the verdict, what it was found by, and its files."""

    position: str
    name: str
    words: str
    by: str
    files: List[str]

    @property
    def short(self):
        """The name, the verdict, and of a run its frames."""
        return f"{self.name}  {self.words}" + (f", {self.by}" if self.by.startswith("run of") else "")


class Table(NamedTuple):
    """What a run printed, and its status."""

    status: int
    rows: List[Row]
    said: str

    @property
    def short(self):
        """A line for each row by name, and the status."""
        return "".join(f"{line}\n" for line in sorted(row.short for row in self.rows)) + f"status {self.status}\n"


def table(program, *words):
    """Runs `aig-verdicts run` with these arguments."""
    done = supervised.run([sys.executable, "-m", "aig_verdicts", "run", *words], stdin=subprocess.DEVNULL,
                          env={**os.environ, "AIG_PROGRAM": program.path, "PYTHONPATH": SOURCE}, capture_output=True,
                          timeout=SCRIPT_SECONDS, check=False)
    rows = [row_of(line) for line in done.stdout.decode().splitlines()]
    return Table(done.returncode, rows, done.stderr.decode(errors="replace"))


def row_of(line):
    """The row of a line. A circuit has no places, and a bound has nothing that it was found by."""
    cells = re.split(r" {2,}", line)
    kind = next(place for place, cell in enumerate(cells) if cell in ("assert", "cover"))
    name, words, *rest = cells[kind + 1:]
    by = rest.pop(0) if rest and re.match(r"(run|induction) of \d|invariant$", rest[0]) else ""
    files = rest[0].split(" ") if rest else []
    return Row(cells[0], name, words, by, files)

