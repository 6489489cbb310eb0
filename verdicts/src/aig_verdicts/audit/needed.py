"""Pieces that every proof of a row needs: where one of them alone is cut, a run reaches the property. `aig check` confirms
that run on the circuit that `aig cut` makes. A circuit in which more is cut has that run, too, so no proof does without
the piece. Who audits what a `recheck` says of needs reads this file."""

from __future__ import annotations

from dataclasses import dataclass, field
from itertools import takewhile
from typing import Any, Callable, Dict, List, Optional, Sequence

from .checked import CONSTRAINTS, NEEDED, Checked, Claim, Wrong, expect, sum_of
from .pieces import Piece, pieces_of, read_cuts
from .row import MOST_FRAMES, Row

# The folder of these files, and how the file of each role ends.
FOLDER = "needed"
ROLES = {"cuts": "cuts", "witness": "wit"}


def claim_of(position: int, at: int, frames: int) -> Claim:
    """The claim that a run of so many frames shows the piece at a place in the list of a row."""
    row = "alive" if position == CONSTRAINTS else str(position)
    named = tuple((role, f"{FOLDER}/{row}.{at}.{ending}") for role, ending in ROLES.items())
    return Claim(position, NEEDED, frames, named)


@dataclass
class Run:
    """A run of the circuit in which one piece is cut, and its check, which stays in the process that made it."""

    claim: Claim
    files: Dict[str, bytes]
    notes: List[str] = field(default_factory=list)
    checked: Optional[Checked] = None

    @property
    def by(self) -> str:
        """What shows it; nothing if its files are not there."""
        return self.claim.by if self.files else ""

    def __getstate__(self) -> Dict[str, object]:
        return {**vars(self), "checked": None}


def earlier(claim: Claim, files: Callable[[str], bytes], checked: Optional[Checked] = None) -> Run:
    """A run that a folder has, and its check if there is one. A note says why its files are not there."""
    try:
        return Run(claim, {role: files(name) for role, name in claim.named}, [], checked)
    except (Wrong, OSError, MemoryError) as error:
        return Run(claim, {}, [str(error)])


def give(row: Row, runs: Sequence[Run], circuit: bytes) -> Dict[str, bytes]:
    """Gives a row these runs up to the first one without a check about it. The files of those that it has, by name."""
    good = [*takewhile(lambda run: run.checked is not None and run.checked.is_about(run.claim, sum_of(circuit), run.files),
                       runs)]
    checks = [run.checked for run in good if run.checked is not None]
    row.take_needed(checks, pieces_that(circuit, checks))
    row.notes = list(dict.fromkeys([*row.notes, *(note for run in runs for note in run.notes)]))
    return {name: run.files[role] for run in good for role, name in run.claim.named}


def pieces_that(circuit: bytes, checks: Sequence[Checked]) -> List[Piece]:
    """The pieces that these runs show as needed by every proof: each cuts one, and nothing else."""
    found = []
    for it in checks:
        expect(it.by == NEEDED and it.circuit == sum_of(circuit), f"{it.claim.label} has no run without a piece")
        found.append(pieces_of(circuit).only(read_cuts(it.cuts or b"")))
    return found


# -- in MANIFEST.json


def as_json(checks: Sequence[Checked]) -> List[Dict[str, Any]]:
    return [{"frames": it.frames, "files": it.claim.files} for it in checks]


def read(position: int, value: Any) -> List[Claim]:
    """The claims of a row, if they have the only names that they can have."""
    expect(type(value) is list, f"needed of b{position}")
    claims = []
    for at, it in enumerate(value):
        frames: Any = it.get("frames") if type(it) is dict else None
        expect(type(frames) is int and 1 <= frames <= MOST_FRAMES, f"needed of b{position}")
        claims.append(claim_of(position, at, frames))
        expect(it == {"frames": frames, "files": claims[-1].files}, f"needed of b{position}")
    return claims
