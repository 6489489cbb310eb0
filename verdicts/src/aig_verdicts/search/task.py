"""What is asked of a search, and what it found."""

from __future__ import annotations

import shutil
from dataclasses import dataclass, field
from typing import Dict, List, Optional, Tuple

from ..audit.checked import Checked, Claim
from ..audit.hints import claim_of
from ..audit.needed import Run
from ..audit.row import UNDECIDED
from .sent import Sent


@dataclass(frozen=True)
class Bounds:
    """How far a search goes. Those in frames and conflicts give the same answers on each machine. Seconds and megabytes
    only end what would not end.

    frames     runs and inductions of up to so many frames
    conflicts  of the solver, and of pdr, for one question; 0 is no bound
    seconds    for one question; all questions of a property get five times as much
    megabytes  of memory for a solver or ABC, and of a proof on disk; 0 is no bound
    """

    frames: int = 20
    conflicts: int = 0
    seconds: float = 60.0
    megabytes: int = 0
    proof_megabytes: int = 1024

    def within(self, other: Bounds) -> bool:
        """Whether a search with these bounds goes no further than with the others, but for its frames."""
        limits = [(self.conflicts, other.conflicts), (self.seconds, other.seconds), (self.megabytes, other.megabytes),
                  (self.proof_megabytes, other.proof_megabytes)]
        return all(0 < own <= others or others == 0 for own, others in limits)


# The names of ABC: that of its own package, and that of the one beside Yosys.
ABC = ("berkeley-abc", "yosys-abc")


def abc_of_path() -> str:
    """The first of these that is on the path."""
    return next((name for name in ABC if shutil.which(name)), ABC[0])


# What a search tries: the solver for runs, the solver for inductions, for which it needs the first too, and ABC's pdr.
BMC, INDUCTION, PDR = ENGINES = ("bmc", "induction", "pdr")


@dataclass(frozen=True)
class Programs:
    """The solver, ABC, and the program that adds hints to proofs, as names or paths. Without ABC there are no
    invariants, and without the last one proofs stay as the solver wrote them. `engines` are those that are tried."""

    solver: str = "cadical"
    abc: Optional[str] = field(default_factory=abc_of_path)
    drat2lrat: Optional[str] = None
    engines: Tuple[str, ...] = ENGINES


@dataclass(frozen=True)
class Hint:
    """How the row was decided in an earlier version.

    by         a key of WAYS
    frames     of the run, the induction or the bound
    files      by their roles. Runs and certificates have the names of the new circuit, and proofs are as they were
    is_enough  whether a bound that still holds ends the search
    """

    by: str
    frames: int
    files: Dict[str, bytes] = field(default_factory=dict)
    is_enough: bool = False


@dataclass(frozen=True)
class Narrow:
    """A row that is decided, and whose proof may need less of the circuit.

    known       its proof
    drat2lrat   the program that adds hints to a proof that has none
    is_minimal  whether each part that is left is tried, too
    is_needed   whether runs are looked for that show what every proof needs
    """

    known: Hint
    drat2lrat: Optional[str] = None
    is_minimal: bool = False
    is_needed: bool = False


@dataclass(frozen=True)
class Task:
    """What to decide: a property of a circuit, or -1: whether some run keeps all constraints. `hint` is what is known
    of an earlier version, and `narrow` a row that is decided: the task is then to find what its proof needs."""

    circuit: Optional[Sent]
    position: int
    bounds: Bounds = Bounds()
    programs: Programs = Programs()
    hint: Optional[Hint] = None
    narrow: Optional[Narrow] = None

    @staticmethod
    def of(circuit: bytes, position: int, bounds: Bounds = Bounds(), programs: Programs = Programs()) -> Task:
        return Task(Sent.of(circuit), position, bounds, programs)


@dataclass
class Found:
    """What a search found.

    verdict  the line that `aig` printed, or `undecided`, or `alive`
    by       what it was found by: a key of WAYS
    checked  its check, which stays in the process that made it: what comes from another one is checked again
    frames   of the run, the induction or the bound
    files    what shows it, by role
    notes    what went wrong on the way: a crash, a bound that ended a question
    stopped  whether the user ended the search
    origin   what of an earlier version it came from: one of ORIGINS, or nothing
    needed   runs without one piece each, which every proof needs
    """

    position: int
    verdict: str = UNDECIDED
    by: str = ""
    frames: int = 0
    files: Dict[str, bytes] = field(default_factory=dict)
    notes: List[str] = field(default_factory=list)
    seconds: float = 0.0
    stopped: bool = False
    checked: Optional[Checked] = None
    origin: str = ""
    needed: List[Run] = field(default_factory=list)

    def __getstate__(self) -> Dict[str, object]:
        return {**vars(self), "checked": None}

    @property
    def claim(self) -> Claim:
        return claim_of(self.position, self.by, self.frames, self.files)

    def check_about(self, circuit: str) -> Optional[Checked]:
        """Its check, if that is about what was found and the circuit of this sum, by content."""
        if self.checked is None or self.checked.is_about(self.claim, circuit, self.files):
            return self.checked
        self.notes.append("worker: its check is about something else")
        return None
