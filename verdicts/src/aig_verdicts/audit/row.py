"""A row: an assertion, a cover, a condition or all constraints, and the check of its verdict."""

from __future__ import annotations

from dataclasses import dataclass, field
from typing import Dict, Final, List, Optional, Sequence, Set

from .checked import CONFIRMED, CONSTRAINTS, NEEDED, UNREACHABLE, Checked, Claim, Command, expect
from .pieces import Needs, Piece

KINDS = ("assert", "cover", "condition", "constraints")
# In place of a verdict.
UNDECIDED: Final = "undecided"
# The same: the run was asked for other rows alone.
LEFT_OUT: Final = "left out"
# The frames of the longest run, induction or bound.
MOST_FRAMES = 65536
# What of an earlier version a verdict came from: `aig` has checked it on this circuit.
ORIGINS = ("old proof", "old run", "old certificate", "old depth", "old bound")
# How the file of each role ends. A proof with hints ends in lrat.
ENDINGS = {
    "witness": "wit", "concrete": "concrete.wit", "shorter": "shorter.drat", "base": "base.drat", "step": "step.drat",
    "certificate": "cert.aag", "proof": "cert.drat", "alive": "drat", "cuts": "cuts",
}


def name_of(position: int, role: str, has_hints: bool = False) -> str:
    """The only name that the file of a row can have."""
    ending = ENDINGS[role]
    if has_hints and ending.endswith("drat"):
        ending = f"{ending[:-4]}lrat"
    return f"{'alive' if position == CONSTRAINTS else position}.{ending}"


def has_constraints(facts: bytes) -> bool:
    """Whether a circuit has constraints, by what `aig info` prints."""
    return b"\nconstraints 0\n" not in facts


@dataclass
class Row:
    """A property. It has a verdict, a way to it, frames and files if `aig` has confirmed them, and only then.

    kind   `assert`, `cover`, `condition` (the `if` of an assertion), or `constraints` for the row of all assumptions
    of     for a condition, the position of its assertion
    claim  what a bundle says, and nobody believes. Of the constraints: that there are none, which needs no files
    origin what of an earlier version the verdict came from: one of ORIGINS, or nothing
    needs  what its proofs need, if they are about less than the whole circuit
    needed what a bundle says of runs without a piece, and nobody believes
    """

    position: int
    kind: str
    name: str
    file: str = ""
    first: int = 0
    last: int = 0
    of: Optional[int] = None
    is_left_out: bool = False
    claim: Optional[Claim] = None
    notes: List[str] = field(default_factory=list)
    origin: str = ""
    needs: Optional[Needs] = None
    needed: List[Claim] = field(default_factory=list)
    _checked: Optional[Checked] = None
    _runs: List[Checked] = field(default_factory=list)

    @property
    def checked(self) -> Optional[Checked]:
        return self._checked

    def take(self, checked: Checked, circuit: str, needs: Optional[Needs] = None) -> None:
        """Takes the verdict of a check that is about this row and the circuit of this sum, and what its proofs need."""
        expect(checked.claim.position == self.position, f"{self.label} is about another property")
        expect(checked.circuit == circuit, f"{self.label} is about another circuit")
        expect(checked.by != NEEDED, f"{self.label} has a run of another circuit")
        self._checked, self.is_left_out, self.needs, self._runs = checked, False, needs, []

    def take_needed(self, runs: Sequence[Checked], every: Sequence[Piece]) -> None:
        """Takes the checks of runs without one piece each, and these pieces: every proof of the row needs them."""
        for it in runs:
            expect(it.by == NEEDED and it.claim.position == self.position and self._checked is not None
                   and it.circuit == self._checked.circuit, f"{self.label} has a run of something else")
            expect(self.by != "alive" or it.frames == self.frames, f"a run of {self.label} has another number of frames")
        if self.needs is not None:
            self._runs, self.needs = [*runs], self.needs._replace(every=frozenset(every))

    def forget(self) -> None:
        """Lets go of the verdict, and of all that was about it."""
        self._checked, self.claim, self.is_left_out, self.notes, self.origin = None, None, False, [], ""
        self.needs, self.needed, self._runs = None, [], []

    @property
    def verdict(self) -> str:
        """The line that `aig` printed; `undecided` or `left out` if it printed none."""
        if self._checked is not None:
            return self._checked.line
        return LEFT_OUT if self.is_left_out else UNDECIDED

    @property
    def by(self) -> str:
        """A key of WAYS."""
        return self._checked.by if self._checked is not None else ""

    @property
    def frames(self) -> int:
        """Those of the run, the induction or the bound."""
        return self._checked.frames if self._checked is not None else 0

    @property
    def files(self) -> Dict[str, str]:
        """The names of the files that show it, by their roles."""
        return self._checked.claim.files if self._checked is not None else {}

    @property
    def names(self) -> Set[str]:
        """The names of all of its files."""
        return {name for it in [self._checked, *self._runs] if it is not None for name in it.claim.files.values()}

    @property
    def runs(self) -> List[Checked]:
        """The checks of runs without one piece each, which every proof needs."""
        return self._runs

    @property
    def cuts(self) -> Optional[bytes]:
        """The file of what its proofs do not need; none if they are about the whole circuit."""
        return self._checked.cuts if self._checked is not None else None

    @property
    def decided(self) -> bool:
        """Whether no search can find more. That some run keeps the constraints is known for so many frames."""
        return self.verdict in (CONFIRMED, UNREACHABLE) or self.by == "alive"

    @property
    def label(self) -> str:
        return self.kind if self.position == CONSTRAINTS else f"b{self.position}"

    def commands(self) -> List[Command]:
        """The commands that checked the row."""
        return self._checked.claim.commands() if self._checked is not None else []

    @property
    def cut(self) -> List[str]:
        """The command that wrote the circuit that these are about, if it was not the whole one."""
        return self._checked.claim.cut if self._checked is not None else []
