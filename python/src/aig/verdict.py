"""Verdicts: the line that the program printed, and what shows it."""

from __future__ import annotations

from dataclasses import dataclass, field
from typing import Dict, List, Optional

from .runs import Witness


@dataclass(frozen=True, eq=False, repr=False)
class Verdict:
    """A verdict. It equals the text of its line, and is true if `aig` accepted what shows it: a witness that is none,
    and a search that ended without an answer, are false. Ask `.confirmed` and `.unreachable` for what was found.

    line     what the program printed: `confirmed`, `unreachable`, `unreachable within K`, `not bad`, ..; or `undecided`
    by       how it was found: `run`, `induction`, `certificate` or `bound`
    frames   of the run, of the induction or of the bound
    witness  the run, if there is one
    vacuous  `no run of K frames` if no run keeps the constraints for so many frames: nothing is asked of any run
    files    what shows the verdict, by its role: witness, shorter, base, step, certificate, proof, alive
    notes    what ended questions on the way
    checked  the check that a verdict of `aig_verdicts` rests on; its `undecided` has none
    """

    line: str
    by: str = ""
    frames: Optional[int] = None
    witness: Optional[Witness] = None
    vacuous: str = ""
    files: Dict[str, bytes] = field(default_factory=dict)
    notes: List[str] = field(default_factory=list)
    checked: Optional[object] = None

    @property
    def confirmed(self) -> bool:
        """A run reaches the property."""
        return self.line == "confirmed"

    @property
    def unreachable(self) -> bool:
        """No run of any length reaches the property."""
        return self.line == "unreachable"

    @property
    def proof(self) -> Optional[bytes]:
        """The proof that was checked: that no run of so many frames reaches the property, or that the certificate is
        right. Of a run, that no shorter one reaches it."""
        found = (self.files.get(role) for role in ("proof", "base", "shorter"))
        return next((proof for proof in found if proof is not None), None)

    @property
    def step(self) -> Optional[bytes]:
        """The proof of the induction step."""
        return self.files.get("step")

    @property
    def certificate(self) -> Optional[bytes]:
        return self.files.get("certificate")

    def __str__(self) -> str:
        return self.line

    def __repr__(self) -> str:
        given = [("by", self.by), ("frames", self.frames), ("vacuous", self.vacuous), ("notes", self.notes)]
        shown = "".join(f", {name}={value!r}" for name, value in given if value)
        return f"Verdict(line={self.line!r}{shown})"

    def __eq__(self, other: object) -> bool:
        if isinstance(other, (str, Verdict)):
            return self.line == str(other)
        return NotImplemented

    def __hash__(self) -> int:
        return hash(self.line)

    def __bool__(self) -> bool:
        return self.confirmed or self.line.startswith(("unreachable", "no run of "))

    def _repr_html_(self) -> str:
        from .pictures import html_of_verdict

        return html_of_verdict(self)
