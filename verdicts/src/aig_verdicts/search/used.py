"""What the proof of a formula used of the circuit: from the clauses that its hints name. Nothing of this is trusted: what a
proof did not use is cut, and the rest is proved again."""

from __future__ import annotations

from typing import Dict, List, NamedTuple, Set

from ..audit.checked import Wrong, expect
from ..audit.pieces import RESET, Cut
from .unrolled import Left, Unrolled

# A clause of a gate says that it is 0 where one side is, or that it is 1 where both are.
OF_A_GATE = 3


class Question(NamedTuple):
    """A formula of `aig cnf`.

    role     of its proof: base, step, proof or alive
    circuit  what it is over: of a certificate the strengthened one
    at       the position of its property there
    frames   so many are unrolled
    """

    role: str
    circuit: Left
    at: int
    frames: int

    @property
    def from_any(self) -> bool:
        """Whether its runs begin in any state."""
        return self.role in ("step", "proof")

    @property
    def resets(self) -> List[int]:
        """The latches whose resets have a clause before the gates."""
        if self.role != "proof":
            return []
        latches = self.circuit.layout.parts.latches
        return [literal for literal, _, reset in latches if reset in (0, 1) and self.circuit.has((RESET, literal))]

    @property
    def before(self) -> int:
        """How many clauses come before those of gates."""
        return 1 + self.frames if self.role == "step" else 2 + len(self.resets)


def used(question: Question, formula: bytes, proof: bytes) -> Set[Cut]:
    """The cuts that would change a clause that the proof used."""
    clauses = formula[formula.rfind(b"\np ") + 1 :].split(b"\n")[1:-1]
    numbers = _used_clauses(proof, len(clauses))
    unrolled, before = Unrolled(question.circuit, question.frames, question.from_any), question.before
    found: Set[Cut] = {(RESET, literal) for at, literal in enumerate(question.resets) if at + 3 in numbers}
    if not unrolled.constraints:  # the clauses before those of gates are about the property itself
        for frame in range(question.frames):
            found |= unrolled.reads(frame, unrolled.bad[question.at])
    expect((len(clauses) - before) % OF_A_GATE == 0, "a formula has another form")
    for gate in {(number - 1 - before) // OF_A_GATE for number in numbers if number > before}:
        at = before + gate * OF_A_GATE
        found |= _of_gate(unrolled, clauses[at : at + 2], [at + k + 1 in numbers for k in range(OF_A_GATE)])
    return found


def _of_gate(unrolled: Unrolled, clauses: List[bytes], hit: List[bool]) -> Set[Cut]:
    """The cuts that would change the clauses of a gate that are used."""
    texts = [list(map(int, line.split())) for line in clauses]
    frame, sides = unrolled.gate(-texts[0][0] - 1)
    sides.sort(key=lambda side: -side.literal)
    expect([text[1] for text in texts] == [_dimacs(side.literal) for side in sides], "a formula has another gate")
    found: Set[Cut] = set()
    for side, is_used in zip(sides, hit):
        if is_used or hit[2]:
            found |= unrolled.of_side(frame, side)
    return found


def _dimacs(literal: int) -> int:
    return (literal // 2 + 1) * (-1 if literal & 1 else 1)


def _used_clauses(proof: bytes, count: int) -> Set[int]:
    """The clauses of the formula, of so many, from which the empty clause follows, by the hints of a proof in LRAT."""
    hints: Dict[int, List[int]] = {}
    last = 0
    for line in proof.split(b"\n"):
        words = line.split()
        if not words or words[0] == b"c" or words[1] == b"d":
            continue
        end = words.index(b"0")
        number = int(words[0])
        hints[number] = [abs(int(word)) for word in words[end + 1 : -1]]
        if end == 1:
            last = number
            break
    if not last:
        raise Wrong("a proof has no empty clause")
    found: Set[int] = set()
    left = [last]
    while left:
        for number in hints.get(left.pop(), ()):
            if number not in found:
                found.add(number)
                left.append(number)
    return {number for number in found if number <= count}
