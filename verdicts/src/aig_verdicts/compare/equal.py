"""Whether two circuits do the same in each run: two versions of Yosys may make other gates of the same sources.

Inputs, outputs, registers, properties and constraints are matched by name. An induction over one frame shows that no
pair of these ever differs, whatever the inputs are. cadical finds its two proofs, and `aig` checks them."""

from __future__ import annotations

from typing import List

from aig.parts import parts_of
from aig.circuit import Circuit
from aig.errors import AigError
from aig.miters import miter
from aig.solver import solve
from aig.tools import Stop

# The seconds of each of the two proofs: as many as Yosys has.
SECONDS = 600.0


def with_all_as_outputs(file: bytes) -> Circuit:
    """The circuit whose outputs are all outputs, registers, properties and constraints of another one. It has neither
    properties nor constraints: what it does counts in all runs."""
    whole = Circuit(file)
    parts = parts_of(whole.to("aag"))
    shown = [entry for entry in whole.entries if entry.letter in "olbc"]
    last = max([0, *parts.inputs, *(row[0] for row in [*parts.latches, *parts.gates])]) // 2
    counts = [last, len(parts.inputs), len(parts.latches), len(shown), len(parts.gates)]
    lines = ["aag " + " ".join(map(str, counts)), *map(str, parts.inputs)]
    lines += (" ".join(map(str, row)) for row in parts.latches)
    lines += (str(entry.literal) for entry in shown)
    lines += (" ".join(map(str, row)) for row in parts.gates)
    lines += (f"{entry.place} {entry.label}" for entry in whole.entries if entry.letter in "il")
    lines += (f"o{at} {entry.letter}:{entry.label}" for at, entry in enumerate(shown))
    return Circuit("\n".join([*lines, ""]).encode("utf-8", "surrogateescape"))


def do_the_same(old: bytes, new: bytes, stop: Stop) -> bool:
    """Whether it is shown that both circuits do the same. If not, they still may: their registers may be others, a
    solver may be missing, or one step of induction may not be enough."""
    try:
        both = miter(with_all_as_outputs(old), with_all_as_outputs(new), starts=True)
        proofs: List[bytes] = []
        for step in (False, True):
            proof = solve(both.cnf(1, step=step), seconds=SECONDS, stop=stop).proof
            if proof is None:
                return False
            proofs.append(proof)
        return both.refute(1, proofs[0], step=proofs[1]) == "unreachable"
    except (AigError, ValueError, RuntimeError, FileNotFoundError):
        return False
