"""Values for each x of a run: a failure does not need them, and who looks at it does. And whether a run goes on for ever."""

from __future__ import annotations

from functools import lru_cache

from ..errors import Crashed, OutOfMemory
from ..program import run as call

# Bytes of a run. That of a small circuit can be too many for any memory.
MOST_TRACE = 1 << 28


def filled(witness: bytes) -> bytes:
    """A witness with 0 for each x."""
    first, name, *rows = witness.split(b"\n")
    return b"\n".join([first, name, *(row.replace(b"x", b"0") for row in rows)])


def has_free(witness: bytes) -> bool:
    """Whether some value of a witness is x."""
    return b"x" in witness


def fits(concrete: bytes, witness: bytes) -> bool:
    """Whether a run has a value for each x of a witness, and is the same beside these."""
    return len(concrete) == len(witness) and all(
        own in b"01" if it == ord("x") else own == it for own, it in zip(concrete, witness))


@lru_cache(maxsize=1)
def comes_back(circuit: bytes, witness: bytes) -> bool:
    """Whether a run that keeps the assumptions comes back to a state. Then the inputs in between can go on for ever. An
    x may be anything, so it is 0 here. Where `aig` has no answer, nothing is known."""
    try:
        said = call("check", "--trace", files=[circuit, filled(witness)], good=(0, 1), most=MOST_TRACE)
    except (OutOfMemory, Crashed):
        return False
    states = [line.split(b" ")[0] for line in said.split(b"\n")[:-2]]
    return len(set(states)) < len(states)
