"""The errors. The text of each is the line that the program prints, with the explanation below it."""

from __future__ import annotations


class AigError(Exception):
    """The program rejected an input.

    part         what it rejected: circuit, stimulus, witness, model, proof, ..
    reason       why, as in `cycle 2`
    explanation  the cause, the place and what to do, as `aig-explain` prints it
    """

    def __init__(self, part: str, reason: str, explanation: str = ""):
        super().__init__(f"{part}: {reason}" + (f"\n{explanation}" if explanation else ""))
        self.part, self.reason, self.explanation = part, reason, explanation


class OutOfMemory(AigError, MemoryError):
    """The program ran out of memory."""


class Unreadable(AigError, OSError):
    """A read or a write failed."""


class Crashed(RuntimeError):
    """The program ended without an answer: a signal ended it, or it is no `aig`. Nothing is known of its input."""


class EditError(AigError):
    """A bench cannot do an edit, or answer a query. Nothing changed.

    number  the number of the reply `no`, from 1 to 13
    done    of several edits, how many were done before it
    """

    def __init__(self, number: int, line: str, done: int = 0):
        super().__init__("bench", f"{REPLIES.get(number, number)} (no {number} to the line {line!r})")
        self.number, self.done = number, done


REPLIES = {
    1: "not the literal of a gate",
    2: "not the literal of a latch",
    3: "literal out of range",
    4: "undefined variable",
    5: "the gates would form a cycle",
    6: "no such frame",
    7: "no such input",
    8: "not one value per input",
    9: "no frame to remove or to unroll",
    10: "over a limit",
    11: "out of memory",
    12: "justice properties or fairness constraints, which unroll does not support",
    13: "no such output",
}


def error_of(status: int, said: str) -> Exception:
    """The error for a run that ended with this status and this text on standard error."""
    first, _, rest = said.strip().partition("\n")
    if not first.startswith("aig: "):
        return Crashed(f"aig ended with status {status}: {said.strip() or 'no message'}")
    part, _, reason = first[len("aig: "):].partition(": ")
    # The names of the memory files are this package's own, and say nothing to its user.
    explanation = "\n".join(line for line in rest.split("\n") if not line.startswith("  file: /proc/self/fd/"))
    if not reason:
        return OutOfMemory("program", part, explanation)
    kind = {"memory": OutOfMemory, "input or output": Unreadable}.get(reason, AigError)
    return kind(part, reason, explanation)
