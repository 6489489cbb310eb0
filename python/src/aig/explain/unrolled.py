"""Why nothing is made of a circuit for so many frames."""

from __future__ import annotations

import subprocess
from contextlib import suppress
from typing import Optional, Sequence, Tuple

from .._where import program
from .lines import Lines
from .reader import Header, free_latches_of, header_of

MOST_FRAMES, MOST_COUNT = 65_536, 4_194_303


def unrolled(circuit: bytes, frames: int) -> Optional[Tuple[int, int, int, int]]:
    """M, outputs, bad state properties and constraints of a circuit in so many frames."""
    header, uninitialised = header_of(circuit), free_latches_of(circuit)
    if header is None or uninitialised is None:
        return None
    bad, constraints = header.bad * frames, header.constraints * frames
    guards = bad + constraints if bad and constraints else 0
    return ((header.inputs + header.gates) * frames + uninitialised + guards, header.outputs * frames, bad,
            0 if guards else constraints)


def variables(circuit: bytes, options: Sequence[str]) -> Optional[int]:
    """How many variables a formula has, as `aig cnf` prints it. That is read no further than its header."""
    words = [program(), "cnf", *options, "/dev/stdin"]
    with subprocess.Popen(words, stdin=subprocess.PIPE, stdout=subprocess.PIPE, stderr=subprocess.DEVNULL) as printing:
        assert printing.stdin is not None and printing.stdout is not None
        with suppress(BrokenPipeError), printing.stdin as file:
            file.write(circuit)
        head = next((line for line in printing.stdout if line.startswith(b"p cnf ")), None)
    return int(head.split()[2]) if head else None


def push_frames(lines: Lines, circuit: bytes, name: str, frames: int, is_formula: bool) -> None:
    """What is over its limit in a circuit that is unrolled, or in a formula."""
    if frames > MOST_FRAMES:
        lines.add(f"{name} is {frames}", "wanted: at most 65,536 frames")
        return
    if is_formula:
        lines.add("the property and the constraints read too many inputs and gates for so many frames",
                  "wanted: a formula of at most 4,194,304 variables; take fewer frames")
        return
    names = ("M =", "outputs:", "bad state properties:", "constraints:")
    for counted, count in zip(names, unrolled(circuit, frames) or ()):
        if count > MOST_COUNT:
            lines.add(f"the unrolled circuit would have {counted} {count}")
    lines.add("wanted: M and each count of at most 4,194,303; unroll for fewer frames")


def push_unroll(lines: Lines, circuit: bytes, frames: int, fault: str, name: str = "") -> None:
    """Why a circuit is not unrolled for K frames. A formula of so many has a name for them: K, or K + 1 in a step."""
    header = header_of(circuit)
    if fault == "no frames":
        lines.add(f"K is {frames}", "wanted: at least one frame")
    elif fault == "limit":
        push_frames(lines, circuit, name or "K", frames, bool(name))
    elif header:
        lines.add(f"the circuit has justice properties: {header.justice}, fairness constraints: {header.fairness}",
                  "wanted: none of them: aig select --to aag CIRCUIT > NEW leaves them out")


def push_bench(lines: Lines, circuit: bytes, rows: int) -> None:
    """Why the values of a run are too many for a bench."""
    header = header_of(circuit)
    if header is None:
        lines.add(f"(M + 1) * {rows} rows; wanted: at most 67,108,864")
        return
    lines.add(f"M = {header.max_var} and {rows} rows: (M + 1) * rows = {(header.max_var + 1) * rows}",
              "wanted: at most 67,108,864; use fewer rows")


def push_bad_count(lines: Lines, header: Optional[Header]) -> None:
    """How many bad state properties there are, and outputs that may stand for them."""
    if header is None:
        lines.add("the circuit has fewer of them")
        return
    lines.add(f"the circuit has bad state properties: {header.bad}, outputs: {header.outputs}")
    if header.outputs and not header.bad:
        lines.add("a circuit of AIGER 1.0 has only outputs, which may stand for bad states:",
                  "aig select --from outputs --to aag CIRCUIT > NEW makes properties of them")
