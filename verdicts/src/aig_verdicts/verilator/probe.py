"""Whether the tree of a Verilator is read as IEEE 1800 says: probe.sv, which has no input but its clock, is read and
computed by the reader itself. Each bit of `ok` has to be 1 in each of 12 cycles, each bit of `open` has to be left open,
and the properties have to be of their kinds and to fail where they do. So a Verilator is rejected that moves, renames or
drops something that the probe has."""

from __future__ import annotations

import hashlib
import os
import shutil
from pathlib import Path
from typing import Callable, Dict, List, NamedTuple, Optional

from .circuit import Circuit
from .labels import bits_of
from .dumps.tree import NotRead

HERE = Path(__file__).resolve().parent
FILE, TOP = HERE / "probe.sv", "probe"
CYCLES = 12
CHECKS = 160
OPEN = -1
# The kinds of the properties, and the cycles in which they are violated, or reached. No assumption is ever violated.
_PROPERTIES = [("assert", []), ("assert", []), ("assert", [3]), ("assert", [5, 6, 7, 8, 9, 10, 11]), ("assert", [7, 8]),
               ("cover", [3])]
_ASSUMPTIONS = 3
_MOST_FAULTS = 3


class Cycle(NamedTuple):
    """The outputs in a cycle, and what violates or reaches each property; None for what is open."""

    outputs: Dict[str, List[Optional[int]]]
    whens: List[Optional[int]]


def computed(circuit: Circuit) -> List[Cycle]:
    """The cycles of the circuit of the probe."""
    w = circuit.words
    state = {it: it if first is None else first for it, (first, _) in circuit.states.items()}
    made = []
    for _ in range(CYCLES):
        memo: Dict[int, int] = {}
        outputs: Dict[str, List[Optional[int]]] = {}
        for label, word in circuit.outputs:
            value = w.replaced(word, state, memo)
            bits = [w.value(w.slice(value, k, k)) for k in range(w.width[value])]
            outputs[bits_of(label, len(bits))[0].partition("[")[0]] = bits
        whens = [w.value(w.replaced(when, state, memo)) for _, when in circuit.bads + circuit.constraints]
        made.append(Cycle(outputs, whens))
        state = {it: w.replaced(following, state, memo) for it, (_, following) in circuit.states.items()}
    return made


def wrong(circuit: Circuit) -> List[str]:
    """What the circuit of the probe is not as it should be."""
    made, cycles = [], computed(circuit)
    for at, cycle in enumerate(cycles):
        beat = [min(at, 9) >> k & 1 for k in range(4)]
        bad = [str(k) for k, bit in enumerate(cycle.outputs["ok"]) if bit != 1]
        known = [str(k) for k, bit in enumerate(cycle.outputs["open"]) if bit is not None]
        if bad or len(cycle.outputs["ok"]) != CHECKS:
            made.append(f"cycle {at}: checks {', '.join(bad)}")
        if known:
            made.append(f"cycle {at}: what should be open is not: {', '.join(known)}")
        if cycle.outputs["beat"] != beat:
            made.append(f"cycle {at}: beat is {cycle.outputs['beat']}")
    said = sorted((it.kind, [at for at, cycle in enumerate(cycles) if cycle.whens[k] != 0])
                  for k, (it, _) in enumerate(circuit.bads))
    if said != _PROPERTIES:
        made.append(f"the properties {said}")
    broken = [at for at, cycle in enumerate(cycles) for it in cycle.whens[len(circuit.bads):] if it != 0]
    if broken or len(circuit.constraints) != _ASSUMPTIONS:
        made.append(f"{len(circuit.constraints)} assumptions, violated in cycles {broken}")
    return made


def ensure(read: Callable[[], Circuit], verilator: str) -> None:
    """Stops at a Verilator whose tree is not understood. One that passed is remembered, with the reader that read it."""
    cache = Path(os.environ.get("XDG_CACHE_HOME") or Path.home() / ".cache") / "aig-verdicts" / "verilator"
    mark = cache / _fingerprint(verilator)
    if mark.exists():
        return
    found = wrong(read())
    if found:
        raise NotRead("this Verilator's tree is not read as it should be: " + "; ".join(found[:_MOST_FAULTS]))
    try:
        cache.mkdir(parents=True, exist_ok=True)
        mark.write_text(verilator + "\n", encoding="utf-8")
    except OSError:
        pass  # the next run asks again


def _fingerprint(verilator: str) -> str:
    """Of Verilator's program and of the reader: their files, with sizes and times."""
    found = Path(shutil.which(verilator) or verilator).resolve()
    binary = found.parent / "verilator_bin"
    files = [found, *([binary] if binary.exists() else []), *sorted(HERE.rglob("*.py")), FILE]
    made = hashlib.sha256()
    for it in files:
        about = it.stat()
        made.update(f"{it} {about.st_size} {about.st_mtime_ns}\n".encode())
    return made.hexdigest()
