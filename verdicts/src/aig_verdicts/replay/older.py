"""The timing of bundles of older versions, which do not name their clocks."""

from __future__ import annotations

import re
from typing import List, Set

from aig.circuit import Circuit
from ..audit.timing import Timing


def timing_of_older(script: str, circuit: Circuit, text: str) -> Timing:
    """The clocks by the script of Yosys, and by the text of the sources."""
    edges = {match[2]: match[1] for match in re.finditer(r"\b(posedge|negedge)\s+([A-Za-z_]\w*)", text)}
    for _ in range(3):  # a clock has other names inside of instances
        for match in re.finditer(r"\.\s*([A-Za-z_]\w*)\s*\(\s*([A-Za-z_]\w*)\s*\)", text):
            if match[1] in edges:
                edges.setdefault(match[2], edges[match[1]])
    inputs = [entry for entry in circuit.entries if entry.letter == "i" and re.match(r"\w+( |$)", entry.name)]
    named = [(entry.name.split(" ")[0], entry.literal) for entry in inputs]
    if "chformal -assume -early" not in script:
        return Timing(False, "", [name for name, _ in named if name in edges])
    read = _read(circuit)
    unread = [name for name, literal in named if literal not in read]
    found = [name for name in unread if name in edges] or [it for it in unread if re.search("cl(oc)?k", it)]
    return Timing(True, f"{edges.get(found[0], 'posedge')} {found[0]}" if found else "")


def _read(circuit: Circuit) -> Set[int]:
    """The positive literals that latches, gates and properties read."""
    lines = circuit.to("aag").decode("latin-1").split("\n")
    counts = [int(word) for word in lines[0].split(" ")[1:]] + [0] * 4
    states = 1 + counts[1] + counts[2]
    gates = states + counts[3] + sum(counts[5:9])
    body: List[str] = lines[1 + counts[1]:states] + lines[states + counts[3]:gates] + lines[gates:gates + counts[4]]
    return {int(word) & ~1 for line in body for word in line.split(" ")[:3]}
