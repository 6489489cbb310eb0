"""Registers: what a clocked process writes at the edge of its clock, and the values that asynchronous signals force.

The shape of statements does not say which edge is the clock's. The clock is the edge that the body does not read. What the
body gives while the signal of another edge is active has to be a constant, or the old value of the register."""

from __future__ import annotations

from dataclasses import dataclass
from typing import Dict, List, NamedTuple, Optional, Tuple

from .design import Clocked, Design
from .meaning.drivers import driven
from .meaning.names import Signal
from .dumps.tree import NotRead


class Forced(NamedTuple):
    """A value that bits of a register have while a signal is active. The others keep what they have."""

    active: int
    value: int
    bits: int  # a mask


@dataclass(frozen=True, eq=False)
class Register:
    """Bits of an element of a signal that a clocked process writes."""

    element: int
    low: int
    width: int
    clock: int
    rising: bool
    next: int
    forced: List[Forced]


def registers(design: Design) -> Dict[Signal, List[Register]]:
    """All registers of a design, by signal."""
    made: Dict[Signal, List[Register]] = {}
    for process in design.clocked:
        clock, others = split(design, process)
        for signal, words in process.writes.items():
            for element, (word, leaf) in enumerate(zip(words, signal.leaves)):
                if word == leaf:
                    continue
                for low, width in driven(design.words, word, leaf):
                    part = design.words.slice(word, low + width - 1, low)
                    old = design.words.slice(leaf, low + width - 1, low)
                    try:
                        forced = forcing(design, part, old, others, signal)
                    except NotRead as why:  # it matters only if something reads the register
                        forced = []
                        design.refused[signal] = str(why)
                    made.setdefault(signal, []).append(Register(element, low, width, clock[0], clock[1], part, forced))
    return made


def split(design: Design, process: Clocked) -> Tuple[Tuple[int, bool], List[Tuple[int, bool]]]:
    """The clock of a process, and its asynchronous signals."""
    if len(process.edges) == 1:
        return process.edges[0], []
    words = [it for written in process.writes.values() for it in written] + [it.when for it in process.properties]
    seen = design.words.everything(words)
    clocks = [it for it in process.edges if it[0] not in seen]
    if len(clocks) > 1:  # a reset that the body names, and that made no difference
        body = [x for it in process.node.children if it.tag != "sentree" for x in it.walk() if x.tag == "varref"]
        items = [x for it in process.node.of("sentree") for x in it.of("senitem")]
        named = {x.get("of") for x in body}
        clocks = [edge for edge, x in zip(process.edges, items) if x.children[0].get("of") not in named]
    if len(clocks) != 1:
        raise process.node.error(f"{len(clocks)} clocks of one block")
    return clocks[0], [it for it in process.edges if it != clocks[0]]


def forcing(design: Design, word: int, old: int, others: List[Tuple[int, bool]], signal: Signal) -> List[Forced]:
    """The values that asynchronous signals force, the strongest first."""
    w, made, left = design.words, [], list(others)
    while left:
        for edge in left:
            active = edge[0] if edge[1] else w.invert(edge[0])
            value = w.replaced(word, {edge[0]: w.const(int(edge[1]), 1)}, {})
            constant = known_bits(design, value, old)
            if constant is not None:
                made.append(Forced(active, *constant))
                word = w.replaced(word, {edge[0]: w.const(int(not edge[1]), 1)}, {})
                left.remove(edge)
                break
        else:
            raise signal.node.error(f"the asynchronous value of {signal.path} is no constant")
    return made


def known_bits(design: Design, value: int, old: int) -> Optional[Tuple[int, int]]:
    """A constant, and a mask of its bits, where each other bit of a word is the old one; None if there is something else."""
    w, made, mask = design.words, 0, 0
    if value == old:
        return 0, 0
    for k in range(w.width[value]):
        bit = w.slice(value, k, k)
        if w.value(bit) is not None:
            made, mask = made | int(w.value(bit) or 0) << k, mask | 1 << k
        elif bit != w.slice(old, k, k):
            return None
    return made, mask
