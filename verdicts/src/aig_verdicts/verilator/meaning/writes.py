"""Assignments to variables and to parts of them, perhaps at variable indices: 10.3, 10.4 and 11.5.1 of IEEE 1800-2017.
What is out of range is not written."""

from __future__ import annotations

from typing import List, NamedTuple, Optional

from .values import Meaning
from .names import Run, Signal, Value
from .operators import BINARY
from .parts import index, signed_value
from ..dumps.tree import Node, number


class Target(NamedTuple):
    """A place that is written: bits of elements of a signal."""

    signal: Signal
    elements: List[int]  # candidates
    choice: Optional[int]  # the word that chooses one, as its number among the candidates
    low: int
    width: int
    at: Optional[int]  # the word of a variable index into the bits
    step: int  # how many elements one of a choice has
    skip: int = 0  # how many of the lowest bits of the value are out of range


def size(m: Meaning, node: Node) -> int:
    """The width of a left side."""
    if node.tag == "sel":
        return number(node.children[2].name).known()
    if node.tag == "concat":
        return sum(size(m, it) for it in node.children)
    return size(m, node.children[0]) if node.tag == "replicate" else m.tree.shape(node).width


def write(m: Meaning, to: Node, value: Value, run: Run, later: bool) -> None:
    """An assignment: with `later`, one with <=."""
    w = m.words
    if to.tag == "concat":  # 11.4.12: the right one has the lower bits
        low = size(m, to.children[1])
        write(m, to.children[0], (w.slice(value[0], w.width[value[0]] - 1, low),), run, later)
        write(m, to.children[1], (w.slice(value[0], low - 1, 0),), run, later)
        return
    if to.tag == "replicate":  # {1{..}}: Verilator's form of {a}
        write(m, to.children[0], value, run, later)
        return
    aim = target(m, to, run)
    old = (run.later.get(aim.signal) or aim.signal.leaves) if later else run.read(aim.signal)
    made = list(old)
    if aim.elements and len(value) != aim.step:
        raise to.error(f"{len(value)} words for {aim.step} elements")
    for place, first in enumerate(aim.elements):
        for k in range(aim.step):
            new = _part(m, old[first + k], aim, value[k], to)
            if aim.choice is not None:
                hit = w.op("eq", aim.choice, w.const(place, w.width[aim.choice]))
                new = w.ite(hit, new, old[first + k])
            made[first + k] = new
    (run.later if later else run.now)[aim.signal] = tuple(made)


def _part(m: Meaning, old: int, aim: Target, value: int, to: Node) -> int:
    """An element after bits of it are written."""
    w, whole = m.words, m.words.width[old]
    if aim.at is None:
        high = min(aim.low + aim.width, whole) - 1
        if aim.skip + high - aim.low >= w.width[value]:
            raise to.error(f"{w.width[value]} bits for a part of {aim.width}")
        parts = [w.slice(old, aim.low - 1, 0)] if aim.low else []
        parts.append(w.slice(value, high - aim.low + aim.skip, aim.skip))
        return w.joined(parts + ([w.slice(old, whole - 1, high + 1)] if high + 1 < whole else []))
    pad, room = aim.width - 1, whole + aim.width - 1  # bits below bit 0, for an index that may be there
    by = w.op("add", aim.at, w.const(pad, w.width[aim.at]))
    ones = w.uext(w.const(-1, aim.width), room)
    mask, moved = (w.slice(BINARY["shiftl"](w, it, by), room - 1, pad) for it in (ones, w.uext(value, room)))
    return w.op("or", w.op("and", old, w.invert(mask)), w.op("and", moved, mask))


def target(m: Meaning, to: Node, run: Run) -> Target:
    """What a left side names."""
    if to.tag in ("varref", "varxref"):
        found = m.named(to, run)
        if not isinstance(found, Signal):
            raise to.error(f"the name {to.name}")
        return Target(found, [0], None, 0, found.shape.width, None, found.shape.depth)
    if to.tag == "arraysel":
        return _element(m, to, run)
    if to.tag == "sel":
        return _bits(m, to, run)
    raise to.error(f"an assignment to {to.tag}")


def _element(m: Meaning, to: Node, run: Run) -> Target:
    """An element of an array."""
    w, base, step = m.words, target(m, to.children[0], run), m.tree.shape(to).depth
    rows = base.step // step
    place = index(m, to.children[1], run, rows)
    at = w.value(place)
    if at is not None and base.choice is None:
        return base._replace(elements=[base.elements[0] + at * step] if at < rows and base.elements else [], step=step)
    wide = w.width[place] + 1 + max(rows, len(base.elements)).bit_length()
    inside, choice = w.op("ult", w.uext(place, wide), w.const(rows, wide)), w.uext(place, wide)
    if base.choice is not None:
        wide += w.width[base.choice]
        above = w.op("mul", w.uext(base.choice, wide), w.const(rows, wide))
        outer = w.op("ult", w.uext(base.choice, wide), w.const(len(base.elements), wide))
        inside, choice = w.conj(inside, outer), w.op("add", w.uext(choice, wide), above)
    choice = w.ite(inside, choice, w.const(-1, wide))
    elements = [it + k * step for it in base.elements for k in range(rows)]
    return base._replace(elements=elements, choice=choice, step=step)


def _bits(m: Meaning, to: Node, run: Run) -> Target:
    """A part of a vector."""
    w, base, width = m.words, target(m, to.children[0], run), m.known(to.children[2], run)
    place = index(m, to.children[1], run, base.signal.shape.width + width)
    at = w.value(place)
    if at is not None and base.at is None:
        at = signed_value(at, w.width[place])
        first, end = max(at, 0), min(at + width, base.width)
        if end <= first:
            return base._replace(elements=[], width=1)
        return base._replace(low=base.low + first, width=end - first, skip=first - at)
    if base.low or base.width != base.signal.shape.width or base.at is not None:
        return _inner(m, base, place, width)
    return base._replace(width=width, at=place)


def _inner(m: Meaning, base: Target, place: int, width: int) -> Target:
    """A part of a part at variable indices: it is written only where it is inside of the outer one."""
    w = m.words
    widths = [w.width[place], base.signal.shape.width.bit_length() + 1]
    wide = max(widths + ([w.width[base.at]] if base.at is not None else [])) + 1
    lowest = w.const(base.low, wide)
    if base.at is not None:
        lowest = w.op("add", lowest, w.sext(base.at, wide))
    inside = w.op("ult", w.sext(place, wide), w.const(max(base.width - width + 1, 0), wide))
    nowhere = w.const(-(1 << (wide - 1)), wide)
    at = w.ite(inside, w.op("add", lowest, w.sext(place, wide)), nowhere)
    return base._replace(low=0, width=width, at=at)
