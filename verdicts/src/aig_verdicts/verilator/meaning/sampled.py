"""Values of earlier cycles, and properties of booleans: 16.9 and 16.12 of IEEE 1800-2017. Each earlier value is a register
of its own, at the clock of the block or of the property."""

from __future__ import annotations

from typing import Dict

from .values import Expression, Meaning
from .names import Run, Signal
from .operators import BINARY
from ..dumps.tree import Node, Shape

_NOW, _NEXT = "|->", "|=>"


def _before(m: Meaning, word: int, node: Node) -> Signal:
    """A register that has a word of the cycle before."""
    nameless = Node("past", {}, node.place)  # it has no type of the source
    made = Signal(m.words, f"past:{node.place.line}", Shape(m.words.width[word]), nameless)
    m.pasts.append((made, (word,)))
    return made


def past(m: Meaning, node: Node, run: Run) -> int:
    """16.9.3: the value of so many cycles ago."""
    before = m.word(node.children[0], run)
    ticks = m.known(node.children[1], run) if len(node.children) > 1 else 1
    for _ in range(ticks):
        before = _before(m, before, node).leaves[0]
    return before


def change(m: Meaning, node: Node, run: Run) -> int:
    """16.9.3: $rose and $fell look at the lowest bit, $stable and $changed at all of them."""
    w, now = m.words, m.word(node.children[0], run)
    before = _before(m, now, node).leaves[0]
    if node.tag in ("rose", "fell"):
        a, b = w.slice(before, 0, 0), w.slice(now, 0, 0)
        return w.conj(w.invert(a), b) if node.tag == "rose" else w.conj(a, w.invert(b))
    same = w.op("eq", before, now)
    return same if node.tag == "stable" else w.invert(same)


def implication(m: Meaning, node: Node, run: Run) -> int:
    """16.12.7: inside of a property, only one about the same cycle."""
    if m.sign_at(node, (_NOW, _NEXT)) == _NEXT:
        raise node.error("operator |=> inside of another one")
    return BINARY["logif"](m.words, *m.words_of(node.children[:2], run))


def specification(m: Meaning, node: Node, run: Run) -> int:
    """16.12: the condition of a property, unless it is disabled. design.py reads its clock."""
    disabled = node.children[2].children
    off = m.bit(disabled[0], run) if disabled else m.words.zero
    return m.words.disj(off, _condition(m, node.children[0], off, run))


def _condition(m: Meaning, node: Node, off: int, run: Run) -> int:
    """16.12.7: `a |=> b` is about b now, and whether a was true in the cycle before and nothing disabled it."""
    w = m.words
    if node.tag != "implication" or m.sign_at(node, (_NOW, _NEXT)) == _NOW:
        return m.bit(node, run)
    if any(it.tag == "implication" for x in node.children for it in x.walk()):
        raise node.error("|=> and another implication")
    before = _before(m, w.conj(m.bit(node.children[0], run), w.invert(off)), node)
    before.start = (w.zero,)
    return w.disj(w.invert(before.leaves[0]), m.bit(node.children[1], run))


TABLE: Dict[str, Expression] = {"past": past, "rose": change, "fell": change, "stable": change, "changed": change,
                                "implication": implication, "propspec": specification}
