"""`case`, `casez`, `casex` and `case inside`: 12.5 of IEEE 1800-2017."""

from __future__ import annotations

from typing import Dict, List, NamedTuple, Set

from .expressions import matches
from .names import Run
from .processes import Processes, Statement
from ..dumps.tree import Node, number

_WILD = {"case": "", "casez": "z", "casex": "xz"}
# Up to this width, a `case` is looked at for whether it has each value.
_MOST_BITS = 20


class Arm(NamedTuple):
    """Statements, and when they run if no arm before does."""

    condition: int
    body: List[Node]


def case(p: Processes, node: Node, run: Run) -> None:
    """12.5: the first item that matches. Verilator may not say which `case` it is: the source does."""
    word = node.get("keyword") or p.source.word(node, tuple(_WILD))
    wild = "xz" if p.source.is_inside(node) else _WILD[word]
    _refuse_mixed(p, node)
    subject = p.meaning.word(node.children[0], run)
    arms: List[Arm] = []
    other: List[Node] = []
    seen: Set[str] = set()
    for item in node.of("caseitem"):
        count = int(item.get("conditions") or 0)
        asked, body = item.children[:count], item.children[count:]
        if not asked:
            other = body
            continue
        condition = p.words.zero
        for it in asked:
            condition = p.words.disj(condition, _is_chosen(p, node, subject, it, wild, run))
            if it.tag == "const" and not set(number(it.name).bits) - set("01"):
                seen.add(number(it.name).bits)
        if len(seen) == 1 << min(p.words.width[subject], _MOST_BITS):  # all values: the last one is the rest
            arms.append(Arm(p.words.one, body))
            break
        arms.append(Arm(condition, body))
    _run(p, arms, other, run)


def _refuse_mixed(p: Processes, node: Node) -> None:
    """12.5.1: if one value of a `case` has no sign, none has. Verilator extends each pair of values by itself."""
    asked = [it for item in node.of("caseitem") for it in item.children[:int(item.get("conditions") or 0)]]
    values = [node.children[0], *(it for it in asked if it.tag != "insiderange")]
    inner = [it.children[0] if it.tag in ("extend", "extends") else it for it in values]
    signs = [number(it.name).signed if it.tag == "const" else p.tree.shape(it).signed for it in inner]
    is_negative = [it.tag == "const" and number(it.name).signed and number(it.name).bits[-1] != "0" for it in inner]
    if not all(signs) and (any(is_negative) or any(it.tag == "extends" for it in values)):
        raise node.error("a case of signed and unsigned values")


def _is_chosen(p: Processes, node: Node, subject: int, it: Node, wild: str, run: Run) -> int:
    """Whether a subject has this value, or is in this range (12.5.4)."""
    w = p.words
    if it.tag == "const":
        return matches(p.meaning, subject, number(it.name).bits, wild)
    if it.tag != "insiderange":
        return w.op("eq", subject, p.meaning.word(it, run))
    low, high = p.meaning.words_of(it.children, run)
    if p.tree.shape(node.children[0]).signed or not w.width[low] == w.width[high] == w.width[subject]:
        raise it.error("a range of signed values in a case")
    return w.conj(w.invert(w.op("ult", subject, low)), w.invert(w.op("ult", high, subject)))


def _run(p: Processes, arms: List[Arm], other: List[Node], run: Run) -> None:
    if not arms:
        p.run(other, run)
        return
    p.branch(arms[0].condition, run, lambda it: p.run(arms[0].body, it), lambda it: _run(p, arms[1:], other, it))


TABLE: Dict[str, Statement] = {"case": case}
