"""Loops and jumps: 12.7 and 12.8 of IEEE 1800-2017. A loop runs as often as it says, for its condition is a constant each
time. A jump (`break`, `continue`, `return`) leaves: the run waits at its label under the condition that it came with."""

from __future__ import annotations

from typing import Dict, List

from .names import Run
from .processes import Processes, Statement
from ..dumps.tree import Node, NotRead

MOST_TURNS = 1 << 14


def _too_long(node: Node) -> NotRead:
    return node.error(f"a loop of more than {MOST_TURNS} turns")


def _is_true(p: Processes, node: Node, run: Run) -> bool:
    """The condition of a loop."""
    asked = p.meaning.bit(node, run)
    if asked not in (p.words.one, p.words.zero):
        raise node.error("a loop whose end depends on a signal")
    return asked == p.words.one


def while_loop(p: Processes, node: Node, run: Run) -> None:
    """12.7.4, and `for` and `repeat`, which Verilator writes so."""
    before, condition, body, after = (it.children for it in node.children)
    for _ in range(MOST_TURNS):
        p.run(before, run)
        if not run.alive or not _is_true(p, condition[0], run):
            return
        p.run(body, run)
        p.run(after, run)
    raise _too_long(node)


def loop(p: Processes, node: Node, run: Run) -> None:
    """As later versions write a loop: its condition is one of its statements, perhaps in a block that `continue` leaves."""
    outer, body = p.has_ended, node.children[0].children + node.children[1].children
    for _ in range(MOST_TURNS):
        p.has_ended, before = False, run.path
        p.run(body, run)
        if p.has_ended:
            run.alive, run.path = True, before
        if p.has_ended or not run.alive or run.path == p.words.zero:
            p.has_ended = outer
            return
    raise _too_long(node)


def loop_test(p: Processes, node: Node, run: Run) -> None:
    """The condition of such a loop."""
    if not _is_true(p, node.children[0], run):
        p.has_ended, run.alive = True, False


def jump_block(p: Processes, node: Node, run: Run) -> None:
    """The statements up to a label, then what jumped to it. Each came under a condition of its own."""
    w = p.words
    came: List[Run] = []
    p.waiting.append((node, came))
    start = run.path
    p.run(node.children, run)
    p.waiting.pop()
    whole = run.path if run.alive else w.zero
    for other in came:
        whole = w.disj(whole, other.path)
        if run.alive:
            joined = run.copy(run.path)
            run.become(w, other.path, other, joined, False)
        else:
            run.now, run.later, run.alive = other.now, other.later, True
    run.path = whole if p.waiting and p.left else start
    p.left = p.left and bool(p.waiting)


def jump(p: Processes, node: Node, run: Run) -> None:
    """12.8: leaves for the label of a block around it."""
    found = next((it for it in p.waiting if it[0].get("id") == node.get("block")), None)
    if found is None:
        raise node.error("a jump out of nowhere")
    p.left = p.left or found is not p.waiting[-1]
    found[1].append(run.copy(run.path))
    run.alive = False


TABLE: Dict[str, Statement] = {"while": while_loop, "loop": loop, "looptest": loop_test, "jumpblock": jump_block,
                               "jumpgo": jump}
