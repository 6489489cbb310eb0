"""Plain statements: assignments, blocks, `if`, assertions. See choices.py, loops.py and routines.py for the others."""

from __future__ import annotations

import os
from typing import Dict

from . import choices, loops, routines
from .names import Run
from .processes import ASSERTIONS, Processes, Property, Statement, nothing, table_of
from ..dumps.tree import Node
from .writes import write

# Statements that are no part of a circuit. Declarations are read before the statements run.
_NOTHING = ("display", "finish", "comment", "text", "var", "jumplabel", "typedef", "coverdecl", "delay", "dumpctl")


def block(p: Processes, node: Node, run: Run) -> None:
    """9.3: statements in order."""
    p.inside(node, run)


def assignment(p: Processes, node: Node, run: Run) -> None:
    """10.4: with = at once, and with <= after all statements. What runs once has no <=."""
    value, to = node.children
    if not run.initial:
        _refuse_static(p, node, to)
    write(p.meaning, to, p.meaning.elements(value, run), run, node.tag == "assigndly" and not run.initial)


def _refuse_static(p: Processes, node: Node, to: Node) -> None:
    """6.21: a static variable gets its initial value once. Verilator (5.006, 5.032) writes an assignment into the block,
    at the place of `=`."""
    declared = p.tree.known.get(str(to.get("of"))) if to.tag == "varref" else None
    if node.place != to.place or declared is None or declared.get("dir"):
        return
    if declared.get("vartype") == "blocktemp":  # the counter of `repeat`
        return
    is_kept = declared.get("lifetime") == "VSTATIC"
    if p.routine is not None and not is_kept:  # 5.006 makes all variables of routines automatic
        is_kept = not p.source.says(p.routine, "automatic") and not p.source.says(declared, "automatic")
    if is_kept:
        raise node.error("a static variable of a block, with an initial value")


def static_start(p: Processes, node: Node, run: Run) -> None:
    """6.21: as later versions write the initial value of a static variable."""
    if any(it.tag != "assign" or it.children[0].tag != "creset" for it in node.children):
        raise node.error("a static variable of a block, with an initial value")


def if_else(p: Processes, node: Node, run: Run) -> None:
    """12.4: a condition that is x is not true; here it is one of two values."""
    condition, yes, no = node.children
    p.branch(p.meaning.bit(condition, run), run, lambda it: p.inside(yes, it), lambda it: p.inside(no, it))


def expression(p: Processes, node: Node, run: Run) -> None:
    """11.4.2 and 13.4.1: an expression that is a statement."""
    for it in node.children:
        if it.tag in ("taskref", "funcref"):
            p.meaning.call(it, run)
        else:
            p.meaning.word(it, run)


def assertion(p: Processes, node: Node, run: Run) -> None:
    """16.3, 16.4 and 16.14: what is asserted, assumed or covered, where the statement is reached."""
    word = "cover" if node.tag == "cover" else p.source.word(node, ("assert", "assume", "restrict"))
    condition = p.meaning.bit(node.children[0], run)
    if word == "cover" and any(it.tag == "implication" for it in node.walk()):
        raise node.error("a cover of an implication")
    fails = condition if word == "cover" else p.words.invert(condition)
    name = f"{run.scope.path}{os.path.basename(node.place.file)}:{node.place.line}"
    if p.mark and p.mark == run.scope.path:
        name = p.mark[:-1]
    kind = "assume" if word == "restrict" else word
    p.properties.append(Property(kind, name, node, p.words.conj(run.path, fails)))


def memory(p: Processes, node: Node, run: Run) -> None:
    """21.4: a file that is read into an array."""
    if not run.initial:
        raise node.error("a file that is read again and again")
    p.memory(node, run)


_STATEMENTS: Dict[str, Statement] = {
    "begin": block, "assign": assignment, "assigndly": assignment, "if": if_else, "initialstaticstmt": static_start,
    "stmtexpr": expression, "readmem": memory, **{tag: assertion for tag in (*ASSERTIONS, "assertintrinsic")},
    **{tag: nothing for tag in _NOTHING}}
TABLE = table_of(_STATEMENTS, choices.TABLE, loops.TABLE, routines.TABLE)
