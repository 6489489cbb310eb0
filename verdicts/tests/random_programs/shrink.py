"""Makes a program smaller while it is judged in the same way."""

from __future__ import annotations

import tempfile
import time
from pathlib import Path
from typing import Iterator, List

from .judge import Judgement, Outcome, judged
from .program import Program
from .tree import Kind, Part, Tree

_DROPPED = (Kind.ITEM, Kind.STATEMENT)


def _replacements(tree: Tree) -> Iterator[List[Part]]:
    """What may stand in place of a part, the shortest first."""
    if tree.kind in _DROPPED:
        yield []
        for inside in tree.nearest(Kind.BODY):
            yield list(inside.parts)
    if tree.kind is Kind.BODY and len(tree.parts) > 3:
        middle = len(tree.parts) // 2
        yield tree.parts[:middle]
        yield tree.parts[middle:]
    if tree.kind is Kind.EXPRESSION and len(str(tree)) > 4:
        yield ["1'b0"]
        yield ["2'd1"]
        for inside in tree.nearest(Kind.EXPRESSION):
            yield list(inside.parts)


def shrunk(program: Program, seconds: float) -> Program:
    """The program without what does not matter for its judgement. It stops after so many seconds."""
    with tempfile.TemporaryDirectory() as folder:
        wanted = judged(program, Path(folder)).key
    end = time.monotonic() + seconds
    size = 0
    while size != len(str(program.tree)) and time.monotonic() < end:
        size = len(str(program.tree))
        for tree in list(program.tree.all()):
            for parts in _replacements(tree):
                if time.monotonic() > end:
                    break
                before, tree.parts = tree.parts, parts
                if str(program.tree) and not _is_judged(program, wanted):
                    tree.parts = before
                elif tree.kind is not Kind.EXPRESSION:
                    break
    return program


def _is_judged(program: Program, wanted: str) -> bool:
    with tempfile.TemporaryDirectory() as folder:
        return judged(program, Path(folder)).key == wanted
