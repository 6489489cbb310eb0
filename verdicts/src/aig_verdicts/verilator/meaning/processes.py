"""What a process does, by running its statements once with words in place of values (9 and 12 of IEEE 1800-2017).

A run has the value of each signal that was written. Both arms of an `if` run, and their values are joined. statements.py,
choices.py, loops.py and routines.py have what each statement does; this has the state that they share."""

from __future__ import annotations

from typing import Callable, Dict, List, Mapping, NamedTuple, Optional, Tuple

from .values import Meaning
from .names import Run, Scope, plain
from ..dumps.source import Source
from ..dumps.tree import Node

Statement = Callable[["Processes", Node, Run], None]
ASSERTIONS = ("assert", "cover", "assume", "restrict")


class Property(NamedTuple):
    """What is asserted, assumed or covered: `when` says that it fails, or is reached."""

    kind: str
    name: str
    node: Node
    when: int


class Processes:
    """Runs statements, by a table of nodes. `memory` reads a file into an array."""

    def __init__(self, meaning: Meaning, source: Source, table: Mapping[str, Statement],
                 call: Callable[["Processes", Node, Run], int], memory: Callable[[Node, Run], None]) -> None:
        self.meaning, self.words, self.tree = meaning, meaning.words, meaning.tree
        self.source, self.memory, self._table = source, memory, table
        self.properties: List[Property] = []
        self.routine: Optional[Node] = None
        self.waiting: List[Tuple[Node, List[Run]]] = []  # labels around a statement, and what jumped to each
        self.left = False  # whether a run left a label that is not the innermost one
        self.has_ended = False  # whether a loop did
        self.deep = 0
        self.mark = ""  # the path of a block that has an assertion alone
        meaning.call = lambda node, run: call(self, node, run)
        meaning.effect = self.run
        meaning.sign_at = source.sign

    def run(self, nodes: List[Node], run: Run) -> None:
        """Runs statements in order, up to a jump."""
        for node in nodes:
            if not run.alive or run.path == self.words.zero:
                return
            if node.tag not in self._table:
                raise node.error(f"statement {node.tag}")
            self._table[node.tag](self, node, run)

    def inside(self, node: Node, run: Run) -> None:
        """9.3: a block. Its variables are names of its own. They are declared once."""
        if not node.name and not node.of("var"):
            self.run(node.children, run)
            return
        outer = run.scope
        if node not in outer.blocks:
            made = Scope(outer, outer.path + (plain(node.name) + "." if node.name else ""), outer.module)
            made.declare(self.words, self.tree.shape, node)
            outer.blocks[node] = made
        run.scope, mark = outer.blocks[node], self.mark
        is_label = len(node.children) == 1 and node.children[0].tag in ASSERTIONS
        self.mark = run.scope.path if is_label else ""
        self.run(node.children, run)
        run.scope, self.mark = outer, mark

    def branch(self, condition: int, run: Run, yes: Callable[[Run], None], no: Callable[[Run], None]) -> None:
        """12.4: one of two, or both, of which the values are joined."""
        w = self.words
        if condition in (w.one, w.zero):
            (yes if condition == w.one else no)(run)
            return
        on, off = w.conj(run.path, condition), w.conj(run.path, w.invert(condition))
        first, second = run.copy(on), run.copy(off)
        yes(first)
        no(second)
        run.become(w, condition, first, second, (first.path, second.path) != (on, off))

    def in_routine(self, routine: Node, scope: Scope, run: Run) -> None:
        """Runs the statements of a routine: its jumps are its own."""
        kept = self.waiting, self.left, self.routine, run.scope
        self.waiting, self.left, self.routine, run.scope = [], False, routine, scope
        self.deep += 1
        self.run(routine.children, run)
        self.deep -= 1
        self.waiting, self.left, self.routine, run.scope = kept


def nothing(processes: Processes, node: Node, run: Run) -> None:
    """A statement that is no part of a circuit."""


def table_of(*tables: Dict[str, Statement]) -> Dict[str, Statement]:
    """One table of several."""
    return {tag: it for table in tables for tag, it in table.items()}
