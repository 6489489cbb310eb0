"""The values of expressions. expressions.py has what each node means; this has what they all need: the width of each
value compared with the type that Verilator gives the node, names, and open values."""

from __future__ import annotations

from typing import Callable, Dict, List, Mapping, Optional, Set, Tuple

from .names import Named, Run, Signal, Value
from ..dumps.tree import Node, Place, Shape, Tree
from .words import Words

Expression = Callable[["Meaning", Node, Run], int]
Elements = Callable[["Meaning", Node, Run], Value]
# Nodes whose type is that of what is around them.
_OTHER_WIDTH = ("funcref", "methodcall", "resizelvalue")


class Meaning:
    """The values of expressions, by a table of nodes that are one word and one of nodes that may be an array.

    `call` runs a routine and `effect` statements: processes.py gives them, and the source gives `sign_at`."""

    def __init__(self, words: Words, tree: Tree, table: Mapping[str, Expression], arrays: Mapping[str, Elements]) -> None:
        self.words, self.tree, self._table, self._arrays = words, tree, table, arrays
        self.call: Callable[[Node, Run], int] = lambda node, run: 0
        self.effect: Callable[[List[Node], Run], None] = lambda nodes, run: None
        self.sign_at: Callable[[Node, Tuple[str, ...]], str] = lambda node, expected: ""
        nowhere = Node("var", {}, Place("", 0, 0))
        self.first = Signal(words, "first_frame", Shape(1), nowhere)  # true in the first frame alone
        self.opens: Set[int] = set()  # the leaves that are any value
        self.kept: Dict[int, str] = {}  # leaves that must not matter, and why
        self.pasts: List[Tuple[Signal, Value]] = []  # registers of $past, and what they get

    def free(self, width: int, node: Node) -> int:
        """Any value: an x of this place."""
        made = self.words.leaf("input", width, f"open:{node.place.line}")
        self.opens.add(made)
        return made

    def word(self, node: Node, run: Run) -> int:
        """The value of an expression that is one word."""
        value = self.elements(node, run)
        if len(value) != 1:
            raise node.error("a whole array in an expression")
        return value[0]

    def elements(self, node: Node, run: Run) -> Value:
        """The elements of an array, or the one word of an expression. They have to be as wide as its type, and as many."""
        if node.tag in self._arrays:
            made = self._arrays[node.tag](self, node, run)
        elif node.tag in self._table:
            made = (self._table[node.tag](self, node, run),)
        else:
            raise node.error(f"operator {node.tag}")
        if node.get("dtype_id") and node.tag not in _OTHER_WIDTH:
            shape, width = self.tree.shape(node), self.words.width[made[0]]
            if width != shape.width or len(made) != shape.depth:
                says = f"{shape.depth} of {shape.width}"
                raise node.error(f"{node.tag} has {len(made)} of {width} bits, and by Verilator {says}")
        return made

    def words_of(self, nodes: List[Node], run: Run) -> List[int]:
        """The values of expressions."""
        return [self.word(it, run) for it in nodes]

    def bit(self, node: Node, run: Run) -> int:
        """Whether a condition is true (12.4)."""
        return self.words.any(self.word(node, run))

    def known(self, node: Node, run: Run) -> int:
        """The value of an expression that has to be a constant here."""
        value = self.words.value(self.word(node, run))
        if value is None:
            raise node.error("a value that has to be constant")
        return value

    def named(self, node: Node, run: Run) -> Optional[Named]:
        """What a reference means here. Verilator says the declaration; a name before it says of which instance."""
        declared = self.tree.known.get(str(node.get("of")))
        if declared is None:
            raise node.error(f"the name {node.name} without a declaration")
        self.tree.check(declared)
        dotted = node.get("dotted")
        if not dotted:
            return run.scope.declared(declared)
        found = run.scope.find(node.name, dotted)
        if found is not declared and not (isinstance(found, Signal) and found.node is declared):
            raise node.error(f"the name {dotted}.{node.name} of something else")
        return found
