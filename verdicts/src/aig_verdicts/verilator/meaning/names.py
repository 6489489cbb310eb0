"""Signals, the scopes that their names are in, and what a run of statements knows of them."""

from __future__ import annotations

import re
from typing import Callable, Dict, List, Optional, Tuple, Union

from ..dumps.tree import Node, NotRead, Shape
from .words import Words

Value = Tuple[int, ...]  # the words of the elements of a signal
Driver = Tuple[int, int, int, int]  # the element, its lowest bit, how many bits, their value
LONGEST = 1 << 14


class Signal:
    """A variable or a net. Its leaves stand for its elements until circuit.py knows what drives them."""

    def __init__(self, words: Words, path: str, shape: Shape, node: Node) -> None:
        if shape.depth > LONGEST:
            raise node.error(f"an array of {shape.depth} words")
        self.path, self.shape, self.node, self._words = path, shape, node, words
        self.direction = node.get("dir") or ""
        self.drivers: List[Driver] = []
        self.start: Optional[Value] = None
        self._leaves: Optional[Value] = None

    @property
    def leaves(self) -> Value:
        """A leaf for each element."""
        if self._leaves is None:
            made = (self._words.leaf("signal", self.shape.width, self.path) for _ in range(self.shape.depth))
            self._leaves = tuple(made)
            self._words.owner.update({it: (self, k) for k, it in enumerate(self._leaves)})
        return self._leaves


Named = Union[Signal, "Scope", Node]


def plain(name: str) -> str:
    """A name without Verilator's spelling of dots and brackets."""
    name = name.replace("__DOT__", ".").replace("__BRA__", "[").replace("__KET__", "]")
    return re.sub(r"__0([0-9A-F]{2})", lambda it: chr(int(it[1], 16)), name)


class Scope:
    """The names of an instance of a module, of a block, or of a call."""

    def __init__(self, outer: Optional["Scope"], path: str, module: str) -> None:
        self.outer, self.path, self.module = outer, path, module
        self.names: Dict[str, Named] = {}
        self.blocks: Dict[Node, "Scope"] = {}

    def declare(self, words: Words, shape: Callable[[Node], Shape], node: Node) -> None:
        """What the children of a node declare."""
        for it in node.children:
            if it.tag == "var" and it.get("vartype") == "ifaceref":
                continue
            if it.tag in ("func", "task") or it.tag == "var" and it.get("param") == "true":
                self.names[it.name] = it  # the value of a constant is below it
            elif it.tag == "var":
                self.names[it.name] = Signal(words, self.path + plain(it.name), shape(it), it)

    def find(self, name: str, dotted: str) -> Named:
        """What a name with the names of instances before it means here."""
        scope: Optional[Scope] = self
        for word in plain(dotted).split("."):
            found = scope.search(word) if scope is not None else None
            if not isinstance(found, Scope):
                raise NotRead(f"the name {plain(dotted)}.{name}")
            scope = found
        if scope is None or name not in scope.names:
            raise NotRead(f"the name {plain(dotted)}.{name}")
        return scope.names[name]

    def declared(self, node: Node) -> Optional[Named]:
        """What a declaration is here: the nearest one with this very node, not only with its name. Packages come last."""
        last = self
        for scope in self._outwards():
            if _is(scope.names.get(node.name), node):
                return scope.names[node.name]
            last = scope
        for it in last.names.values():
            if isinstance(it, Scope) and _is(it.names.get(node.name), node):
                return it.names[node.name]
        return None

    def search(self, name: str) -> Optional[Named]:
        """What a name means here, or None."""
        return next((it.names[name] for it in self._outwards() if name in it.names), None)

    @property
    def root(self) -> "Scope":
        """The outermost scope."""
        return self._outwards()[-1]

    def _outwards(self) -> List["Scope"]:
        """It and the scopes around it."""
        made = [self]
        while made[-1].outer is not None:
            made.append(made[-1].outer)
        return made


def _is(found: Optional[Named], node: Node) -> bool:
    return found is node or isinstance(found, Signal) and found.node is node


class Run:
    """The state of statements that run: the values that they wrote, those that `<=` will write, and the condition under
    which they run. Outside of a process nothing is written, and each signal is its leaf."""

    def __init__(self, scope: Scope, path: int) -> None:
        self.scope, self.path = scope, path
        self.now: Dict[Signal, Value] = {}
        self.later: Dict[Signal, Value] = {}
        self.alive = True
        self.initial = False

    def read(self, signal: Signal) -> Value:
        """The elements of a signal."""
        return self.now.get(signal) or signal.leaves

    def copy(self, path: int) -> "Run":
        """Another run that goes on from here under another condition."""
        made = Run(self.scope, path)
        made.now, made.later, made.initial = dict(self.now), dict(self.later), self.initial
        return made

    def become(self, words: Words, condition: int, yes: "Run", no: "Run", left: bool) -> None:
        """After a branch: `yes` where the condition is true, else `no`. A run that left for a label does not count.
        `left`: something inside an arm did."""
        self.alive = yes.alive or no.alive
        if yes.alive != no.alive:
            kept = yes if yes.alive else no
            self.now, self.later, self.path = kept.now, kept.later, kept.path
            return
        self.now = _merged(words, condition, yes.now, no.now)
        self.later = _merged(words, condition, yes.later, no.later)
        if left:
            self.path = words.disj(yes.path, no.path)


def _merged(words: Words, c: int, yes: Dict[Signal, Value], no: Dict[Signal, Value]) -> Dict[Signal, Value]:
    made = {}
    for signal in [*no, *(it for it in yes if it not in no)]:
        a, b = yes.get(signal) or signal.leaves, no.get(signal) or signal.leaves
        made[signal] = a if a == b else tuple(x if x == y else words.ite(c, x, y) for x, y in zip(a, b))
    return made
