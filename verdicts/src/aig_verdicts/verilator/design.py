"""A design: what each module, package and process says, as words over leaves. circuit.py makes a circuit of it."""

from __future__ import annotations

from typing import Dict, List, NamedTuple, Tuple

from . import first_values, instances
from .meaning.drivers import driven
from .meaning.expressions import TABLE as EXPRESSIONS
from .labels import Labels
from .meaning.values import Meaning
from .meaning.names import Run, Scope, Signal, Value, plain
from .meaning.parts import ARRAYS
from .meaning.processes import ASSERTIONS, Processes, Property
from .meaning.routines import call
from .dumps.source import Source
from .meaning.statements import TABLE as STATEMENTS
from .dumps.tree import Node, Tree
from .meaning.words import Words
from .meaning.writes import size, target

# What is no part of a circuit, or is read at another place.
_NOTHING = ("var", "func", "task", "typedef", "range", "text", "comment", "modport", "pragma", "genvar", "timeunit",
            "coverdecl", "topscope", "clocking", "property", "sequence", "defparam", "import", "final", "scopename",
            "paramtypedtype", "instance")
_STARTS = ("initial", "initialstatic", "initialautomatic")


class Clocked(NamedTuple):
    """A process of registers: its edges, what it writes, its properties and where it is."""

    edges: List[Tuple[int, bool]]  # a word, and whether its edge is the rising one
    writes: Dict[Signal, Value]
    properties: List[Property]
    node: Node


class Design:
    """Everything that the tree says."""

    def __init__(self, tree: Tree, source: Source) -> None:
        self.tree, self.source, self.words, self.labels = tree, source, Words(), Labels(tree)
        self.meaning = Meaning(self.words, tree, EXPRESSIONS, ARRAYS)
        files = first_values.Files(self.meaning, source)
        self.processes = Processes(self.meaning, source, STATEMENTS, call, files.read)
        self.clocked: List[Clocked] = []
        self.free_properties: List[Property] = []
        self.signals: List[Signal] = []
        self.starts: List[Tuple[Scope, Node]] = []  # what runs once
        self.refused: Dict[Signal, str] = {}
        self.holds: Dict[int, Tuple[Signal, int]] = {}  # a leaf of the old value of a latch: its signal and element
        self.top = self.instance(tree.top, self._packages(), "")
        first_values.run_once(self)

    def _packages(self) -> Scope:
        """The scope of all packages."""
        made = Scope(None, "", "")
        for it in self.tree.packages:
            scope = made.names[it.name] = Scope(None, it.name + "::", it.name)
            scope.declare(self.words, self.tree.shape, it)
            self.signals.extend(x for x in scope.names.values() if isinstance(x, Signal))
            for child in it.of(*_STARTS):
                self.tree.check(child)
                self.starts.append((scope, child))
        return made

    def instance(self, module: Node, outer: Scope, path: str) -> Scope:
        """A module: first all names, then its instances (interfaces before modules), then the rest."""
        scope = Scope(outer, path, module.name)
        self.module(module, scope)
        return scope

    def module(self, node: Node, scope: Scope) -> None:
        """The body of a module, in a scope that may have names of ports already."""
        self.tree.check(node)
        self._names(node, scope)
        for kind in ("iface", "module"):
            self._instances(node, scope, kind)
        self._rest(node, scope)

    def _names(self, node: Node, scope: Scope) -> None:
        scope.declare(self.words, self.tree.shape, node)
        self.signals.extend(it for it in scope.names.values() if isinstance(it, Signal))
        for it in node.of("begin"):
            inner = scope.blocks[it] = Scope(scope, scope.path + (plain(it.name) + "." if it.name else ""), scope.module)
            if it.name:
                scope.names.setdefault(plain(it.name), inner)
            self._names(it, inner)

    def _instances(self, node: Node, scope: Scope, kind: str) -> None:
        for it in node.of("instance"):
            if instances.body(self, it).tag == kind:
                instances.connect(self, it, scope)
        for it in node.of("begin"):
            self._instances(it, scope.blocks[it], kind)

    def _rest(self, node: Node, scope: Scope) -> None:
        for it in node.children:
            if it.tag == "contassign":
                value, to = it.children[:2]
                self.drive(to, self.meaning.elements(value, Run(scope, self.words.one)), scope)
            elif it.tag == "always":
                self._always(it, scope)
            elif it.tag in ASSERTIONS:
                self._assertion(it, scope)
            elif it.tag in _STARTS:
                self.starts.append((scope, it))
            elif it.tag == "begin":
                self._rest(it, scope.blocks[it])
            elif it.tag not in _NOTHING:
                raise it.error(f"an item {it.tag}")

    def drive(self, to: Node, value: Value, scope: Scope) -> None:
        """10.3: adds a driver of what a left side of constant indices names."""
        if to.tag == "concat":
            w, low = self.words, size(self.meaning, to.children[1])
            self.drive(to.children[0], (w.slice(value[0], w.width[value[0]] - 1, low),), scope)
            self.drive(to.children[1], (w.slice(value[0], low - 1, 0),), scope)
            return
        if to.tag == "replicate":  # {a}
            to = to.children[0]
        aim = target(self.meaning, to, Run(scope, self.words.one))
        if aim.at is not None or aim.choice is not None:
            raise to.error("a variable index of a net that is driven")
        for k in range(aim.step if aim.elements else 0):
            part = self.words.slice(value[k], aim.skip + aim.width - 1, aim.skip)
            aim.signal.drivers.append((aim.elements[0] + k, aim.low, aim.width, part))

    def _run(self, nodes: List[Node], scope: Scope) -> Tuple[Run, List[Property], Dict[Signal, Value]]:
        """Runs statements: the run, its properties, and the registers of earlier values that it needs."""
        run = Run(scope, self.words.one)
        before, pasts = len(self.processes.properties), len(self.meaning.pasts)
        self.processes.run(nodes, run)
        return run, self.processes.properties[before:], dict(self.meaning.pasts[pasts:])

    def _edges(self, items: List[Node], scope: Scope) -> List[Tuple[int, bool]]:
        outside = Run(scope, self.words.one)
        if any(it.get("edgeType") not in ("POS", "NEG") for it in items):
            raise items[0].error("an event that is no edge, or both edges")
        return [(self.meaning.bit(it.children[0], outside), it.get("edgeType") == "POS") for it in items]

    def _assertion(self, it: Node, scope: Scope) -> None:
        """16.14: a property of booleans at edges of a clock, or one of each frame."""
        _, properties, pasts = self._run([it], scope)
        spec = it.children[0]
        while spec.tag == "sampled":
            spec = spec.children[0]
        items = spec.children[1].children if spec.tag == "propspec" else []
        if items:
            self.clocked.append(Clocked(self._edges(items, scope), pasts, properties, it))
            return
        if spec.tag == "propspec":
            self.source.notes.append(f"{it.place}: a property without a clock is checked in each frame")
        if pasts:
            raise it.error("an earlier value without a clock")
        self.free_properties.extend(properties)

    def _always(self, node: Node, scope: Scope) -> None:
        """9.2.2 and 9.4: a process."""
        body = [it for it in node.children if it.tag != "sentree"]
        items = [it for tree in node.of("sentree") for it in tree.of("senitem")]
        run, properties, pasts = self._run(body, scope)
        for signal in run.later:
            if signal in run.now and run.now[signal] != signal.leaves:
                raise node.error(f"{signal.path} gets = and <=")
        edges = [it for it in items if it.get("edgeType") in ("POS", "NEG", "BOTH")]
        if edges and len(edges) != len(items):
            raise node.error("edges and other events of one block")
        if edges:
            writes = {**run.now, **run.later, **pasts}
            self.clocked.append(Clocked(self._edges(edges, scope), writes, properties, node))
            return
        if pasts:
            raise node.error("an earlier value without a clock")
        self.free_properties.extend(properties)
        for signal, words in {**run.now, **run.later}.items():
            self._settled(signal, words)

    def _settled(self, signal: Signal, words: Value) -> None:
        """What a block without a clock gives a signal. Bits that keep their old value are not driven, or a latch's."""
        w = self.words
        for element, (word, leaf) in enumerate(zip(words, signal.leaves)):
            if word == leaf:
                continue
            ranges = driven(w, word, leaf)
            if leaf in w.support([word]):
                hold = w.leaf("signal", w.width[leaf], signal.path)
                self.holds[hold] = (signal, element)
                pieces, at = [], 0
                for low, width in ranges:
                    pieces += ([w.slice(leaf, low - 1, at)] if low > at else []) + [w.slice(hold, low + width - 1, low)]
                    at = low + width
                pieces += [w.slice(leaf, w.width[leaf] - 1, at)] if at < w.width[leaf] else []
                word = w.replaced(word, {leaf: w.joined(pieces)}, {})
            for low, width in ranges:
                signal.drivers.append((element, low, width, w.slice(word, low + width - 1, low)))
