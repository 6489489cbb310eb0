"""The tree that Verilator has elaborated: nodes with a tag, attributes, a place and children, and what its types hold.

No module that imports this one knows how Verilator writes the tree: text_tree.py, json_tree.py and nodes.py do."""

from __future__ import annotations

import re
from dataclasses import dataclass, field
from typing import Dict, Iterator, List, Optional, Set, Tuple


class NotRead(Exception):
    """The design has something that this reader does not read. The message says what."""


@dataclass(frozen=True)
class Place:
    """A position in a source."""

    file: str
    line: int
    column: int
    piece: str = ""  # the file by Verilator's name: see source.py

    def __str__(self) -> str:
        return f"{self.file}:{self.line}" if self.file else f"line {self.line}"


@dataclass(eq=False)
class Node:
    """A node of the tree."""

    tag: str
    attributes: Dict[str, str]
    place: Place
    children: List["Node"] = field(default_factory=list)
    fault: str = ""  # why it must not be read

    @property
    def name(self) -> str:
        """Its name, or an empty text."""
        return self.attributes.get("name", "")

    def get(self, key: str) -> Optional[str]:
        """One of its attributes."""
        return self.attributes.get(key)

    def of(self, *tags: str) -> List["Node"]:
        """Its children of these tags."""
        return [it for it in self.children if it.tag in tags]

    def walk(self) -> Iterator["Node"]:
        """It and everything below it."""
        yield self
        for child in self.children:
            yield from child.walk()

    def error(self, text: str) -> NotRead:
        """What to raise where this node cannot be read."""
        return NotRead(f"{self.place}: {text}")


@dataclass(frozen=True)
class Shape:
    """What a variable holds: `depth` elements (1, if it is no array), each a word of `width` bits."""

    width: int
    depth: int = 1
    signed: bool = False
    two_valued: bool = False  # its initial value is 0, not x


_WIDTHS = {"integer": 32, "int": 32, "byte": 8, "shortint": 16, "longint": 64, "time": 64, "logic": 1, "bit": 1,
           "LOGIC_IMPLICIT": 1}
_TWO_VALUED = ("bit", "int", "byte", "shortint", "longint")
# Types that are another type under a name of their own.
_NAMES = ("refdtype", "enumdtype", "memberdtype", "constdtype")


class Tree:
    """The modules and types of a design."""

    def __init__(self, root: Node, known: Dict[str, Node]) -> None:
        self.modules: Dict[str, Node] = {}
        self.packages: List[Node] = []
        self.types: Dict[str, Node] = {}
        self.known = known  # nodes by the numbers that refer to them
        self._shapes: Dict[str, Shape] = {}
        self._right: Set[Node] = set()
        for it in root.walk():
            if it.tag in ("module", "iface"):
                self.modules[it.name] = it
            elif it.tag == "package":
                self.packages.append(it)
            elif it.tag.endswith("dtype") and it.get("id"):
                self.types[str(it.get("id"))] = it
        tops = [it for it in self.modules.values() if it.get("topModule") == "1"]
        if len(tops) != 1:
            raise NotRead(f"{len(tops)} top modules")
        self.top = tops[0]

    def check(self, node: Node) -> None:
        """Stops at anything below a node that is not known. Routines are checked where they are called."""
        if node in self._right:
            return
        todo = [node]
        while todo:
            it = todo.pop()
            if it.fault:
                raise it.error(it.fault)
            todo += [x for x in it.children if x.tag not in ("func", "task")]
        self._right.add(node)

    def shape(self, node: Node) -> Shape:
        """What a node holds."""
        key = node.get("dtype_id")
        if key is None:
            raise node.error(f"{node.tag} without a type")
        return self.shape_of(key)

    def shape_of(self, key: str) -> Shape:
        """What a type holds. Verilator says the width of each type as well: the two have to agree."""
        if key not in self._shapes:
            kind = self.type_of(key)
            made = self._measured(kind)
            if kind.get("whole") is None or made.width != int(str(kind.get("whole"))):
                raise kind.error(f"a type {kind.tag} of {made.width} bits, and Verilator says {kind.get('whole')}")
            self._shapes[key] = made
        return self._shapes[key]

    def type_of(self, key: str) -> Node:
        """The node of a type."""
        kind = self.types.get(key)
        if kind is None:
            raise NotRead("a type that Verilator's dump does not have")
        if kind.fault:
            raise kind.error(kind.fault)
        return kind

    def below(self, kind: Node) -> Optional[str]:
        """The type that a type is another name of, or that its elements have."""
        if kind.tag == "paramtypedtype" and kind.get("dtype_id") not in (None, kind.get("id")):
            return kind.get("dtype_id")
        return kind.get("sub_dtype_id")

    def _measured(self, kind: Node) -> Shape:
        below, signed = self.below(kind), kind.get("signed") == "true"
        if kind.tag == "basicdtype":
            return self._basic(kind, signed)
        if below and kind.tag in (*_NAMES, "paramtypedtype"):
            return self.shape_of(below)
        if kind.tag == "memberdtype" and kind.get("whole"):  # 5.032 leaves out the type of some
            return Shape(int(str(kind.get("whole"))), 1, signed)
        if below and kind.tag == "packarraydtype":
            element = self.shape_of(below)
            return Shape(element.width * self.count(kind), 1, signed, element.two_valued)
        if below and kind.tag == "unpackarraydtype":
            element = self.shape_of(below)
            return Shape(element.width, element.depth * self.count(kind), element.signed, element.two_valued)
        if kind.tag in ("structdtype", "uniondtype"):
            return self._members(kind, signed)
        raise kind.error(f"a type {kind.tag}")

    @staticmethod
    def _basic(kind: Node, signed: bool) -> Shape:
        left, right = kind.get("left"), kind.get("right")
        if kind.name not in _WIDTHS:
            raise kind.error(f"a value of type {kind.name}")
        width = _WIDTHS[kind.name] if left is None or right is None else abs(int(left) - int(right)) + 1
        return Shape(width, 1, signed, kind.name in _TWO_VALUED)

    def _members(self, kind: Node, signed: bool) -> Shape:
        members = [self.shape_of(str(it.get("id"))) for it in kind.of("memberdtype")]
        if not members or any(it.depth != 1 for it in members):
            raise kind.error(f"a type {kind.tag} without members, or with arrays")
        widths = [it.width for it in members]
        return Shape(sum(widths) if kind.tag == "structdtype" else max(widths), 1, signed,
                     all(it.two_valued for it in members))

    @staticmethod
    def bounds(kind: Node) -> Tuple[int, int]:
        """The left and the right bound of an array's range."""
        ends = [it for x in kind.of("range") for it in x.of("const")]
        if len(ends) != 2:
            raise kind.error("an array without a constant range")
        return number(ends[0].name).known(), number(ends[1].name).known()

    def count(self, kind: Node) -> int:
        """How many elements an array has."""
        left, right = self.bounds(kind)
        return abs(left - right) + 1


@dataclass(frozen=True)
class Number:
    """A constant: bits from the least significant one, each of 0, 1, x and z."""

    bits: str
    signed: bool

    def known(self) -> int:
        """Its value; an x or z is rejected."""
        if set(self.bits) - set("01"):
            raise NotRead("an x where a number is needed")
        value = int(self.bits[::-1], 2)
        return value - (1 << len(self.bits)) if self.signed and self.bits[-1] == "1" else value


def number(text: str) -> Number:
    """The constant that Verilator writes as 8'hff, 32'sh2 or 4'b1zz. It leaves out zeros in front, also before z."""
    found = re.fullmatch(r"(\d+)'(s?)([hbdo])([0-9a-fxz?_]+)", text.lower())
    if not found:
        raise NotRead(f"the constant {text[:40]}")
    width, signed, base, digits = int(found[1]), bool(found[2]), found[3], found[4].replace("_", "").replace("?", "z")
    if base == "d":
        bits = format(int(digits), "b")[::-1]
    else:
        each = {"h": 4, "b": 1, "o": 3}[base]
        bits = "".join(it * each if it in "xz" else format(int(it, 16), f"0{each}b")[::-1] for it in reversed(digits))
    return Number((bits + "0" * width)[:width], signed)
