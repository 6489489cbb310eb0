"""The tree of the sources, as Yosys' parser reads them: what `read_verilog -dump_ast1` prints, before Yosys makes
anything of it."""

from __future__ import annotations

import re
from dataclasses import dataclass, field
from typing import Iterator, List, Optional, Sequence, Tuple

_NODE = re.compile(r"( +)(?:ATTR |AST_(\w+) <(.*?)>(?: str='\\?([^']*)')?(?:.*? bits='([01xz?]*)')?(.*))")
_PLACE = re.compile(r"(?:sources/)?(.*?):([1-9]\d*)\.")
_FLAG = re.compile(r" (signed|input|output)\b")


@dataclass
class Node:
    """A node: its kind, place and name, the bits of a constant, and what a declaration or a constant is besides."""

    kind: str
    place: str
    name: str
    bits: str
    is_signed: bool
    is_input: bool
    is_output: bool
    before: str  # the place of the node before it, which is its own if it has one
    parts: List[Node] = field(default_factory=list)

    def all(self) -> Iterator[Node]:
        """The node and all below it, in the order of the source."""
        waiting = [self]
        while waiting:
            node = waiting.pop()
            yield node
            waiting += reversed(node.parts)

    @property
    def line(self) -> str:
        """The file and line. Where there is none, it is that of the first part that has one, or of the node before."""
        return next((found for found in (line(it.place) for it in self.all()) if found != "?"), line(self.before))


def line(place: str) -> str:
    """The file and line of a place."""
    match = _PLACE.match(place)
    return f"{match[1]}:{match[2]}" if match else "?"


def nodes(lines: Sequence[str]) -> List[Node]:
    """All nodes, each before its parts. Values of attributes are none."""
    found: List[Node] = []
    above: List[Tuple[int, Node]] = []
    attribute: Optional[int] = None  # the indentation of the one that is open
    before = "?"
    for text in lines:
        match = _NODE.match(text)
        if match:
            indent = len(match[1])
            if attribute is not None and indent > attribute:
                continue
            attribute = None if match[2] else indent
            if match[2]:
                before = match[3] if _PLACE.match(match[3]) else before
                flags = set(_FLAG.findall(match[6]))
                node = Node(match[2], match[3], match[4] or "", match[5] or "", "signed" in flags, "input" in flags,
                            "output" in flags, before)
                while above and above[-1][0] >= indent:
                    above.pop()
                if above:
                    above[-1][1].parts.append(node)
                above.append((indent, node))
                found.append(node)
    return found


def modules(each: Sequence[Node]) -> List[Node]:
    return [node for node in each if node.kind in ("MODULE", "PACKAGE", "INTERFACE")]
