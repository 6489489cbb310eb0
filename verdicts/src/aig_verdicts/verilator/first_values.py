"""What runs once (6.8, 9.2.1 of IEEE 1800-2017), and files that are read into memories (21.4)."""

from __future__ import annotations

import os
import re
from typing import TYPE_CHECKING, Dict, List

from .meaning.values import Meaning
from .meaning.names import Run, Signal, Value
from .dumps.source import Source
from .dumps.tree import Node

if TYPE_CHECKING:
    from .design import Design

_BASES = {"$readmemh": 16, "$readmemb": 2}


def run_once(design: Design) -> None:
    """Runs what runs once, in order, each with what the ones before it left. Declarations come before `initial`."""
    values: Dict[Signal, Value] = {}
    for scope, node in sorted(design.starts, key=lambda it: it[1].tag == "initial"):
        run = Run(scope, design.words.one)
        run.initial, run.now = True, values
        before = len(design.processes.properties)
        design.processes.run(node.children, run)
        for it in design.processes.properties[before:]:  # they are about the first frame
            is_first = design.meaning.first.leaves[0]
            design.free_properties.append(it._replace(when=design.words.conj(is_first, it.when)))
        values = run.now
    for signal in design.signals:
        if signal.shape.two_valued:  # 6.8, table 6-7
            signal.start = (design.words.const(0, signal.shape.width),) * signal.shape.depth
    for signal, words in values.items():
        signal.start = words


class Files:
    """Reads files into memories."""

    def __init__(self, meaning: Meaning, source: Source) -> None:
        self._meaning, self._words, self._source = meaning, meaning.words, source

    def read(self, node: Node, run: Run) -> None:
        """$readmemh and $readmemb of a file into a whole memory."""
        if len(node.children) > 2:
            raise node.error("a file that is read into a part of a memory")
        name, to = node.children
        found = self._meaning.named(to, run) if to.tag in ("varref", "varxref") else None
        path = self._path(name)
        paths = (path, os.path.join(os.path.dirname(node.place.file), path))
        where = next((it for it in paths if os.path.exists(it)), None)
        if where is None or not isinstance(found, Signal):
            raise node.error(f"the file {path}")
        with open(where, encoding="latin-1") as file:
            content = re.sub(r"//[^\n]*|/\*.*?\*/", " ", file.read(), flags=re.S).split()
        kind = self._meaning.tree.types[str(found.node.get("dtype_id"))]
        has_places = any(it.startswith("@") for it in content)
        if kind.tag != "unpackarraydtype" or has_places and min(self._meaning.tree.bounds(kind)) != 0:
            raise node.error(f"a file that is read into {found.path}")
        base = _BASES[self._source.word(node, tuple(_BASES))]
        run.now[found] = self._rows(content, list(run.read(found)), base, found.shape.width, node)

    @staticmethod
    def _path(name: Node) -> str:
        """The name of a file: a text, or its bytes as a number."""
        name = name.children[0] if name.tag == "cvtpackstring" else name  # since 5.048
        text = re.sub(r"^\d+'h", "", name.name).strip('"')
        return bytes.fromhex(text).decode() if re.fullmatch(r"(?:[0-9a-f]{2})+", text) else text

    def _rows(self, content: List[str], rows: List[int], base: int, width: int, node: Node) -> Value:
        at = 0
        for it in content:
            if it.startswith("@"):
                at = int(it[1:], 16)
                continue
            if at < len(rows):
                rows[at] = self._row(it, base, width, node)
            at += 1
        return tuple(rows)

    def _row(self, text: str, base: int, width: int, node: Node) -> int:
        """A number, or any value where a digit is x."""
        if set(text.lower()) & set("xz?"):
            return self._meaning.free(width, node)
        try:
            return self._words.const(int(text.replace("_", ""), base), width)
        except ValueError:
            raise node.error(f"a file with {text[:40]}") from None
