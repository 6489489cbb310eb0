"""The source that Verilator reads: the text of its own preprocessor, in which each line says where it was written, with
the few changes of changes.py. A word at the place of a node is looked up in this very text, so macros and includes do
not matter."""

from __future__ import annotations

import re
from typing import Dict, Iterator, List, Set, Tuple

from . import changes
from .tokens import DIRECTIVE, closing, pieces, tokens_of
from .tree import Node, NotRead

_PIECE = "#piece"
_CASE = re.compile(r"\bcase[xz]?\b")
_WORD = re.compile(r"(?:(?:unique0?|priority)\s+)?(\$?\w+)")
# How far a subject of a `case`, or an attribute, may be from its word: in lines.
_LINES_AFTER, _LINES_BEFORE = 40, 20
_LONGEST = 676


def real(file: str) -> str:
    """The name of a file whose piece has a name of its own."""
    return file.split(_PIECE)[0]


def without_pieces(text: str) -> str:
    """A message with the names of files alone."""
    return re.sub(_PIECE + r"\d+", "", text)


class Source:
    """The text, and its lines by file and number."""

    def __init__(self, text: str) -> None:
        made = changes.changed(text)
        self.text, self.notes = made
        self.written = self.text
        self.files: List[str] = []
        self._pieces: List[str] = []
        self._lines: Dict[Tuple[str, int], Tuple[int, str]] = {}
        self._insides: Set[Tuple[str, int, int]] = set()  # where `case (..) inside` is
        self.index()

    def escape(self, name: str) -> None:
        """Escapes a name of Verilog that is a word of SystemVerilog."""
        self.text = changes.escaped(self.text, name)
        self.index()

    def index(self) -> None:
        """Makes the text for Verilator, in which no two pieces of text have one place. Lines that a macro gives twice,
        and the rest of a long line (5.006 says columns modulo 676), get a file name of their own."""
        made: List[str] = []
        self._lines, self.files = {}, []
        said, following = "", 0
        for file, number, piece in self._numbered():
            name, k = file, 1
            while (name, number) in self._lines:
                name, k = f"{file}{_PIECE}{k + 1}", k + 1
            if name != said or number != following:
                made.append(f'`line {number} "{name}" 0')
                self.files += [name] if name not in self.files else []
            self._lines[name, number] = len(made), piece
            made.append(piece)
            said, following = name, number + 1
        self.written, self._pieces = "\n".join(made) + "\n", made
        self._insides = set(self._found_insides()) if re.search(r"\binside\b", self.text) else set()

    def _numbered(self) -> Iterator[Tuple[str, int, str]]:
        """The pieces of the lines of the text, with their files and numbers."""
        file, number = changes.PACKAGE, 1
        for line in self.text.split("\n"):
            found = DIRECTIVE.fullmatch(line.strip())
            if found:
                file, number = found[2], int(found[1])
                continue
            for piece in pieces(line):
                yield file, number, piece
            number += 1

    def _found_insides(self) -> Iterator[Tuple[str, int, int]]:
        for (name, number), (at, piece) in self._lines.items():
            for it in _CASE.finditer(piece):
                if self._before_inside(at, piece[it.end():]):
                    yield name, number, it.start() + 1

    def _before_inside(self, at: int, rest: str) -> bool:
        """Whether `inside` follows the subject of a `case`, of which the rest of the line is given."""
        more = [it for it in self._pieces[at + 1:at + _LINES_AFTER] if not it.startswith("`line")]
        tokens = tokens_of(" ".join([rest, *more]))
        if not tokens or tokens[0].text != "(":
            return False
        after = closing(tokens, 0) + 1
        return after < len(tokens) and tokens[after].text == "inside"

    # -- what is at the place of a node
    def line(self, file: str, number: int) -> str:
        """The text of a line, or of its piece."""
        made = self._lines.get((file, number), (0, ""))[1]
        if len(made) > _LONGEST:
            raise NotRead(f"{real(file)}:{number}: a word of more than 600 characters")
        return made

    def word(self, node: Node, expected: Tuple[str, ...]) -> str:
        """The word at the place of a node, which has to be one of these."""
        text = self.line(node.place.piece, node.place.line)
        found = _WORD.match(text, max(node.place.column - 1, 0))
        if not found or found[1] not in expected:
            raise node.error(f"none of {', '.join(expected)} at column {node.place.column}")
        return found[1]

    def sign(self, node: Node, expected: Tuple[str, ...]) -> str:
        """The sign at the place of a node, which has to be one of these."""
        text = self.line(node.place.piece, node.place.line)[max(node.place.column - 1, 0):]
        found = [it for it in expected if text.startswith(it)]
        if not found:
            raise node.error(f"none of {', '.join(expected)} at column {node.place.column}")
        return found[0]

    def is_inside(self, node: Node) -> bool:
        """Whether a `case` is one with `inside`."""
        text = self.line(node.place.piece, node.place.line)
        found = _WORD.match(text, max(node.place.column - 1, 0))
        return (node.place.piece, node.place.line, found.start(1) + 1 if found else 0) in self._insides

    def attribute(self, node: Node, word: str) -> bool:
        """Whether a declaration has an attribute, which Verilator leaves out. It comes after the end of the declaration
        before it."""
        at, piece = self._lines.get((node.place.piece, node.place.line), (0, ""))
        lines = [it for it in self._pieces[max(at - _LINES_BEFORE, 0):at] if not it.startswith("`line")]
        before = re.split(r";|\bbegin\b|\bend\b", "\n".join([*lines, piece[:node.place.column - 1]]))[-1]
        return any(word in it for it in re.findall(r"\(\*(.*?)\*\)", before, re.S))

    def says(self, node: Node, word: str) -> bool:
        """Whether the line of a node has a word."""
        return re.search(rf"\b{word}\b", self.line(node.place.piece, node.place.line)) is not None
