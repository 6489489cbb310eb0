"""Designs in RTLIL, the text that Yosys writes between two passes. What nobody changes stays as it is, line by line."""

from __future__ import annotations

import re
from dataclasses import dataclass, field
from typing import Dict, Iterator, List, Match, Sequence

_TOKEN = re.compile(r'"(?:\\.|[^"\\])*"|[^ ]+')
_CONSTANT = re.compile(r"(\d+)'([01xzm-]*)")
_RANGE = re.compile(r"\[(\d+)(?::(\d+))?\]")
_ESCAPE = re.compile(r"\\([0-7]{1,3}|.)", re.DOTALL)
_SOURCE = re.compile(r' *attribute \\src "(.*)"')
_PLACE = re.compile(r"(?:sources/)?(.*):(\d+)\.\d+-(\d+)\.\d+")
_BEGIN = re.compile(r"(.*:\d+)\.")


def place_of(source: str) -> str:
    """The file and the last line of an attribute `src`, which may name several places."""
    match = _PLACE.fullmatch(source.split("|")[-1])
    return f"{match[1]}:{match[3]}" if match else "?"


def source_in(line: str) -> str:
    """What an attribute `src` names; nothing if the line is none."""
    match = _SOURCE.fullmatch(line)
    return match[1] if match else ""


def marked(name: str) -> str:
    """The line of an attribute that is 1, without the blanks before it."""
    return f"attribute \\{name} 1"


def has_mark(attributes: Sequence[str], name: str) -> bool:
    """Whether one of these attributes is 1."""
    return any(line.strip() == marked(name) for line in attributes)


def signals(text: str) -> List[str]:
    """The signals of a line, each as it is written: `\\q [3:0]`, `{ \\a 2'01 }`, `4'0000`."""
    found: List[str] = []
    depth = 0
    for token in _TOKEN.findall(text):
        if depth or found and _RANGE.fullmatch(token):
            found[-1] += f" {token}"
        else:
            found.append(token)
        depth += (token == "{") - (token == "}")
    return found


@dataclass
class Item:
    """A wire, a memory, a cell, a process or a connection of a module, with the attributes above it."""

    attributes: List[str]
    lines: List[str]

    @property
    def kind(self) -> str:
        return self.lines[0].split()[0]

    @property
    def words(self) -> List[str]:
        return self.lines[0].split()

    @property
    def name(self) -> str:
        return self.words[-1]

    @property
    def place(self) -> str:
        return place_above(self.attributes)

    @property
    def begin(self) -> str:
        """The file and the first line of its last place, as Yosys has them."""
        found = (_BEGIN.match(source_in(line).split("|")[-1]) for line in self.attributes)
        return next((match[1] for match in found if match), "?:0")

    def parts(self, word: str) -> Dict[str, str]:
        """The ports of a cell (`connect`), or its parameters (`parameter`)."""
        found = {}
        for line in self.lines[1:-1]:
            match = re.match(rf"    {word} (?:signed |real )?\\(\S+) (.*)", line)
            if match:
                found[match[1]] = match[2]
        return found


def place_above(attributes: Sequence[str]) -> str:
    """The place that some lines of attributes name."""
    return next((place_of(source) for source in map(source_in, attributes) if source), "?")


@dataclass
class Module:
    """A module: its attributes, its first line, wires that were added, and its items in order."""

    attributes: List[str]
    head: str
    items: List[Item] = field(default_factory=list)
    added: List[str] = field(default_factory=list)

    @property
    def name(self) -> str:
        return self.head.split()[1]

    def of(self, kind: str) -> Iterator[Item]:
        return (item for item in self.items if item.kind == kind)

    def add(self, *lines: str) -> None:
        """Adds a cell or a connection."""
        self.items.append(Item([], list(lines)))

    def declare(self, wire: str, width: int = 1, attributes: Sequence[str] = ()) -> None:
        """Adds a wire. Yosys reads it before all that uses it."""
        self.added += [*attributes, f"  wire width {width} {wire}"]

    def lines(self) -> List[str]:
        inside = [line for item in self.items for line in (*item.attributes, *item.lines)]
        return [*self.attributes, self.head, *self.added, *inside, "end"]

    def widths(self) -> Dict[str, int]:
        """The width of each wire."""
        return {wire.name: int(wire.words[wire.words.index("width") + 1]) if "width" in wire.words else 1
                for wire in self.of("wire")}


def _escaped(match: Match[str]) -> str:
    """The letter of an escape in a text: `\\n`, `\\t`, three octal digits, or the letter itself."""
    word = match[1]
    return chr(int(word, 8)) if word[0] in "01234567" else {"n": "\n", "t": "\t"}.get(word, word)


def bits(signal: str, widths: Dict[str, int]) -> List[str]:
    """The bits of a signal, the lowest one first: `\\q [2]`, or `0`, `1` and `x`."""
    found: List[str] = []
    tokens = _TOKEN.findall(signal)
    for at, token in enumerate(tokens):
        constant = _CONSTANT.fullmatch(token)
        if constant:
            width, values = int(constant[1]), constant[2]
            found += values.rjust(width, "0" if values[:1] in ("", "0", "1") else values[0])[:width]
        elif token[0] in "\\$":
            part = _RANGE.fullmatch(tokens[at + 1]) if at + 1 < len(tokens) else None
            high = int(part[1]) if part else widths[token] - 1
            low = int(part[2] or part[1]) if part else 0
            found += [f"{token} [{k}]" for k in range(high, low - 1, -1)]
        elif token.isdigit():
            found += format(int(token), "032b")
        elif token[0] == '"':
            found += "".join(format(ord(it), "08b") for it in _ESCAPE.sub(_escaped, token[1:-1]))
    return found[::-1]


def joined(parts: Sequence[str]) -> str:
    """A signal of these bits, the lowest one first."""
    return "{ " + " ".join(f"1'{part}" if part in ("0", "1", "x", "z", "m", "-") else part for part in reversed(parts)) + " }"


@dataclass
class Text:
    """A whole file: what comes before the modules, and these."""

    before: List[str]
    modules: List[Module]

    def text(self) -> str:
        return "\n".join([*self.before, *(line for module in self.modules for line in module.lines()), ""])


def read(text: str) -> Text:
    """The modules of a file that Yosys wrote."""
    whole = Text([], [])
    attributes: List[str] = []
    module = item = None
    for line in text.split("\n"):
        if item is not None:
            item.lines.append(line)
            item = None if line == "  end" else item
        elif module is None and line.startswith("module "):
            module = Module(attributes, line)
            attributes = []
        elif line.lstrip().startswith("attribute "):
            attributes.append(line)
        elif module is None:
            whole.before += [line] if line else []
        elif line == "end":
            whole.modules.append(module)
            module = None
        else:
            module.items.append(Item(attributes, [line]))
            attributes = []
            item = module.items[-1] if line.startswith(("  cell ", "  process ")) else None
    return whole
