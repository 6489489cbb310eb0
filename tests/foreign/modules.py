"""Finds the modules of a text that can be compared: those that have inputs and a body, and that no other one uses."""

from __future__ import annotations

import re
from functools import lru_cache
from pathlib import Path
from typing import Dict, Iterator, List, Match, NamedTuple, Sequence, Set, Tuple

_QUIET = re.compile(r'//[^\n]*|/\*.*?\*/|"(?:\\.|[^"\\\n])*"', re.DOTALL)
_NAME = r"[A-Za-z_][\w$]*"
_MODULE = re.compile(rf"""(?:\(\*[^()]*\*\)\s*)*  # its attributes
    (?<![\w$`.])(?:module|macromodule)\s+(?:(?:automatic|static)\s+)?(?P<name>\\\S+|{_NAME})(?![\w$]|``)
    (?P<body>.*?)(?<![\w$`])endmodule\b(?:\s*:\s*{_NAME})?""", re.DOTALL | re.VERBOSE)
_USE = re.compile(rf"(?<![\w$`.'])({_NAME})\s*(?:\#\s*\(|(?:\\\S+|{_NAME})\s*(?:\[[^\]]*\]\s*)?\()")
_INPUT = re.compile(r"\b(?:input|inout)\b")
_ACTION = re.compile(r"\b(?:assign|always(?:_comb|_ff|_latch)?)\b")
_GATE = re.compile(r"\b(?:and|nand|or|nor|xor|xnor|buf|not|bufif[01]|notif[01])\b[^;]*\(")
_END = re.compile(r"\$(?:finish|stop|fatal)\b")
_WORD = re.compile(r"[A-Za-z_$][\w$]*|[^\s\w]")
_OPENS, _CLOSES = ("begin", "fork", "case", "casex", "casez"), ("end", "join", "endcase", "join_any", "join_none")
# A directive with the lines that go on with it, or another line.
_LINE = re.compile(r"(?P<kept>^[ \t]*`(?:ifdef|ifndef|elsif|else|endif|define|undef)\b(?:\\\r?\n|[^\n])*)|[^\n]+",
                   re.MULTILINE)


class Module(NamedTuple):
    """A module of a text: its name, its text without comments and strings up to its `endmodule`, what it uses, where it
    begins, where its `endmodule` begins, and where it ends."""

    name: str
    text: str
    uses: Set[str]
    start: int
    last: int
    end: int

    @property
    def has_inputs(self) -> bool:
        return bool(_INPUT.search(self.text))

    @property
    def is_bench(self) -> bool:
        """Whether the module ends the simulation, or waits in an `initial`."""
        return bool(_END.search(self.text)) or any(_waits(block) for block in _initials(self.text))

    def has_body(self, known: Set[str]) -> bool:
        return bool(_ACTION.search(self.text) or _GATE.search(self.text) or self.uses & known)


def modules(text: str) -> List[Module]:
    """The modules of a text. Blanks are in place of comments and strings, so offsets stay the same."""
    quiet = _QUIET.sub(lambda it: re.sub(r"[^\n]", " ", it[0]), text)
    return [Module(it["name"], it["body"], set(_USE.findall(it["body"])), it.start(), it.end("body"), it.end())
            for it in _MODULE.finditer(quiet)]


def _initials(text: str) -> Iterator[str]:
    """The statement of each `initial`."""
    for match in re.finditer(r"\binitial\b", text):
        depth = 0
        for word in _WORD.finditer(text, match.end()):
            depth += (word[0] in _OPENS) - (word[0] in _CLOSES)
            if depth <= 0 and word[0] in (";", *_CLOSES):
                yield text[match.end():word.end()]
                break


def _waits(block: str) -> bool:
    return bool(re.search(r"#\s*[\w(.]|@|\bwait\b|\bforever\b", block))


def tops(found: Sequence[Module]) -> List[Module]:
    """The modules that no other one uses, where those that only test others do not count."""
    designs = [it for it in found if not it.is_bench]
    used = {name for it in designs for name in it.uses if name != it.name}
    known = {it.name for it in found}
    return [it for it in designs if it.name not in used and it.has_inputs and it.has_body(known)]


@lru_cache(maxsize=None)
def read(path: Path) -> Tuple[str, List[Module]]:
    """The text of a file, and its modules."""
    text = path.read_text("latin-1")
    return text, modules(text)


class Folder:
    """The modules of the sources of one folder, by name, and those of a library, which may be instances in them."""

    def __init__(self, paths: Sequence[Path], library: Sequence[Path]):
        self.modules = {path: read(path)[1] for path in paths}
        self._owners, self._library = _owners(paths), _owners(library)

    def needed(self, path: Path, module: Module) -> Dict[Path, Set[str]]:
        """The modules below this one, itself too, by their files. Those of its own file come first, then those that one
        other file alone defines, and then those of the library."""
        found: Dict[Path, Set[str]] = {path: {module.name}}
        waiting = [(path, module)]
        while waiting:
            at, user = waiting.pop()
            for name in sorted(user.uses):
                owners: List[Path] = self._owners.get(name) or self._library.get(name) or []
                owner = at if at in owners else owners[0] if len(owners) == 1 else None
                if owner and name not in found.setdefault(owner, set()):
                    found[owner].add(name)
                    waiting += [(owner, it) for it in read(owner)[1] if it.name == name]
        return found


def _owners(paths: Sequence[Path]) -> Dict[str, List[Path]]:
    found: Dict[str, List[Path]] = {}
    for path in paths:
        for it in read(path)[1]:
            found.setdefault(it.name, []).append(path)
    return found


def only(path: Path, names: Set[str]) -> str:
    """The text of a file with blanks in place of its other modules, but for directives of the preprocessor."""
    text, found = read(path)
    for it in found:
        if it.name not in names:
            text = text[:it.start] + _LINE.sub(_blank, text[it.start:it.end]) + text[it.end:]
    return text


def _blank(line: Match[str]) -> str:
    return line["kept"] or " " * len(line[0])


def words(needed: Dict[Path, Set[str]]) -> str:
    """The words of some modules, without comments and strings."""
    texts = [f"{it.name} {it.text}" for path, names in needed.items() for it in read(path)[1] if it.name in names]
    return " ".join(" ".join(texts).split())
