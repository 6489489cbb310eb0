"""The sources of a design under plain names, so that no path is a word of Yosys' language. The bundle has each file that
Yosys reads, also those that others include and the data of `$readmemh`."""

from __future__ import annotations

import re
from pathlib import Path
from typing import Dict, Iterator, List, Mapping, Match, Optional, Pattern, Sequence, Set, Tuple

from aig.tools import ToolFailed

from ..listing import places

# Comments and texts come first, so that nothing inside of them is a directive.
_PARTS = re.compile(
    r'//[^\n]*|/\*(?:[^*]|\*(?!/))*(?:\*/)?|(?P<before>`include\s*|\$readmem[bh]\s*\(\s*)"(?P<name>[^"\n]+)"|"(?:\\.|[^"\\])*"',
    re.DOTALL,
)
_QUIET = re.compile(r'//[^\n]*|/\*(?:[^*]|\*(?!/))*(?:\*/)?|"(?:\\.|[^"\\\n])*"', re.DOTALL)
_CHECK = re.compile(r"(?<!`)\b(?:assert|cover)\b")
_MACRO = re.compile(r"`define[ \t]+(\w+)((?:\\\r?\n|[^\n])*)")
_USE = re.compile(r"`(\w+)")
_BODY = re.compile(r"\b(?:macro)?module\s+(?:automatic\s+|static\s+)?(\w+|\\\S+)[\s\S]*?\bendmodule\b")
# A delay comes after these; after a name `#` has parameters.
_DELAY = re.compile(r"(?:[;=)\]:]|\b(?:begin|end|else|always|initial|assign|wire|and|or|not|buf|nand|nor|xor|xnor)\b)\s*#(?!\s*\(\s*parameter\b)\s*[\w`(.]")
_LIST = re.compile(r"\balways\s*@\s*(?:\((?![^;]*?\b(?:posedge|negedge)\b)\s*[^*\s][^;]*?\)|\w)")
_MACROS_IN_MACROS = 4  # so deep
NEWLINE = "\n"


def plain_name(name: str) -> str:
    """A file name that is one word of Yosys' language, and neither hidden nor an option."""
    return re.sub(r"[^A-Za-z0-9._-]|^[.-]", "_", name) or "_"


def _plain(text: bytes) -> str:
    """A source without comments and texts; lines stay where they are."""
    return _QUIET.sub(lambda it: " " + NEWLINE * it[0].count(NEWLINE), text.decode("latin-1"))


def _checks_in(text: str, macros: Dict[str, int]) -> int:
    return len(_CHECK.findall(text)) + sum(macros.get(name, 0) for name in _USE.findall(text))


class Sources:
    """What Yosys reads.

    texts  the bytes of each file, by its plain name; what a file includes has its plain name there
    read   the names of the files that no other one includes or reads as data
    """

    def __init__(self, paths: Sequence[Path], folders: Sequence[Path] = ()):
        self.texts: Dict[str, bytes] = {}
        self._folders = list(folders)
        self._names: Dict[Path, str] = {}
        self._paths: Dict[str, Path] = {}
        self._waiting: List[Tuple[Path, str, bool]] = []
        first = [self._name(path, True) for path in paths]
        included: Set[str] = set()
        while self._waiting:
            path, name, has_directives = self._waiting.pop()
            text = path.read_bytes()
            if has_directives:
                text, found = self._plain(path, text)
                included |= found - {name}
            self.texts[name] = text
        self.texts = {name: self.texts[name] for name in self._names.values()}
        self.read = [name for name in dict.fromkeys(first) if name not in included]
        if not self.read:
            raise ToolFailed("each source is included by another one")

    def _name(self, path: Path, has_directives: bool) -> str:
        """The plain name of a file. Two files of the same name get different ones."""
        at = path.resolve()
        if at not in self._names:
            wanted = plain_name(path.name)
            stem, dot, suffix = wanted.rpartition(".")
            name, count, taken = wanted, 1, set(self._names.values())
            while name in taken:
                count += 1
                name = f"{stem}_{count}.{suffix}" if dot and stem else f"{wanted}_{count}"
            self._names[at], self._paths[name] = name, path
            self._waiting.append((path, name, has_directives))
        return self._names[at]

    def apart(self, paths: Sequence[Path]) -> List[str]:
        """The names of files that are not read by themselves from now on."""
        names = [self._names[path.resolve()] for path in paths]
        self.read = [name for name in self.read if name not in names]
        return names

    def _plain(self, path: Path, text: bytes) -> Tuple[bytes, Set[str]]:
        """A source with plain names in its directives, and the names of the files that these mean."""
        used: Set[str] = set()

        def renamed(match: Match[str]) -> str:
            if not match["name"]:
                return match[0]
            found = self._find(path, match["name"])
            if found is None:  # perhaps a part that is left out; else Yosys says that it cannot open the file
                name = plain_name(Path(match["name"]).name)
                return f'{match["before"]}"{"" if name.startswith("missing_") else "missing_"}{name}"'
            name = self._name(found, match["before"].startswith("`"))
            used.add(name)
            return f'{match["before"]}"{name}"'

        return _PARTS.sub(renamed, text.decode("latin-1")).encode("latin-1"), used

    def _find(self, path: Path, name: str) -> Optional[Path]:
        """The file that a directive means: beside the source, in a folder of `-I`, or in the current one. A path from the root
        is not followed: what it names would be in the bundle, even if the directive is never read."""
        if Path(name).is_absolute():
            return None
        for folder in [path.parent, *self._folders, Path()]:
            if (folder / name).is_file():
                return folder / name
        return None

    def checks(self) -> Iterator[Tuple[str, int]]:
        """The file and line of each word `assert` and `cover` that is neither in a comment nor in a text, and of each macro that
        has one, once for each of them."""
        texts = {name: _plain(text) for name, text in self.texts.items()}
        macros: Dict[str, int] = {}
        defined = [it for text in texts.values() for it in _MACRO.finditer(text)]
        for _ in range(_MACROS_IN_MACROS):
            for it in defined:
                count = _checks_in(it[2], macros)
                if count:
                    macros[it[1]] = max(count, macros.get(it[1], 0))
        for name, text in texts.items():
            for number, line in enumerate(_MACRO.sub(lambda it: "\n" * it[0].count("\n"), text).split("\n"), 1):
                for _ in range(_checks_in(line, macros)):
                    yield name, number

    def modules_at(self, file: str, line: int) -> Set[str]:
        """The names of the modules that have words on a line."""
        text, found = _plain(self.texts[file]), set()
        for it in _BODY.finditer(text):
            first = text.count(NEWLINE, 0, it.start()) + 1
            if first <= line <= first + it[0].count(NEWLINE):
                found.add(it[1].lstrip(chr(92)))
        return found

    def places(self, pattern: Pattern[str]) -> List[str]:
        """Where a pattern is in the sources, but for comments and texts."""
        texts = {name: _plain(text) for name, text in self.texts.items()}
        return [f"{name}:{text.count(NEWLINE, 0, it.end()) + 1}" for name, text in texts.items() for it in pattern.finditer(text)]

    def left_out(self) -> List[str]:
        """What Yosys reads in another way than a simulator, without a word."""
        notes = []
        delays, lists = self.places(_DELAY), self.places(_LIST)
        if delays:
            notes.append(f"{places(delays)}: delays are left out: all assignments of an `initial` or `always` block happen at once, and the last one of a register counts")
        if lists:
            notes.append(f"{places(lists)}: `always` with a list of signals is read as `always @*`")
        return notes

    def as_written(self, message: str) -> str:
        """A message with the paths of the user in its places, and without the columns."""
        names = "|".join(re.escape(name) for name in sorted(self._paths, key=len, reverse=True))
        place = re.compile(rf"(?<![\w./-])(?:sources/)?({names}):0*(\d+)(?:\.\d+(?:-\d+\.\d+)?)?")
        return place.sub(lambda it: f"{self._paths[it[1]]}:{it[2]}", message)

    def write(self, folder: Path, translated: Mapping[str, bytes]) -> None:
        """Writes the sources, and in place of some of them their translated copies."""
        for name, text in {**self.texts, **translated}.items():
            (folder / name).write_bytes(text)
