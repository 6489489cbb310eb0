"""Lists of files and options, as simulators read them with -f and -F."""

from __future__ import annotations

import argparse
import os
import re
from dataclasses import dataclass, field
from pathlib import Path
from typing import Iterator, List, Sequence, Tuple

from aig.tools import ToolFailed

# A comment, a text in quotes, or a word, in which a text may be.
_WORD = re.compile(r'//[^\n]*|/\*.*?(?:\*/|\Z)|(?<!\S)#[^\n]*|(?:"[^"\n]*"|[^\s"])+|"', re.DOTALL)
_COMMENTS = ("//", "/*", "#")
_VARIABLE = re.compile(r"\$(?:(\w+)|\{(\w+)\}|\((\w+)\))")
# A list may name others, so many deep: else one may name itself.
_DEEPEST = 16
# Options with a value after them or in the same word: folders, macros and parameters.
_VALUES = ("-I", "-D", "-P", "-G")
# Options with the top module after them.
_TOPS = ("-s", "-top", "--top", "--top-module")
# What aig-verdicts reads anyway.
_USUAL = ("-sv", "-sverilog", "-g2012", "-g2009")


@dataclass
class Listed:
    """What lists name: sources, folders of included files, macros, parameters of the top module, and that module."""

    files: List[Path] = field(default_factory=list)
    include: List[Path] = field(default_factory=list)
    define: List[str] = field(default_factory=list)
    parameter: List[str] = field(default_factory=list)
    top: str = ""

    def give(self, words: argparse.Namespace) -> None:
        """Adds them to the arguments of a run, whose top module counts."""
        words.files, words.include = words.files + self.files, words.include + self.include
        words.define, words.parameter = words.define + self.define, words.parameter + self.parameter
        words.top = words.top or self.top or None

    def add(self, option: str, value: str, folder: Path) -> None:
        """Takes the value of an option."""
        if option == "-I":
            self.include.append(folder / value)
        elif option == "-D":
            self.define.append(value)
        else:
            self.parameter.append(value)


def listed(lists: Sequence[Path]) -> Listed:
    """The files and options of these lists, in their order. Paths are relative to the current folder, and those of a
    list that another one names by -F to the folder of that list. An option that is not known is an error by its
    line."""
    found = Listed()
    for path in lists:
        _read(found, path, Path(), 0)
    return found


def _read(found: Listed, path: Path, folder: Path, depth: int) -> None:
    if depth > _DEEPEST:
        raise ToolFailed(f"{path}: this list of files is {depth} lists deep: perhaps it names itself")
    words = _words(path)
    for place, word in words:
        if word in ("-f", "-F", "-v", *_VALUES, *_TOPS):
            _, name = next(words, (place, ""))
            if not name:
                what = "names no file" if word in ("-f", "-F", "-v") else "has no value"
                raise ToolFailed(f"{place}: {word} {what}")
            if word in _TOPS:
                if found.top not in ("", name):
                    raise ToolFailed(f"{place}: the top module is {found.top} already")
                found.top = name
            elif word in _VALUES:
                found.add(word, name, folder)
            elif word == "-v":
                found.files.append(folder / name)
            else:
                inner = folder / name
                _read(found, inner, inner.parent if word == "-F" else folder, depth + 1)
        elif word.startswith("+incdir+"):
            found.include += [folder / it for it in word.split("+")[2:] if it]
        elif word.startswith("+define+"):
            found.define += [it for it in word.split("+")[2:] if it]
        elif word[:2] in _VALUES:
            found.add(word[:2], word[2:], folder)
        elif word in _USUAL:
            continue
        elif word[0] in "-+":
            raise ToolFailed(f"{place}: {word} is no option of a list that aig-verdicts knows: files, +incdir+, +define+, "
                             "-I, -D, -P, --top, -v, -f and -F are")
        else:
            found.files.append(folder / word)


def _words(path: Path) -> Iterator[Tuple[str, str]]:
    """The words of a list, each with its file and line, without comments and quotes, and with the environment's
    variables."""
    text = path.read_text(encoding="utf-8", errors="surrogateescape")
    for it in _WORD.finditer(text):
        place = f"{path}:{text.count(chr(10), 0, it.start()) + 1}"
        if it[0] == '"':
            raise ToolFailed(f"{place}: a text in quotes does not end")
        if not it[0].startswith(_COMMENTS):
            yield place, _VARIABLE.sub(lambda match: _value(place, match), it[0].replace('"', ""))


def _value(place: str, match: "re.Match[str]") -> str:
    name = match[1] or match[2] or match[3]
    if name not in os.environ:
        raise ToolFailed(f"{place}: the environment has no variable {name}")
    return os.environ[name]
