"""The words that are alive: `ifdef`, `include` and macros are followed as Yosys follows them."""

from __future__ import annotations

import re
from dataclasses import dataclass, replace
from typing import Dict, List, Mapping, Optional, Sequence, Tuple

from .words import CLOSE, OPEN, Kind, Rejected, Word, words_of

# The macros that Yosys defines for `read_verilog -formal`.
_ALWAYS = ("YOSYS", "FORMAL")
_IGNORED = {
    "`timescale", "`resetall", "`celldefine", "`endcelldefine", "`default_nettype", "`verilator_config",
    "`begin_keywords", "`end_keywords", "`line", "`pragma", "`unconnected_drive", "`nounconnected_drive",
}
_DEPTH_OF_FILES, _DEPTH_OF_MACROS = 20, 30
_MOST_WORDS = 2_000_000
# How many words one use of a macro may mean, and how much work all uses may be: words and letters of texts that are read. Macros
# that use each other twice would double both with each line.
_MOST_OF_A_USE, _MOST_WORK = 20_000, 5_000_000


@dataclass
class Macro:
    """A macro: its parameters with their defaults, or None without brackets, and its text."""

    parameters: Optional[List[Tuple[str, Optional[str]]]]
    body: str


@dataclass
class _Branch:
    """An `ifdef`: whether its words are alive, and whether one of its parts was."""

    is_alive: bool
    was_taken: bool


class Preprocessed:
    """The words of files, in the order in which Yosys reads them.

    files  the names of the files that were read, in order; a file that is included twice is there twice
    """

    def __init__(self, texts: Mapping[str, str], read: Sequence[str], defines: Sequence[str]):
        self.words: List[Word] = []
        self._texts = texts
        self._macros: Dict[str, Macro] = {name: Macro(None, "1") for name in _ALWAYS}
        self._uses = self._work = 0
        for it in defines:
            name, _, value = it.partition("=")
            self._macros[name] = Macro(None, value)
        try:
            for name in read:
                self._file(name, 0)
        except IndexError:
            raise Rejected(None, "a directive without its end") from None

    def _file(self, name: str, depth: int) -> None:
        if depth > _DEPTH_OF_FILES:
            raise Rejected(None, f"{name} includes itself")
        words, at = words_of(self._texts[name], name), 0
        branches = [_Branch(True, True)]
        while at < len(words):
            word = words[at]
            if word.kind is Kind.DIRECTIVE and (after := self._branch(words, at, branches)):
                at = after
            elif not branches[-1].is_alive:
                at += 1
            else:
                at = self._word(words, at, depth)
            if len(self.words) > _MOST_WORDS:
                raise Rejected(word, f"more than {_MOST_WORDS:,} words")

    def _branch(self, words: List[Word], at: int, branches: List[_Branch]) -> int:
        """What comes after a directive such as `ifdef`; 0 if it is none."""
        key = words[at].text
        if key in ("`ifdef", "`ifndef"):
            is_so = (words[at + 1].text in self._macros) == (key == "`ifdef")
            branches.append(_Branch(branches[-1].is_alive and is_so, is_so))
            return at + 2
        if key not in ("`elsif", "`else", "`endif"):
            return 0
        if len(branches) < 2:
            raise Rejected(words[at], "has no `ifdef")
        if key == "`endif":
            branches.pop()
            return at + 1
        is_so = key == "`else" or words[at + 1].text in self._macros
        outer, inner = branches[-2:]
        inner.is_alive = outer.is_alive and is_so and not inner.was_taken
        inner.was_taken |= is_so
        return at + (1 if key == "`else" else 2)

    def _word(self, words: List[Word], at: int, depth: int) -> int:
        """Takes a word that is alive. Returns what comes after it."""
        word = words[at]
        if word.kind is Kind.DEFINE:
            self._define(word.text)
        elif word.kind is not Kind.DIRECTIVE:
            self.words.append(word)
        elif word.text == "`undef":
            self._macros.pop(words[at + 1].text, None)
            return at + 2
        elif word.text == "`undefineall":
            self._macros.clear()
        elif word.text == "`include":
            inner = words[at + 1].text.strip('"')
            if inner in self._texts:
                self._file(inner, depth + 1)
            return at + 2
        elif word.text in _IGNORED:
            return next((k for k in range(at, len(words)) if words[k].line != word.line), len(words))
        elif word.text[1:] in self._macros:
            self._uses += 1
            after, inner_words = self._use(words, at, 0)
            self.words += inner_words
            return after
        else:
            self.words.append(word)  # Yosys says what it is
        return at + 1

    def _define(self, text: str) -> None:
        it = re.match(r"`define\s+(\w+)(\([^)]*\))?((?:.|\n)*)", text)
        if it is None:
            return
        body = re.sub(r"//[^\n]*", "", it[3].replace("\\\r\n", " ").replace("\\\n", " "))
        parameters: Optional[List[Tuple[str, Optional[str]]]] = None
        if it[2]:
            parameters = []
            for part in it[2][1:-1].split(","):
                name, has_default, value = part.partition("=")
                if name.strip():
                    parameters.append((name.strip(), value.strip() if has_default else None))
        self._macros[it[1]] = Macro(parameters, body)

    def _use(self, words: List[Word], at: int, depth: int) -> Tuple[int, List[Word]]:
        """What comes after the use of a macro, and the words that it means, with the place of its use."""
        if depth > _DEPTH_OF_MACROS:
            raise Rejected(words[at], "a macro that uses itself")
        first, macro = words[at], self._macros[words[at].text[1:]]
        at += 1
        body, end = macro.body, first.end
        if macro.parameters is not None:
            at, given = _arguments(words, at, first)
            end = words[at - 1].end
            body = _with_arguments(macro, given, first)
        self._works(first, len(body))
        inner, found, k = words_of(body.replace('`"', '"'), first.file), [], 0
        while k < len(inner):
            if inner[k].kind is Kind.DIRECTIVE and inner[k].text[1:] in self._macros:
                k, more = self._use(inner, k, depth + 1)
                found += more
            else:
                found.append(inner[k])
                k += 1
            if len(found) > _MOST_OF_A_USE:
                raise Rejected(first, f"a macro of more than {_MOST_OF_A_USE:,} words")
        self._works(first, len(found))
        if depth:  # the outer use gives all words its place
            return at, found
        place = {"line": first.line, "start": first.start, "end": end, "use": self._uses}
        return at, [replace(it, file=first.file, **place) for it in found]

    def _works(self, first: Word, count: int) -> None:
        """Counts the work of macros."""
        self._work += count
        if self._work > _MOST_WORK:
            raise Rejected(first, "macros that mean too much text in all")


def _arguments(words: List[Word], at: int, first: Word) -> Tuple[int, List[List[Word]]]:
    """What comes after the arguments of a macro, and the arguments."""
    if at >= len(words) or words[at].text != "(":
        raise Rejected(first, "a macro without its arguments")
    level, given, start = 1, [], at + 1
    while level:
        at += 1
        if at >= len(words):
            raise Rejected(first, "a macro whose arguments do not end")
        level += (words[at].text in OPEN) - (words[at].text in CLOSE)
        if (words[at].text == "," and level == 1) or level == 0:
            given.append(words[start:at])
            start = at + 1
    return at + 1, given


def _with_arguments(macro: Macro, given: List[List[Word]], first: Word) -> str:
    """The text of a macro with its arguments in it."""
    values: Dict[str, str] = {}
    for k, (name, default) in enumerate(macro.parameters or []):
        part = given[k] if k < len(given) else []
        if not part and default is None and k >= len(given):
            raise Rejected(first, "a macro with too few arguments")
        values[name] = " ".join(it.text for it in part) if part or default is None else default
    body = macro.body.replace("``", "\0")
    names = r'"(?:\\.|[^"\\])*"|[A-Za-z_]\w*'
    body = re.sub(names, lambda it: it[0] if it[0].startswith('"') else values.get(it[0], it[0]), body)
    return re.sub(r"\s*\0\s*", "", body)
