"""The words of a preprocessed source, and what sources may have where a simulator runs them."""

from __future__ import annotations

import re
from typing import Iterator, List, NamedTuple, Sequence

from .lines import Lines

# The testbench's own name: sources that have it would look at it, or change it.
BENCH = "aig_tb"
_TOKEN = re.compile(r'//[^\n]*|/\*.*?\*/|(?m:^)`line [^\n]*|"(?:\\.|[^"\\\n])*"|\\\S+|`?[A-Za-z_$][\w$]*'
                    r"|(?:\d[\d_]*\s*)?'[sS]?[bodhBODH]\s*[\w?]+|\d[\w.]*|[^\s]", re.DOTALL)
_SKIPPED = ("//", "/*", "`line ")
_OF_TYPES = ("wire", "reg", "logic", "bit", "tri", "signed", "unsigned", "integer", "int", "byte", "var")
_OPEN = {"(": ")", "[": "]", "{": "}"}
# What changes no signal: the circuit knows nothing of it, and a simulation does without. It would print, or end the run.
MUTE = re.compile(r"\$(?:(?:f?(?:display|write|strobe|monitor)[bho]?)|monitoro(?:n|ff)|finish|stop|exit|fatal|error|warning|info"
                   r"|dump\w+|timeformat|printtimescale|f(?:close|flush)|assert(?:on|off|kill))")
# What stays: functions of their arguments alone, checks of times, data of memories, and what is adapted.
_KNOWN = re.compile(r"\$(?:(?:un)?signed|clog2|bits|left|right|low|high|size|increment|(?:unpacked_)?dimensions|countones"
                    r"|onehot0?|isunknown|rtoi|itor|realtobits|bitstoreal|ln|log10|exp|sqrt|pow|floor|ceil|abs|min|max"
                    r"|setup(?:hold)?|hold|recovery|removal|recrem|(?:time|full)?skew|period|width|nochange|readmem[bh]"
                    r"|past|stable|changed|rose|fell|initstate|any(?:seq|const)|all(?:seq|const)|sampled)")
_DIRECTIVES = ("`timescale", "`default_nettype", "`celldefine", "`endcelldefine", "`resetall", "`unconnected_drive",
               "`nounconnected_drive", "`begin_keywords", "`end_keywords")


class NotReplayed(Exception):
    """Why a simulator cannot play a run."""


class Unreadable(NotReplayed):
    """That a simulator cannot read the sources: another one perhaps can."""


def without_comments(text: str) -> str:
    """A source with spaces in place of its comments, which some simulators take orders from. No line moves."""
    return _TOKEN.sub(lambda it: re.sub(r"[^\n]", " ", it[0]) if it[0].startswith(("//", "/*")) else it[0], text)


class _Token(NamedTuple):
    text: str
    start: int
    end: int


class Words:
    """The words of a source, but for its comments.

    escaped  the names with a backslash, without it
    """

    def __init__(self, source: str):
        self._source = source
        self._lines = Lines(source)
        self._tokens = [_Token(it[0], it.start(), it.end()) for it in _TOKEN.finditer(source)
                        if not it[0].startswith(_SKIPPED)]
        self.escaped = frozenset(it.text[1:] for it in self._tokens if it.text.startswith("\\"))
        at = 0
        while at < len(self._tokens):
            self._look(at, self._text(at))
            at = self._after_call(at) if MUTE.fullmatch(self._text(at)) else at + 1

    def _text(self, i: int) -> str:
        return self._tokens[i].text if i < len(self._tokens) else ""

    def _not_replayed(self, i: int, why: str) -> NotReplayed:
        file, line = self._lines.place(self._tokens[min(i, len(self._tokens) - 1)].start)
        return NotReplayed(f"{file}:{line}: {why}")

    def _after_group(self, i: int) -> int:
        """The token after the group that opens at token i."""
        ends: List[str] = []
        begin = i
        while i < len(self._tokens):
            text = self._text(i)
            if text in _OPEN:
                ends.append(_OPEN[text])
            elif ends and text == ends[-1]:
                ends.pop()
            i += 1
            if not ends:
                return i
        raise self._not_replayed(begin, "a parenthesis is not closed")

    def _after_call(self, i: int) -> int:
        """The token after a call of the system, with its arguments if it has any."""
        return self._after_group(i + 1) if self._text(i + 1) == "(" else i + 1

    def _look(self, i: int, text: str) -> None:
        """That a word is none by which sources act on what is around them."""
        is_directive = text.startswith("`") and text not in _DIRECTIVES
        is_call = text.startswith("$") and not _KNOWN.fullmatch(text) and not MUTE.fullmatch(text)
        if is_directive or is_call or text.lstrip("\\") == BENCH:
            raise self._not_replayed(i, f"`{text}`" if text[0] != "`" else text)
        if text in ("import", "export") and self._text(i + 1).startswith('"'):
            raise self._not_replayed(i, f"`{text}` of a function of another language")
        if text.startswith("$readmem") and not _is_data(self._text(i + 2)):
            raise self._not_replayed(i, f"`{text}` of a file that is not in the bundle")

    def ports_of(self, module: str, directions: Sequence[str]) -> List[str]:
        """The names that a module declares as ports of these directions. Some may be names of types, which are no ports."""
        found: List[str] = []
        i = 0
        while i < len(self._tokens):
            if self._text(i) in ("module", "macromodule"):
                skipped = 2 if self._text(i + 1) in ("automatic", "static") else 1
                is_here = self._text(i + skipped).lstrip("\\") == module
                while self._text(i) not in ("endmodule", ""):
                    inner = self._text(i) if self._text(i) in ("function", "task") else ""
                    while inner and self._text(i) not in (f"end{inner}", ""):
                        i += 1
                    if is_here and self._text(i) in directions:
                        found += self._declared(i + 1)
                    i += 1
            i += 1
        return list(dict.fromkeys(found))

    def _declared(self, i: int) -> Iterator[str]:
        """The names of a declaration, up to the next direction or the end."""
        while self._text(i) not in (";", ")", "input", "output", "inout", ""):
            text, after = self._text(i), self._text(i + 1)
            if re.match(r"[A-Za-z_\\]", text) and after in (",", ";", ")", "=", "[") and text not in _OF_TYPES:
                yield text
            i = self._after_group(i) if text in _OPEN else i + 1

def _is_data(text: str) -> bool:
    """Whether a text is a plain name of a file, as all files of a bundle have."""
    return re.fullmatch(r'"[A-Za-z0-9_+-][A-Za-z0-9._+-]*"', text) is not None
