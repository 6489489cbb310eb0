"""Modules that a design leaves out: a simulator gets their ports alone, and knows as little of them as the circuit."""

from __future__ import annotations

import re
from typing import Collection, Dict, List, Match, Set

_QUIET = re.compile(r'`line[^\n]*|//[^\n]*|/\*.*?\*/|"(?:\\.|[^"\\\n])*"', re.DOTALL)
_MODULE = re.compile(r"\bmodule\s+(\w+)\b([^;]*;)(.*?)\bendmodule\b", re.DOTALL)
_NAMED = re.compile(r"\bmodule\s+(?:(?:automatic|static)\s+)?(\w+)\b([^;]*;)(.*?)\bendmodule\b", re.DOTALL)
_WORD = re.compile(r"[A-Za-z_]\w*")
_INNER = re.compile(r"\b(function|task)\b.*?\bend\1\b", re.DOTALL)
_BOX = re.compile(r"\(\*[^()]*\bblackbox\b[^()]*\*\)\s*(?:`line[^\n]*\s*)*module\s+(\w+)")
_PORT = re.compile(r"\b(?:input|output|inout|parameter|localparam)\b[^;]*;")


def without_bodies(text: str, modules: Collection[str]) -> str:
    """The text without the bodies of these modules, and of those that have an attribute for it. No line moves."""
    modules = {*modules, *_BOX.findall(text)}
    quiet = _quiet(text)

    def emptied(match: Match[str]) -> str:
        if match[1] not in modules:
            return text[match.start():match.end()]
        body = _INNER.sub(_blank, match[3])
        kept, at = [], 0
        for port in _PORT.finditer(body):
            kept += [_blanked(body[at:port.start()]), port[0]]
            at = port.end()
        return f"module {match[1]}{match[2]}{''.join(kept)}{_blanked(body[at:])}endmodule"

    parts, at = [], 0
    for match in _MODULE.finditer(quiet):
        parts += [text[at:match.start()], emptied(match)]
        at = match.end()
    return "".join([*parts, text[at:]])


def below(text: str, top: str) -> str:
    """The text without what is in modules that are not below the top one, of which neither the circuit nor a simulator knows
    anything. No line moves. Wherever a module has the name of another one, that one is below it."""
    quiet = _quiet(text)
    modules = [*_NAMED.finditer(quiet)]
    outside, at = [], 0
    for it in modules:
        outside.append(quiet[at:it.start()])
        at = it.end()
    known: Dict[str, Set[str]] = {}
    for it in modules:
        known.setdefault(it[1], set()).update(_words(it[2] + it[3]))
    if top not in known:
        return text
    used: Set[str] = set()
    waiting = {top, *_words("".join([*outside, quiet[at:]]))} & known.keys()
    while waiting:
        used |= waiting
        waiting = {word for name in waiting for word in known[name]} & known.keys() - used
    parts, at = [], 0
    for it in modules:
        if it[1] not in used:
            inside = [text[it.start(group):it.end(group)] for group in (2, 3)]
            parts += [text[at:it.start(2)], _blanked(inside[0][:-1]), ";", _blanked(inside[1])]
            at = it.end(3)
    return "".join([*parts, text[at:]])


def _words(quiet: str) -> List[str]:
    """The words, but for those of `line` directives: a file has the name of its module."""
    return _WORD.findall(re.sub("`line[^\n]*", "", quiet))


def _quiet(text: str) -> str:
    """The text with spaces in place of comments and texts."""
    return _QUIET.sub(lambda it: it[0] if it[0].startswith("`") else re.sub(r"[^\n]", " ", it[0]), text)


def _blank(match: Match[str]) -> str:
    return _blanked(match[0])


def _blanked(text: str) -> str:
    """Spaces, but for `line` directives and the ends of lines."""
    return re.sub(r"(?m)^(?!`line).*$", lambda it: " " * len(it[0]), text)
