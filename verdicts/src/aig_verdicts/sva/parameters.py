"""Values for parameters of the top module, as simulators take them: in copies of the sources, the declarations have them.

A value is a number or a text. A declaration gives it a type and a width, as it does to a value of its own."""

from __future__ import annotations

from dataclasses import dataclass
from typing import Dict, Iterator, List, Mapping, NamedTuple, Optional, Sequence, Set

from ..options import Unusable
from .constants import constant
from .edits import Edit, Edited
from .preprocessed import Preprocessed
from .statements import semicolon
from .words import CLOSE, OPEN, Rejected, Word, closing, words_of

_MODULES = ("module", "macromodule")
_LOCAL = "is a constant of its own, and no instance gives it a value"
_TYPES = {"type": "is a type", "real": "is a real number", "realtime": "is a real number", "shortreal": "is a real number"}


@dataclass(frozen=True)
class Given:
    """The values of parameters of a module, by name."""

    module: str
    values: Mapping[str, str]

    def number(self, name: str) -> Optional[int]:
        """The value, if it is a number that is not negative."""
        return constant(words_of(self.values[name], ""), {})


def given_to(module: str, values: Mapping[str, str], words: Sequence[Word]) -> Given:
    """The values for the top module. If it has no name, it is the one module without an instance."""
    tops = [module] if module else _tops(words)
    if len(tops) != 1:
        raise Unusable(f"a parameter of which module? Name it with --top: {', '.join(tops) or 'no module is the top'}")
    return Given(tops[0], values)


def _tops(words: Sequence[Word]) -> List[str]:
    """The modules without an instance: none where a name comes after theirs, or its parameters."""
    modules = _modules(words)
    used: Set[str] = {word.text for k, (word, after) in enumerate(zip(words, words[1:]))
                      if modules.get(word.text, k) != k and words[k - 1].text != "bind"
                      and (after.is_name or after.text == "#")}
    return [name for name in modules if name not in used]


def _modules(words: Sequence[Word]) -> Dict[str, int]:
    """The names of the modules, with their places."""
    found: Dict[str, int] = {}
    for k, word in enumerate(words):
        if word.text in _MODULES:
            name = k + 2 if words[k + 1].text in ("automatic", "static") else k + 1
            found.setdefault(words[name].text, name)
    return found


class _Declared(NamedTuple):
    """The declaration of a constant: the words of its name and of its value, and why no instance gives it one."""

    name: int
    value: range
    why: str


def with_values(texts: Mapping[str, str], read: Sequence[str], defines: Sequence[str], given: Given) -> Dict[str, str]:
    """The files in which parameters of the module get their values. Each line stays where it is."""
    words, edits = Preprocessed(texts, read, defines).words, []
    declared = {words[it.name].text: it for it in _declarations(words, _module(words, given.module))}
    for name, value in given.values.items():
        it = declared.get(name)
        if it is None:
            names = [other for other, its in declared.items() if not its.why]
            raise Unusable(f"{name} is no parameter of {given.module}, which has {', '.join(names) or 'none'}")
        if it.why:
            raise Unusable(f"{words[it.name].file}:{words[it.name].line}: {name} {it.why}")
        edits.append(Edit(it.name, it.value.stop - 1, f"{name} = {value}"))
    return Edited(texts, words, edits).texts


def _module(words: Sequence[Word], name: str) -> range:
    """The words of a module, from its name to its end."""
    start = _modules(words).get(name)
    if start is None:
        raise Unusable(f"{name} is no module of the sources")
    end = next((k for k in range(start, len(words)) if words[k].text == "endmodule"), 0)
    if not end:
        raise Rejected(words[start], "has no endmodule")
    return range(start, end)


def _declarations(words: Sequence[Word], module: range) -> Iterator[_Declared]:
    """The constants that a module declares, but for those of its functions and tasks."""
    at = module.start + 1
    while words[at].text == "import":
        at = semicolon(words, at) + 1
    has_list = words[at].text == "#"
    if has_list:
        last = closing(words, at + 1)
        yield from _constants(words, range(at + 2, last), "parameter", "")
        at = last
    while at < module.stop:
        text = words[at].text
        if text in ("function", "task"):
            at = next(k for k in range(at, len(words)) if words[k].text == f"end{text}")
        elif text in ("parameter", "localparam"):
            end = semicolon(words, at)
            yield from _constants(words, range(at, end), text, "is local: the module has a list of parameters" * has_list)
            at = end
        at += 1


def _constants(words: Sequence[Word], inside: range, kind: str, why: str) -> Iterator[_Declared]:
    """The constants of a list. Each has the kind and the type of the one before it, if it has none of its own."""
    typed = ""
    for part in _parts(words, inside):
        if words[part.start].text in ("parameter", "localparam"):
            kind, part, typed = words[part.start].text, part[1:], ""
        sign = next((k for k in part if words[k].text == "="), part.stop)
        heads = [words[k].text for k in range(part.start, sign - 1)]
        typed = next((_TYPES[it] for it in heads if it in _TYPES), typed if not heads else "")
        name = _before_brackets(words, sign - 1)
        is_array = name < sign - 1
        yield _Declared(name, range(sign, part.stop),
                        _LOCAL if kind == "localparam" else why or typed or "is an array" * is_array)


def _before_brackets(words: Sequence[Word], at: int) -> int:
    """The word before the ranges that end here."""
    while words[at].text == "]":
        at = max(k for k in range(at) if words[k].text == "[" and closing(words, k) == at) - 1
    return at


def _parts(words: Sequence[Word], inside: range) -> Iterator[range]:
    """The parts of a list between its commas."""
    level, start = 0, inside.start
    for k in inside:
        level += (words[k].text in OPEN) - (words[k].text in CLOSE)
        if words[k].text == "," and level == 0:
            yield range(start, k)
            start = k + 1
    if start < inside.stop:
        yield range(start, inside.stop)
