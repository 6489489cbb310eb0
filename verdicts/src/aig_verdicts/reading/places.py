"""Places of what Yosys says without one, by the tree of the sources."""

from __future__ import annotations

import re
from typing import Callable, Iterable, Iterator, List, NamedTuple, Sequence

from .misread.rules import first_misread
from ..listing import places
from .text.tree import Node, nodes

_HAS_PLACE = re.compile(r"\S+:[1-9]\d*: ")
_NAMES = re.compile(r"[`\\]([^\s`']+?)[.:,;]?(?=[\s`']|$)")
_DECLARATIONS = ("WIRE", "MEMORY", "CELL", "CELLARRAY", "FUNCTION", "TASK")
_EDGES = ("POSEDGE", "NEGEDGE")
# What is said of a crash.
CRASHED = "was ended by signal"


def _of_kind(kind: str) -> Callable[[Sequence[Node], str], Iterator[Node]]:
    return lambda each, _: (it for it in each if it.kind == kind)


def _called(each: Sequence[Node], error: str) -> Iterator[Node]:
    names = [it.lstrip("\\") for it in _NAMES.findall(error)]
    return (it for it in each if it.kind == "TCALL" and it.name in names)


def _with_edges(each: Sequence[Node], _: str) -> Iterator[Node]:
    return (it for it in each if it.kind == "ALWAYS" and sum(part.kind in _EDGES for part in it.parts) > 1)


def _last_module(each: Sequence[Node], _: str) -> List[Node]:
    """The module that Yosys was at: it prints the tree of each before it works on it."""
    return [it for it in each if it.kind == "MODULE"][-1:]


def _declared(each: Sequence[Node], name: str) -> List[Node]:
    """The declarations of a name, which may be that of an instance or a wire after its module's."""
    own = re.sub(r"(\[\d+\])+$", "", name.split(".")[-1].lstrip("\\"))
    return [it for it in each if it.kind in _DECLARATIONS and it.name in (name, own)]


def _arrays_of_gates(each: Sequence[Node], _: str) -> Iterator[Node]:
    return (it for it in each if it.kind == "CELLARRAY" and any(part.kind == "PRIMITIVE" for part in it.parts))


def _ports_of_other_sign(each: Sequence[Node], error: str) -> Iterator[Node]:
    """What an instance gets that has another sign than the name or the operator in it."""
    for module in _last_module(each, error):
        for cell in module.all():
            given = [part for it in cell.parts if it.kind == "ARGUMENT" for part in it.parts] if cell.kind == "CELL" else []
            yield from (it for it in given if it.kind in _OF_OTHER_SIGN and sum(part.kind != "CONSTANT" for part in it.parts) == 1)


class _About(NamedTuple):
    """What an error is about, by a text of it, and what is said in its place."""

    text: str
    finds: Callable[[Sequence[Node], str], Iterable[Node]]
    said: str = ""


_OF_OTHER_SIGN = ("TO_SIGNED", "TO_UNSIGNED", "CONCAT", "REPLICATE")
_ABOUT = (
    _About("While loops are only allowed", _of_kind("WHILE")),
    _About("Repeat loops outside must have", _of_kind("REPEAT")),
    _About("Can't resolve task name", _called),
    _About("Multiple edge sensitive events", _with_edges),
    _About(CRASHED, _last_module),
    _About("lookahead and non-lookahead", _last_module),
    _About("Assert `new_cell->children.at(0)->type == AST_CELLTYPE'", _arrays_of_gates,
           "an array of gates, and Yosys stops there: write an `assign` of vectors"),
    _About("Assert `arg->is_signed == sig.as_wire()->is_signed'", _ports_of_other_sign,
           "an instance gets `$signed`, `$unsigned` or braces of one value, and Yosys stops there: give it a `wire`"),
)


def with_place(error: str, lines: Sequence[str], is_read: bool = True) -> str:
    """The error with the place of what it is about. Where it has only a name, that is the place of the declaration. While
    the sources are read, Yosys may stop at what it would misread."""
    if _HAS_PLACE.match(error):
        return error
    misread = None if is_read else first_misread(lines)
    if misread:
        return f"{places(misread[0])}: {misread[1]}"
    each = nodes(lines)
    text = re.sub(r"^\S+:0: ", "", error)
    about = next((it for it in _ABOUT if it.text in error), None)
    if about:
        found = list(about.finds(each, error))
        text = about.said or text
    else:
        found = next((named for named in (_declared(each, name) for name in _NAMES.findall(error)) if named), [])
    at: List[str] = list(dict.fromkeys(it.line for it in found))
    return f"{', '.join(at[:3])}: {text}" if at else error
