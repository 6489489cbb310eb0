"""Variables of a named block of an `always_comb`. Outside of their block nobody reads them, so one that is not written
on each way through the process is no latch. Yosys knows that of blocks without a name alone."""

from __future__ import annotations

import re
from typing import Dict, Iterator, Sequence, Set, Tuple

from .text.rtlil import Item, Module, has_mark, marked
from .text.tree import Node, nodes

_UPDATE = re.compile(r"      update (\\\S+) .*")
_LOCAL = f"  {marked('nosync')}"

# The name of a block and that of a variable in it.
Local = Tuple[str, str]


def found(lines: Sequence[str]) -> Set[Local]:
    """The variables of named blocks, as the tree of the sources has them."""
    return {it for always in nodes(lines) if always.kind == "ALWAYS" for it in _below(always)}


def _below(node: Node) -> Iterator[Local]:
    for block in node.all():
        if block.kind == "BLOCK" and block.name:
            yield from ((block.name, it.name) for it in block.parts if it.kind == "WIRE")


def hide(module: Module, known: Set[Local]) -> None:
    """Makes such a variable x after its process, where the process may keep its value. kept.py rejects what reads it."""
    hidden: Set[str] = set()
    for process in module.of("process"):
        if has_mark(process.attributes, "always_comb"):
            names = {it for it in _kept(process) if _local(it) in known}
            widths = module.widths() if names else {}
            process.lines = [_as_x(line, names, widths) for line in process.lines]
            hidden |= names
    for wire in module.of("wire") if hidden else ():
        if wire.name in hidden:
            wire.attributes.append(_LOCAL)


def _local(name: str) -> Local:
    parts = name.lstrip("\\").split(".")
    return re.sub(r"\[-?\d+\]$", "", parts[-2]) if len(parts) > 1 else "", parts[-1]


def _kept(process: Item) -> Set[str]:
    """The variables of a process that it assigns their old value."""
    updated = {match[1] for match in map(_UPDATE.fullmatch, process.lines) if match}
    return {name for name in updated if any(line.endswith(f" {name}") for line in process.lines)}


def _as_x(line: str, names: Set[str], widths: Dict[str, int]) -> str:
    match = _UPDATE.fullmatch(line)
    return f"      update {match[1]} {widths[match[1]]}'x" if match and match[1] in names else line
