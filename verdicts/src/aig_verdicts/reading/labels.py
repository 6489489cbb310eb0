"""Labels of assertions in loops, generate blocks and tasks. Yosys gives each instance the same name, and stops. In the
files that Yosys reads, a named block then replaces the label, with a wire in it that the assertion reads:

    check: assert (e);    becomes    begin : check reg aig_verdicts_label; assert ((e) || aig_verdicts_label); end

Yosys puts the names of the blocks around it before that of the wire. Once Yosys has read the sources, each assertion
gets the name of its wire, and a 0 replaces the wire."""

from __future__ import annotations

import re
from bisect import bisect
from collections import Counter
from typing import Callable, Dict, List, Optional, Sequence, Set, Tuple

from .lowered import FLAVORS
from .text.rtlil import Item, Module

# What a script says where the names of two assertions that are one for Yosys are mended.
AS_BLOCKS = "# here aig-verdicts has made a named block of each label of an assertion, as one is in a loop"

_WIRE = "aig_verdicts_label"
_SKIPPED = r'//[^\n]*|/\*(?:[^*]|\*(?!/))*(?:\*/)?|"(?:\\.|[^"\\\n])*"'
_LABEL = re.compile(
    rf"{_SKIPPED}|(?P<define>`define\b(?:\\\r?\n|[^\n])*)|(?<![\w$\\`.'])(?P<label>[A-Za-z_]\w*)(?P<colon>\s*:\s*)"
    r"(?P<verb>(?:assert|assume|cover|restrict)\b\s*(?:(?:property|final)\b\s*)?)\((?!\s*(?:\)|(?:s_)?eventually\b))",
    re.DOTALL)
_NAME = re.compile(r"(?<![\w$\\`'])[A-Za-z_]\w*\b(?!\s*:\s*(?:assert|assume|cover|restrict)\b)")
_BRACKET = re.compile(rf"{_SKIPPED}|[()]", re.DOTALL)
_END = re.compile(rf"(?:\s|{_SKIPPED})*;", re.DOTALL)
_OF_TREE = re.compile(rf" *AST_(?:{'|'.join(FLAVORS).upper()}) <(?:sources/)?(.*?):(\d+)\.[^>]*>.* str='\\([^']+)'")

# The file, the line and the label of an assertion.
Label = Tuple[str, int, str]


def labels(tree: Sequence[str]) -> Set[Label]:
    """The labels in what `-dump_ast1` printed."""
    return {(match[1], int(match[2]), match[3]) for match in map(_OF_TREE.match, tree) if match}


def as_blocks(name: str, text: str, known: Set[Label]) -> str:
    """A source with a named block for each known label, and for each one in a macro. A label that also names something
    else stays: a block would hide that."""
    ends = [match.start() for match in re.finditer("\n", text)]
    names = set(_NAME.findall(re.sub(_SKIPPED, " ", text)))
    return _with_blocks(text, lambda at, label: label not in names and (name, bisect(ends, at) + 1, label) in known)


def _with_blocks(text: str, is_known: Callable[[int, str], bool]) -> str:
    parts: List[str] = []
    done = 0
    for match in _LABEL.finditer(text):
        if match["define"]:
            start = match.start() + len("`define")
            parts += [text[done:start], _with_blocks(text[start : match.end()], lambda *_: True)]
            done = match.end()
        elif match["label"] and is_known(match.start(), match["label"]):
            closed = _closed(text, match.end())
            if closed is None:
                break
            bracket, end = closed
            parts += [text[done : match.start()], f"begin : {match['label']} reg {_WIRE}; "]
            parts += ["\n" * match["colon"].count("\n"), match["verb"]]  # each line keeps its number
            parts += [f"(({text[match.end() : bracket]}) || {_WIRE}{text[bracket:end]} end"]
            done = end
    return "".join([*parts, text[done:]])


def _closed(text: str, begin: int) -> Optional[Tuple[int, int]]:
    """Where the bracket that is open at `begin` is closed, and where the statement ends."""
    depth = 1
    for match in _BRACKET.finditer(text, begin):
        depth += {"(": 1, ")": -1}.get(match[0], 0)
        if depth == 0:
            end = _END.match(text, match.end())
            return (match.start(), end.end()) if end else None
    return None


# -- the names in RTLIL, before `proc`


_ASSIGNED = re.compile(r" *assign \$0(?P<wire>\$formal\$\S+_CHECK)(?: \[0\]|\[0:0\]\$\d+)? (?P<value>[\\$]\S+)")


def give_names(module: Module) -> None:
    """Gives each assertion that was put into a block the name of the block."""
    wires = {wire.name for wire in module.of("wire") if wire.name.endswith(f".{_WIRE}")}
    blocks = {}
    for cell in module.of("cell"):
        ports = cell.parts("connect")
        if cell.words[1] == "$logic_or" and ports["B"] in wires:
            blocks[ports["Y"]] = _block(ports["B"])
            at = cell.lines.index(f"    connect \\B {ports['B']}")
            cell.lines[at] = "    connect \\B 1'0"
    if blocks:
        module.items = [it for it in module.items if it.kind != "wire" or it.name not in wires]
        _rename(module, blocks)


def _rename(module: Module, blocks: Dict[str, str]) -> None:
    """Renames the assertions that read these signals, in their order."""
    for line in (line for process in module.of("process") for line in process.lines):
        match = _ASSIGNED.fullmatch(line)
        if match and match["value"] in blocks:
            blocks[match["wire"]] = blocks["$0" + match["wire"]] = blocks[match["value"]]
    found: List[Tuple[int, Item, str]] = []
    for cell in module.of("cell"):
        block = blocks.get(cell.parts("connect").get("A", ""))
        if block and cell.words[1][1:] in FLAVORS:
            found.append((int(cell.name.rpartition("$")[2]), cell, block))
    found.sort(key=lambda it: it[0])
    taken = {item.name for item in module.items if item.kind != "connect"}
    for (_, cell, _), name in zip(found, _unique([block for _, _, block in found], taken)):
        cell.lines[0] = f"  cell {cell.words[1]} {name}"


def _block(wire: str) -> str:
    """The name of the block that a wire is in. Yosys names a loop without a name itself: its index comes last."""
    words = wire.lstrip("\\")[: -len(_WIRE) - 1].split(".")
    indices = (re.search(r"\[-?\d+\]$", word) for word in words if "$" in word)
    return "\\" + ".".join(word for word in words if "$" not in word) + "".join(it[0] for it in indices if it)


def _unique(names: Sequence[str], taken: Set[str]) -> List[str]:
    """The names, with #0, #1, .. where one comes more than once."""
    counts = Counter(names)
    result = []
    for name in names:
        unique, number = name, 0
        while unique in taken or unique == name and counts[name] > 1:
            unique, number = f"{name}#{number}", number + 1
        taken.add(unique)
        result.append(unique)
    return result
