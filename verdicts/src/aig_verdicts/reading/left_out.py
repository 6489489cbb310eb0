"""What the circuit leaves out: before `proc` makes registers, modules without a body, memories and loop variables that
nothing reads; in the flat module, what drives signals that are free."""

from __future__ import annotations

import re
from typing import Any, Collection, Dict, Iterator, List, Mapping, Sequence, Set, Tuple

from .text.rtlil import Item, Module, Text, bits, has_mark, signals
from ..listing import places as shown
from aig.tools import ToolFailed

_NAME = re.compile(r"[\\$][^ ]+")
_NEXT = re.compile(r"\$\d+(\\.*?)(?:\[\d+:\d+\])?(?:\$\d+)?")
_PORTS = ("input", "output", "inout")


# -- modules without a body


def open_boxes(design: Text, free: Collection[str]) -> List[str]:
    """Makes free values of the outputs of each module that has no body, or that `free` names. Returns notes."""
    boxes = {module.name: module for module in design.modules if _is_box(module) or source_name(module) in free}
    missing = set(free) - {source_name(module) for module in boxes.values()}
    if missing:
        raise ToolFailed(f"the design has no module {min(missing)}")
    design.modules = [module for module in design.modules if module.name not in boxes]
    if not any(has_mark(module.attributes, "top") for module in design.modules):
        raise ToolFailed("the design has no assertion and no cover: the top module has no body, or is left out")
    places: Dict[str, List[str]] = {}
    for module in design.modules:
        cells = [cell for cell in module.of("cell") if cell.words[1] in boxes]
        widths = module.widths() if cells else {}
        for cell in cells:
            box = boxes[cell.words[1]]
            places.setdefault(source_name(box), []).append(cell.place)
            _free(module, cell, box, widths)
    return [f"{shown(at)}: the outputs of module {name}, which {_why(name, free)}, are free values" for name, at in places.items()]


def _why(name: str, free: Collection[str]) -> str:
    return "is left out" if name in free else "has no body"


def _is_box(module: Module) -> bool:
    return has_mark(module.attributes, "blackbox")


def source_name(module: Module) -> str:
    """The name of a module in the sources: Yosys names one with parameters `$paramod\\NAME\\W=..` or `$paramod$SUM\\NAME`."""
    named = re.search(r'attribute \\hdlname "\\?\\?(.*)"', "\n".join(module.attributes))
    if named:
        return named[1]
    match = re.fullmatch(r"\$paramod(?:\$[0-9a-f]+)?\\([^\\]+)(?:\\.*)?", module.name)
    return match[1] if match else module.name.lstrip("\\")


def _free(module: Module, cell: Item, box: Module, widths: Dict[str, int]) -> None:
    """A free value in place of each output of a cell. A wire that something else drives too has several drivers then."""
    ports = {wire.name.lstrip("\\"): wire.words for wire in box.of("wire") if set(_PORTS) & set(wire.words)}
    module.items.remove(cell)
    for port, signal in cell.parts("connect").items():
        if port not in ports:
            raise ToolFailed(f"{cell.place}: module {source_name(box)} has no port {port}")
        width = len(bits(signal, widths))
        if {"output", "inout"} & set(ports[port]) and width:
            name = f"{cell.name}.{port}"
            module.items.append(Item(cell.attributes, [
                f"  cell $anyseq {name}", f"    parameter \\WIDTH {width}", f"    connect \\Y {signal}", "  end"]))


# -- signals that are free

_INITIAL = r"attribute \init "


def inside(top: str, signal: str) -> str:
    """A signal by its name in the top module."""
    first, _, rest = signal.partition(".")
    if first != top:
        raise ToolFailed(f"{signal} does not begin with the top module, {top}: write {top}.{signal}")
    return rest


def free_signals(module: Module, names: Sequence[str], facts: Mapping[str, Any]) -> List[str]:
    """Gives signals of a flat module any value. What drives one drives a wire that nothing reads. Returns notes."""
    widths = module.widths()
    wires = {wire.name: wire for wire in module.of("wire")}
    freed = {}
    for name in names:
        wire = wires.get(f"\\{name}")
        if wire is None:
            raise ToolFailed(f"the circuit has no signal {name} that could be free")
        if "input" in wire.words:
            raise ToolFailed(f"{wire.place}: {name} is an input, and has any value already")
        freed[wire.name] = f"$driven{wire.name}"
        module.declare(freed[wire.name], widths[wire.name], [it for it in wire.attributes if _INITIAL in it])
        wire.attributes = [it for it in wire.attributes if _INITIAL not in it]
    for item in module.items:
        _look_at_value(item, freed)
        item.lines = [*_driving(item, freed, facts)]
    module.items += [Item(wires[it].attributes, [f"  cell $anyseq $free{it}", f"    parameter \\WIDTH {widths[it]}",
                                                 f"    connect \\Y {it}", "  end"]) for it in freed]
    return [f"{wires[it].place}: {it[1:]} is free: it has any value" for it in freed]


def _look_at_value(item: Item, freed: Mapping[str, str]) -> None:
    """Rejects a signal that is another one under another name, or a constant: a reader may have that one in place of it."""
    to, value = signals(item.lines[0].split(" connect ", 1)[1]) if item.kind == "connect" else ("", "")
    for name in freed.keys() & {*to.split(" ")}:
        other = [word[1:] for word in value.split(" ") if word.startswith("\\")]
        if other or "'" in value or value.isdigit():
            raise ToolFailed(f"{name[1:]} is {f'connected to {other[0]}: free that one' if other else 'a constant'}")


def _driving(item: Item, freed: Mapping[str, str], facts: Mapping[str, Any]) -> Iterator[str]:
    """The lines of an item. In place of a signal that is free it drives another wire."""
    directions = facts["cells"].get(item.name.removeprefix("\\"), {}).get("port_directions", {}) if item.kind == "cell" else {}
    for line in item.lines:
        head, port = line.split()[:2] if line.lstrip().startswith("connect ") else ("", "")
        if item.kind == "connect":
            to, value = signals(line.split(" connect ", 1)[1])
            yield f"  connect {_renamed(to, freed)} {value}"
        elif head and directions.get(port.removeprefix("\\")) == "output":
            yield f"    connect {port} {_renamed(line.split(f' {port} ', 1)[1], freed)}"
        else:
            yield line


def _renamed(signal: str, names: Mapping[str, str]) -> str:
    return " ".join(names.get(word, word) for word in signal.split(" "))


# -- memories and variables that nothing reads


def drop_unread_memories(module: Module) -> List[str]:
    """Drops memories that are written and never read, as a trace buffer. Returns their places."""
    read = {_memory_of(cell) for cell in module.of("cell") if cell.words[1].startswith(("$memrd", "$mem_"))}
    unread = {memory.name: memory for memory in module.of("memory") if memory.name not in read}
    module.items = [item for item in module.items if not (
        item.kind == "memory" and item.name in unread
        or item.kind == "cell" and item.words[1].startswith(("$meminit", "$memwr")) and _memory_of(item) in unread)]
    for process in module.of("process"):
        lines: List[str] = []
        for line in process.lines:
            words = line.split()
            if words[:1] == ["memwr"] and words[1] in unread:
                while lines[-1].lstrip().startswith("attribute "):
                    lines.pop()
            else:
                lines.append(line)
        process.lines = lines
    return [f"{memory.place}: {name.lstrip(chr(92))}" for name, memory in unread.items()]


def _memory_of(cell: Item) -> str:
    return cell.parts("parameter").get("MEMID", "").strip('"').replace("\\\\", "\\")


def drop_loop_variables(module: Module) -> None:
    """Drops variables that several blocks count with, and that nothing reads. They would have several drivers else."""
    writers: Dict[str, int] = {}
    for process in module.of("process"):
        for wire in _written(process):
            writers[wire] = writers.get(wire, 0) + 1
    several = {wire for wire, count in writers.items() if count > 1 and wire.startswith("\\")}
    gone = several - read_wires(module, several)
    if gone:
        module.items = [item for item in module.items if item.kind != "wire" or item.name not in gone]
        for process in module.of("process"):
            process.lines = [line for line in process.lines if not _writes(line, gone)]


def _written(process: Item) -> Set[str]:
    """The wires that a process gives a value, but for one at the start."""
    found: Set[str] = set()
    event = ""
    for line in process.lines:
        words = line.split()
        event = words[1] if words[:1] == ["sync"] else event
        if words[:1] == ["update"] and event != "init":
            found.add(words[1])
    return found


def _writes(line: str, wires: Set[str]) -> bool:
    """Whether a line gives one of the wires its value, or takes its old value for the next one."""
    words = line.split()
    if words[:1] == ["update"]:
        return words[1] in wires
    return words[:1] == ["assign"] and len(words) == 3 and _keeps(words[1], words[2]) and words[2] in wires


def _keeps(to: str, value: str) -> bool:
    """Whether `assign` says that a variable keeps its value: `$0\\i[31:0]` is the next value of `\\i`."""
    match = _NEXT.fullmatch(to)
    return match is not None and match[1] == value


def read_wires(module: Module, wires: Set[str]) -> Set[str]:
    """Those of the wires that are ports, or that something reads."""
    found: Set[str] = set()
    for item in module.items:
        if item.kind == "wire":
            found |= {item.name} if set(_PORTS) & set(item.words) else set()
        elif item.kind == "process":
            for line in item.lines[1:-1]:
                is_write = _writes(line, wires)
                found |= set() if is_write and line.split()[0] == "assign" else set(_NAME.findall(line.split(maxsplit=2)[2] if is_write else line))
        else:
            found |= set(_NAME.findall(" ".join(item.lines)))
    return found & wires
