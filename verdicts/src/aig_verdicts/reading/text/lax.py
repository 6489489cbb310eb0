"""What Yosys makes of a design without a word, and what another design is in Verilog."""

from __future__ import annotations

import re
from typing import Any, Dict, Iterable, Iterator, List, Optional, Sequence, Set, Tuple

from . import tree
from aig.waves.ranges import Declared
from .rtlil import Module, Text, bits, has_mark, place_of, signals, source_in
from .tree import Node


def place(cell: Dict[str, Any]) -> str:
    """The file and line where a cell ends."""
    match = re.match(r"(?:sources/)?(.*?):\d+\.\d+-(\d+)\.", cell["attributes"].get("src", "").split("|")[-1])
    return f"{match[1]}:{match[2]}" if match else "?"


def has_race(memory: Dict[str, Any]) -> bool:
    """Whether two writes of a memory have no order."""
    count = int(memory["parameters"]["WR_PORTS"], 2)
    order = memory["parameters"]["WR_PRIORITY_MASK"][::-1]
    return any(order[later * count + k] == "0" for later in range(count) for k in range(later))


def drivers_of_a_bit(design: Text) -> List[str]:
    """The wires that get two values by `connect`, or are inputs or outputs of cells and get a constant. `check` does not see
    constants."""
    found = []
    for module in design.modules:
        widths = module.widths()
        values = {bit: "input" for wire in module.of("wire") if "input" in wire.words for bit in bits(wire.name, widths)}
        for connection in module.of("connect"):
            to, value = signals(connection.lines[0])[1:]
            for bit, driver in zip(bits(to, widths), bits(value, widths)):
                if values.setdefault(bit, driver) != driver:
                    found.append(bit.split(" [")[0].lstrip("\\"))
    return found


def constant_outputs(cells: Iterable[Dict[str, Any]]) -> List[str]:
    """The places of cells whose outputs are constants: another driver of their wires is one."""
    return [place(cell) for cell in cells for port, bits in cell["connections"].items()
            if cell["port_directions"].get(port) == "output" and any(bit in ("0", "1", "x", "z") for bit in bits)]


# The parts of an operator that have its width, and its sign if each of them is signed. Other operators are never signed.
OPERANDS: Dict[str, Tuple[int, ...]] = {
    **dict.fromkeys(("ADD", "SUB", "MUL", "DIV", "MOD", "BIT_AND", "BIT_OR", "BIT_XOR", "BIT_XNOR"), (0, 1)), "TERNARY": (1, 2),
    **dict.fromkeys(("BIT_NOT", "NEG", "POS", "SHIFT_LEFT", "SHIFT_SLEFT", "SHIFT_RIGHT", "SHIFT_SRIGHT", "POW"), (0,)),
}
_UNSIGNED = re.compile("TO_UNSIGNED|CONCAT|REPLICATE|REDUCE_.*|LOGIC_.*|LT|LE|EQ|NE|EQX|NEX|GE|GT")
_PARAMETERS = ("PARAMETER", "LOCALPARAM")
_DECLARATIONS = ("WIRE", "MEMORY", *_PARAMETERS)


def _sign_of_declaration(node: Node) -> Optional[bool]:
    """Whether a declaration is signed: nobody knows that of a named type, or of a parameter without a range."""
    kinds = [part.kind for part in node.parts]
    is_open = "WIRETYPE" in kinds or node.kind in _PARAMETERS and "RANGE" not in kinds
    return True if node.is_signed else None if is_open else False


def _all(signs: Iterable[Optional[bool]]) -> Optional[bool]:
    """Whether all are signed: no, if one is not."""
    each = list(signs)
    return False if False in each else None if None in each else True


def ranges(node: Node) -> List[Node]:
    """The ranges of a declaration or of a name in an expression."""
    return [it for part in node.parts for it in (part.parts if part.kind == "MULTIRANGE" else [part]) if it.kind == "RANGE"]


def addresses(declaration: Node) -> List[Node]:
    """The dimensions of a memory: its first range is that of its words, if they have no type with a name."""
    return ranges(declaration)[not any(it.kind == "WIRETYPE" for it in declaration.parts):] if declaration.kind == "MEMORY" else []


class Signs:
    """Which expressions of a tree are signed. A name may have several declarations, in modules and blocks."""

    def __init__(self, nodes: Sequence[Node]):
        self._declared: Dict[str, Set[Tuple[Optional[bool], int]]] = {}  # the sign, and the addresses of one word
        for node in nodes:
            if node.kind in _DECLARATIONS and node.name:
                self._declared.setdefault(node.name, set()).add((_sign_of_declaration(node), len(addresses(node))))

    def is_memory(self, name: str) -> bool:
        """Whether one address chooses a word of it."""
        return {count for _, count in self._declared.get(name, ())} == {1}

    def _of_name(self, name: str, chosen: int) -> Optional[bool]:
        """The sign of a name with so many ranges after it: a part of a word has none."""
        each = {False if chosen > count else sign if chosen == count else None
                for sign, count in self._declared.get(name, ())}
        return each.pop() if len(each) == 1 else None

    def of(self, node: Node) -> Optional[bool]:
        """Whether an expression is signed, or None if that is not known."""
        if node.kind in ("IDENTIFIER", "FCALL"):
            return self._of_name(node.name, len(ranges(node)))
        if node.kind in OPERANDS:
            return _all(self.of(node.parts[k]) for k in OPERANDS[node.kind])
        if node.kind in ("CONSTANT", "TO_SIGNED"):
            return node.kind == "TO_SIGNED" or node.is_signed
        return False if _UNSIGNED.fullmatch(node.kind) else None

    def of_address(self, node: Node) -> Optional[bool]:
        """Whether a word of a memory is chosen by a signed address."""
        return self.of(ranges(node)[0].parts[0])


def signs_of_addresses(lines: Sequence[str]) -> Dict[str, Optional[bool]]:
    """Whether the address of a memory is signed, by the place of a word that is read, or of an assignment to words."""
    nodes = tree.nodes(lines)
    signs = Signs(nodes)
    found: Dict[str, Set[Optional[bool]]] = {}

    def add(at: str, node: Node) -> None:
        if node.kind == "CONCAT":
            for part in node.parts:
                add(at, part)
        elif node.kind == "IDENTIFIER" and signs.is_memory(node.name) and ranges(node):
            found.setdefault(at, set()).add(signs.of_address(node))

    for node in nodes:
        add(node.place, node)
        if node.kind.startswith("ASSIGN") and node.parts:
            add(node.place, node.parts[0])
    return {at: each.pop() if len(each) == 1 else None for at, each in found.items()}


def ranges_of_words(lines: Sequence[str]) -> Dict[str, Set[Declared]]:
    """The ranges of the words of memories, by the names of these. That of a type with a name is not known."""
    found: Dict[str, Set[Declared]] = {}
    for node in tree.nodes(lines):
        if node.kind == "MEMORY":
            of_word = ranges(node)[:-len(addresses(node))]
            left, right = map(_number, of_word[0].parts) if of_word and len(of_word[0].parts) == 2 else (None, None)
            found.setdefault(node.name, set()).add((left, right))
    return found


def _number(node: Node) -> Optional[int]:
    if node.kind != "CONSTANT" or not re.fullmatch("[01]+", node.bits):
        return None
    return int(node.bits, 2) - (node.is_signed and node.bits[0] == "1") * (1 << len(node.bits))


def signed_addresses(module: Dict[str, Any], signs: Dict[str, Optional[bool]]) -> Iterator[str]:
    """The places where a memory is read or written at a signed address whose negative values would be words of the memory.
    Where the source does not say whether an address is signed, the wires do."""
    signed = {tuple(wire["bits"]) for wire in module["netnames"].values() if wire.get("signed")}
    for cell in module["cells"].values():
        if re.match(r"\$mem(rd|wr)", cell["type"]):
            address = cell["connections"]["ADDR"]
            size = module["memories"][cell["parameters"]["MEMID"].lstrip("\\")]
            sign = signs.get(cell["attributes"].get("src", ""))
            is_signed = sign if sign is not None else tuple(address) in signed
            if is_signed and address[-1] != "0" and 1 << len(address) - 1 < size["start_offset"] + size["size"]:
                yield place(cell)


_SHIFTS = ("$shl", "$shr", "$sshl", "$sshr")
_LARGEST_SHIFT = 31  # bits


def far_shifts(design: Text, flat: Iterable[Dict[str, Any]]) -> List[str]:
    """The places of shifts by a constant of 2^31 or more, or by a negative one, which is as large: Yosys shifts by another
    number. It folds some in the modules, and some when instances have given them their constants."""
    found = [cell.place for module in design.modules for cell in module.of("cell")
             if cell.words[1] in _SHIFTS and _is_far(bits(cell.parts("connect")["B"], module.widths()))]
    return found + [place(cell) for cell in flat if cell["type"] in _SHIFTS and _is_far(cell["connections"]["B"])]


def _is_far(amount: Sequence[Any]) -> bool:
    return all(bit in ("0", "1") for bit in amount) and "1" in amount[_LARGEST_SHIFT:]


def powers(cells: Iterable[Dict[str, Any]]) -> List[str]:
    """The places of `**` whose parts are no constants: no gates are made of it."""
    return [place(cell) for cell in cells if cell["type"] == "$pow"]


def wired_outputs(module: Module) -> List[str]:
    """The places of instances with an output that a `wand` or `wor` resolves. Yosys keeps the value that the instance drives
    under the name of its port, where Verilog has one net with the resolved value."""
    if not any(has_mark(wire.attributes, kind) for wire in module.of("wire") for kind in ("wand", "wor")):
        return []
    return [cell.place for cell in module.of("cell") if not re.match(r"\$(?!paramod)", cell.words[1])
            and any("$auto$hierarchy.cc:" in signal for signal in cell.parts("connect").values())]


_UNKNOWN_ITEM = re.compile(r"\s*case (?:.*[ ,{])?\d+'[01-]*[xz]")


def unknown_items(design: Sequence[str]) -> List[str]:
    """The places of `case` statements with an x or z in an item, in the text of a design."""
    found, at = [], "?"
    for line in design:
        source = source_in(line)
        if source:
            at = place_of(source) if not place_of(source).endswith(":0") else at
        elif _UNKNOWN_ITEM.match(line):
            found.append(at)
    return found


_KIND = re.compile(r"( +)AST_(\w+) <(.*?)>(.*)")
_END = re.compile(r" str='\$(finish|stop)'")


def ends_of_simulation(lines: Sequence[str]) -> List[str]:
    """The places of `$finish` and `$stop` outside of `initial`. They have none of their own: it is that of what is before."""
    found, at = [], "?"
    initial = -1  # the indentation of the one that is open
    for match in filter(None, map(_KIND.match, lines)):
        indent = len(match[1])
        initial = -1 if indent <= initial else initial
        initial = indent if match[2] == "INITIAL" else initial
        at = tree.line(match[3]) if tree.line(match[3]) != "?" else at
        if initial < 0 and _END.match(match[4]):
            found.append(at)
    return found
