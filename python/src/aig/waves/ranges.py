"""The index that a bit has in the sources: of `b[2:9]` the least significant bit is b[9], and Yosys counts it from 0."""

from __future__ import annotations

import re
from typing import Any, Dict, Iterable, Mapping, NamedTuple, Optional, Tuple

# The two indices of a declaration; None of one that is no constant.
Declared = Tuple[Optional[int], Optional[int]]


class Range(NamedTuple):
    """The index of the least significant bit, and the step to that of the next one."""

    least: int = 0
    step: int = 1

    def index_of(self, bit: int) -> int:
        return self.least + self.step * bit


def of_wire(wire: Dict[str, Any]) -> Range:
    """The range of a wire or a port in Yosys' JSON."""
    least = wire.get("offset", 0)
    return Range(least + len(wire["bits"]) - 1, -1) if wire.get("upto") else Range(least)


def _of_word(declared: Declared, width: int) -> Range:
    """The range of a word of so many bits. A range that begins or ends with 0 needs no other index."""
    left, right = declared
    if left == 0 and width > 1 and (right is None or right == width - 1):
        return Range(width - 1, -1)
    if left is not None and right is not None and abs(left - right) == width - 1:
        return Range(right, 1 if left >= right else -1)
    return Range()


class Ranges:
    """The ranges of the wires and memories of a flat module. `words` has those that memories of each name have."""

    def __init__(self, module: Dict[str, Any], words: Mapping[str, Iterable[Declared]]):
        self._wires = {name: of_wire(wire) for name, wire in module["netnames"].items()}
        self._memories: Dict[str, Range] = {}
        for cell in module["cells"].values():
            if cell["type"] == "$mem_v2":
                name = cell["parameters"]["MEMID"].lstrip("\\")
                width = int(cell["parameters"]["WIDTH"], 2)
                found = {_of_word(it, width) for it in words.get(name.rpartition(".")[2], ())}
                self._memories[name] = found.pop() if len(found) == 1 else Range()

    def declared(self, word: str) -> str:
        """A name of a bit with the index of the sources. Names that end so are of what a register keeps or gets."""
        match = re.fullmatch(r"((.+?)(?:_(?:before|kept|next)(?:_\d+)?)?)\[(\d+)\]", word)
        if not match:
            return word
        memory = re.fullmatch(r"(.+)\[-?\d+\]", match[1])
        if match[1] in self._wires or match[2] in self._wires:
            found = self._wires.get(match[1]) or self._wires[match[2]]
        else:
            found = self._memories.get(memory[1], Range()) if memory else Range()
        return f"{match[1]}[{found.index_of(int(match[3]))}]"
