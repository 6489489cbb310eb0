"""What a place of a program can read, write and call."""

from __future__ import annotations

from dataclasses import dataclass, field, replace
from random import Random
from typing import List, NamedTuple, Sequence, Tuple

from .tree import Tree


@dataclass(frozen=True)
class Variable:
    """A name that has a value.

    width         its bits; a scalar has no range
    low           the smaller one of the two indices in its range
    is_ascending  whether the range begins with `low`
    sizes         how many words each dimension of a memory has
    is_constant   whether it is a parameter or an item of an enum
    items         the items of an enum, which alone may be written to it
    has_members   whether it is a struct, whose members are variables too
    is_member     whether it is one of those: Icarus Verilog 11 knows no variable index of it
    """

    name: str
    width: int
    is_signed: bool = False
    low: int = 0
    is_ascending: bool = False
    sizes: Tuple[int, ...] = ()
    is_constant: bool = False
    items: Tuple[str, ...] = ()
    has_members: bool = False
    is_member: bool = False

    @property
    def range(self) -> str:
        high = self.low + self.width - 1
        if self.width == 1:
            return ""
        return f"[{self.low}:{high}] " if self.is_ascending else f"[{high}:{self.low}] "

    @property
    def type(self) -> str:
        return ("signed " if self.is_signed else "") + self.range

    @property
    def declared(self) -> str:
        return self.type + self.name + "".join(f" [0:{size - 1}]" for size in self.sizes)

    def part(self, high: int, low: int) -> str:
        """The part between two positions, where 0 is the position of the lowest bit."""
        if self.is_ascending:
            high, low = (self.width - 1 - low, self.width - 1 - high)
            return f"[{self.low + low}:{self.low + high}]"
        return f"[{self.low + high}:{self.low + low}]"


class Value(NamedTuple):
    """An expression, with the width and the sign that it has alone."""

    tree: Tree
    width: int
    is_signed: bool = False
    is_constant: bool = False


class Counter(NamedTuple):
    """A variable of a loop, which is between two bounds in the loop's body."""

    name: str
    low: int
    high: int
    width: int = 32
    is_signed: bool = True


class LoopVariable(NamedTuple):
    """A variable that loops count with, and its type as it is written."""

    name: str
    type: str
    width: int
    is_signed: bool

    @property
    def declared(self) -> str:
        return f"{self.type} {self.name};\n"

    def has(self, value: int) -> bool:
        low, high = (-1 << self.width - 1, 1 << self.width - 1) if self.is_signed else (0, 1 << self.width)
        return low <= value < high

    def literal(self, value: int) -> str:
        """A number of its type."""
        return f"{self.width}'{'s' if self.is_signed else ''}d{value}"

    def between(self, low: int, high: int) -> Counter:
        return Counter(self.name, low, high, self.width, self.is_signed)


class Target(NamedTuple):
    """What statements may write, and whether they block."""

    variable: Variable
    blocks: bool


class Argument(NamedTuple):
    way: str
    variable: Variable


class Routine(NamedTuple):
    """A function or a task. A task has no result."""

    name: str
    arguments: Sequence[Argument]
    result: Variable


@dataclass
class Scope:
    """`result` is the function that a statement is in. Plain statements have no named blocks."""

    variables: List[Variable] = field(default_factory=list)
    targets: List[Target] = field(default_factory=list)
    counters: List[Counter] = field(default_factory=list)
    functions: List[Routine] = field(default_factory=list)
    tasks: List[Routine] = field(default_factory=list)
    loop_variables: List[LoopVariable] = field(default_factory=list)
    result: str = ""
    is_plain: bool = False

    def with_more(self, **more: List[object]) -> Scope:
        return replace(self, **{name: [*getattr(self, name), *values] for name, values in more.items()})


class Names:
    """Names that are used once in a program."""

    def __init__(self, random: Random):
        self._random = random
        self._count = 0

    def new(self, stem: str) -> str:
        self._count += 1
        name = f"{stem}{self._count}"
        if self._random.random() < 0.06:  # an escaped name ends with a blank
            return "\\" + name + self._random.choice(["[3]", "+x", ".y", "=", "$", "-case", "~"]) + " "
        return name

    def plain(self, stem: str) -> str:
        self._count += 1
        return f"{stem}{self._count}"

    def variable(self, stem: str, most: int = 24, is_scalar_too: bool = True) -> Variable:
        random = self._random
        width = random.choice([1, 2, 3, 4, 5, 7, 8, 9, 11, 13, 16, 17, 23, 31, 32, 33, 37])
        width = max(min(width, most), 1 if is_scalar_too else 2)
        low = random.choice([0] * 9 + [1, 2, 5])
        return Variable(self.new(stem), width, random.random() < 0.4, low, random.random() < 0.1)
