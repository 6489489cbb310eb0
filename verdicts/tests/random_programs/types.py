"""Random types: the variables of loops, packed structs, and enums."""

from __future__ import annotations

from random import Random
from typing import List, NamedTuple, Sequence, Tuple

from .scope import LoopVariable, Names, Variable

_OF_LOOPS = (
    ("integer", 32, True), ("int", 32, True), ("byte", 8, True), ("byte unsigned", 8, False), ("shortint", 16, True),
    ("reg [2:0]", 3, False), ("reg [3:0]", 4, False), ("reg [4:1]", 4, False), ("reg signed [3:0]", 4, True),
    ("bit [7:0]", 8, False), ("reg [31:0]", 32, False),
)
# What an enum has as its type, with the width and the sign: without one it is an `int`.
_OF_ENUMS = (("logic [2:0] ", 3, False), ("logic [3:0] ", 4, False), ("bit [4:0] ", 5, False),
             ("logic signed [3:0] ", 4, True), ("", 32, True))
# How often a part of a member begins with another bit than 0: a part of it is rejected.
_ODD = 0.03


def loop_variable(random: Random, names: Names) -> LoopVariable:
    return LoopVariable(names.plain("i"), *random.choice([_OF_LOOPS[0], *_OF_LOOPS]))


class Declared(NamedTuple):
    """A text that declares a type and a variable of it, the variable, and what else it brings about: the members of a
    struct, or the items of an enum."""

    text: str
    variable: Variable
    more: Sequence[Variable]


def struct(random: Random, names: Names) -> Declared:
    """A packed struct whose members have no sign, as Icarus Verilog 11 forgets it."""
    kind, name = names.plain("s"), names.plain("q")
    text, members, width = _members(random, names, name, random.choice([2, 2, 3]), True)
    return Declared(f"typedef struct packed {{ {text}}} {kind};\n{kind} {name};\n",
                    Variable(name, width, has_members=True), members)


def _members(random: Random, names: Names, owner: str, count: int, may_nest: bool) -> Tuple[str, List[Variable], int]:
    """Members, some of them in place of a struct inside: Icarus Verilog 11 ends with an error at one, and in 12 its members
    are as wide as the whole."""
    text, members, width = "", [], 0
    for _ in range(count):
        name = names.plain("m")
        if may_nest and random.random() < 0.15:
            inner, found, size = _members(random, names, owner, 2, False)
            text += inner
            members += found
        else:
            low = random.choice([1, 2]) if random.random() < _ODD else 0
            member = Variable(f"{owner}.{name}", random.choice([1, 2, 3, 4, 5, 8]), low=low, is_member=True)
            text += f"logic {member.range}{name}; "
            members.append(member)
            size = member.width
        width += size
    return text, members, width


def enum(random: Random, names: Names) -> Declared:
    """An enum with items, some of which have their numbers."""
    kind, name = names.plain("e"), names.plain("q")
    written, width, is_signed = random.choice(_OF_ENUMS)
    items, value = [], -1
    for _ in range(random.choice([2, 3, 4])):
        value += 1
        gets = ""
        if random.random() < 0.3 and value < 2:
            value += random.randint(0, 1)
            gets = f" = {width}'{'s' if is_signed else ''}d{value}" if written and random.random() < 0.7 else f" = {value}"
        items.append((names.plain("E"), gets))
    plain = tuple(it for it, _ in items)
    text = f"typedef enum {written}{{ {', '.join(it + gets for it, gets in items)} }} {kind};\n{kind} {name};\n"
    constants = [Variable(it, width, is_signed, is_constant=True) for it in plain]
    return Declared(text, Variable(name, width, is_signed, items=plain), constants)
