"""A random program: modules, and a top module with a generator of random bits, a cycle, and a sum of all values."""

from __future__ import annotations

from dataclasses import dataclass, field, replace
from random import Random
from typing import Dict, List, Sequence

from .modules import WORDS, WORDS_OF_FILE, Clocks, Inside, Module, Modules
from .scope import Names, Variable
from .tree import Kind, Tree, item, text

SUM_WIDTH = 64
TOP = "top"
# How often a program has few modules and blocks: Yosys takes a third of the time for it.
SMALL = 0.75


@dataclass
class Program:
    """A program that has the value of `total` after so many cycles to say."""

    tree: Tree
    edge: str
    cycles: int
    files: Dict[str, str] = field(default_factory=dict)


def program(seed: int) -> Program:
    random = Random(seed)
    names = Names(random)
    modules = Modules(random, names)
    edge = random.choice(["posedge", "posedge", "posedge", "negedge"])
    parts: List[Tree] = []
    children: List[Module] = []
    is_small = random.random() < SMALL
    for _ in range(random.choice([0, 0, 1] if is_small else [0, 1, 1, 1, 2])):
        children.append(_module(modules, edge, children[:1]))
        parts.append(children[-1].tree)
    again = [random.choice(children)] if children and random.random() < 0.3 else []
    parts.append(_top(modules, edge, children + again, random.choice([0, 1, 2] if is_small else [0, 1, 2, 3])))
    words = [f"@{place} {random.getrandbits(4):x} // word {place}\n" for place in WORDS_OF_FILE]
    files = {WORDS: "".join(words)} if modules.reads_file else {}
    return Program(Tree(Kind.TEXT, [*parts]), edge, random.randint(6, 9), files)


def _parameters(modules: Modules, inside: Inside, is_top: bool) -> List[str]:
    """Adds parameters and constants to a module, and returns what stands in front of its ports."""
    random, names = modules.random, modules.names
    head = []
    for _ in range(0 if is_top else random.choice([0, 1, 1, 2])):
        shape = names.variable("P", 8)
        is_plain = random.random() < 0.4
        variable = Variable(names.plain("P"), 32 if is_plain else shape.width, is_plain or shape.is_signed, is_constant=True)
        kind = "" if is_plain else variable.type
        head.append(f"parameter {kind}{variable.name} = {random.randint(0, 12)}")
        inside.state.append(variable)
    for _ in range(random.choice([0, 0, 1])):
        shape = names.variable("K", 8)
        variable = Variable(names.plain("K"), shape.width, shape.is_signed, is_constant=True)
        value = modules.expressions.literal(8).tree
        inside.items.append(text(f"localparam {variable.type}{variable.name} = ", value, ";\n"))
        inside.state.append(variable)
    return head


def _module(modules: Modules, edge: str, children: Sequence[Module]) -> Module:
    random, names = modules.random, modules.names
    has_clock = random.random() < 0.6
    has_reset = has_clock and random.random() < 0.5
    reset_edge = random.choice(["posedge", "negedge"])
    reset = "rst" if reset_edge == "posedge" else "rst_n"
    clocks = ["clk"] * has_clock + [reset] * has_reset
    inside = Inside(Clocks(edge, [(reset_edge, reset)] * has_reset), is_initial=random.random() < 0.7)
    parameters = _parameters(modules, inside, False)
    inputs = [names.variable("a", 16) for _ in range(random.choice([1, 2, 3]))]
    outputs = [replace(names.variable("y", 24), is_signed=random.random() < 0.4) for _ in range(random.choice([1, 1, 2]))]
    inside.state += inputs
    if has_clock:
        modules.filled_in(inside, children, random.choice([0, 1, 1]))
    else:
        modules.routines(inside)
        modules.net(inside)
        inside.is_initial = inside.is_initial and random.random() < 0.5
        modules.combinational(inside)
    for output in outputs:
        inside.items.append(item(f"assign {output.name} = ", modules.value_for(inside, output.width).tree, ";"))
    name = names.new("module_")
    ports = [("input", Variable(it, 1)) for it in clocks] + [("input", it) for it in inputs] + \
        [("output", it) for it in outputs]
    front = f" #({', '.join(parameters)})" if parameters else ""
    if random.random() < 0.7:
        head = f"module {name}{front} ({', '.join(f'{way} {it.declared}' for way, it in ports)});\n"
    else:
        head = f"module {name}{front} ({', '.join(it.name for _, it in ports)});\n"
        head += "".join(f"{way} {it.declared};\n" for way, it in ports)
    tree = text(head, *inside.items, "endmodule\n\n")
    given = [it.split("=")[0].split()[-1] for it in parameters]
    return Module(name, tree, inputs, outputs, given, clocks)


# Three steps of exclusive ors make the next random bits.
_RANDOM = """reg [31:0] bits;
initial bits = 32'd{seed};
wire [31:0] bits_1 = bits ^ (bits << 13), bits_2 = bits_1 ^ (bits_1 >> 17);
always @({clock}) bits <= bits_2 ^ (bits_2 << 5);
reg [5:0] cycle;
initial cycle = 0;
always @({clock}) cycle <= cycle + 6'd1;
"""
# The resets begin idle. Where both are on, both end at once: simulation keeps the value of the first one else.
_RESETS = """reg rst, rst_n;
initial {{rst, rst_n}} = 2'b01;
always @({clock}) {{rst, rst_n}} <= rst && !rst_n ? 2'b01 : {{bits[7:6] == 0, bits[11:10] != 0}};
"""


def _top(modules: Modules, edge: str, children: Sequence[Module], steps: int) -> Tree:
    random = modules.random
    resets = [("posedge", "rst"), ("negedge", "rst_n")]
    random.shuffle(resets)
    inside = Inside(Clocks(edge, resets), is_initial=random.random() < 0.7)
    _parameters(modules, inside, True)
    clock = inside.clocks.clock
    first = _RANDOM.format(seed=random.getrandbits(31) + 1, clock=clock) + _RESETS.format(clock=clock)
    inside.state += [Variable("bits", 32), Variable("cycle", 6)]
    modules.filled_in(inside, children, steps)
    values = [it for it in inside.readable if not it.is_constant and it.name not in ("bits", "cycle")]
    return text(f"module {TOP} (input clk);\n", first, *inside.items, _sum(inside.clocks, values), "endmodule\n")


def _sum(clocks: Clocks, values: Sequence[Variable]) -> Tree:
    """A register that takes up each value in each cycle."""
    terms = []
    for k, variable in enumerate(values):
        for word in _words(variable):
            shift = (7 * k + len(terms)) % (SUM_WIDTH - variable.width + 1)
            terms.append(item(f"^ {{{word}, {shift}'d0}}" if shift else f"^ {{{word}}}"))
    return text(f"reg [{SUM_WIDTH - 1}:0] total;\ninitial total = 0;\nalways @({clocks.clock}) total <= ",
                f"{{total[{SUM_WIDTH - 2}:0], total[{SUM_WIDTH - 1}]}}\n", *terms, ";\n")


def _words(variable: Variable) -> List[str]:
    words = [variable.name]
    for size in variable.sizes:
        words = [f"{word}[{k}]" for word in words for k in range(size)]
    return words
