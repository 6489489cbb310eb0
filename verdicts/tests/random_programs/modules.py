"""Random modules: registers, memories, blocks, nets, generated parts, and instances of other modules."""

from __future__ import annotations

import re
from dataclasses import dataclass, field, replace
from random import Random
from typing import Dict, List, Optional, Sequence, Tuple

from .expressions import Expressions
from .scope import Counter, LoopVariable, Names, Scope, Target, Value, Variable
from .statements import Statements
from .tree import Kind, Tree, body, expression, item, joined, statement, text
from .types import enum, loop_variable, struct

# The file of a memory, and the words that it has, each of four bits.
WORDS, WORDS_OF_FILE = "words.hex", (0, 1, 3, 4, 6)
# At a wider port Icarus Verilog 11 extends the result of a signed function with zeros, and `s[5:0]`, if that is all of a
# signed variable, with its sign. Verilator and Yosys do neither, as the standard has it.
# An item of an enum, which Icarus Verilog 11 takes for one bit at a port.
_ITEM_OF_ENUM = re.compile(r"\bE\d+\b")
_WRONG_AT_PORT = re.compile(r"f\d+\(.*\)|\\?[\w.]+\S* ?\[[^\[\]]*\]")


@dataclass(eq=False)
class Module:
    """A module that others have instances of. `clocks` has the names of its clock and resets among the inputs."""

    name: str
    tree: Tree
    inputs: Sequence[Variable]
    outputs: Sequence[Variable]
    parameters: Sequence[str]
    clocks: Sequence[str]


@dataclass
class Clocks:
    """The clock and its edge, and the resets. Each reset has an edge, too."""

    edge: str
    resets: Sequence[Tuple[str, str]] = ()

    @property
    def clock(self) -> str:
        return f"{self.edge} clk"


@dataclass
class Inside:
    """What a module has so far.

    state    registers and memories, which have a value at each time
    nets     values that follow from them; each reads earlier ones alone
    """

    clocks: Clocks
    state: List[Variable] = field(default_factory=list)
    nets: List[Variable] = field(default_factory=list)
    items: List[Tree] = field(default_factory=list)
    functions: List = field(default_factory=list)
    loop_variables: List[LoopVariable] = field(default_factory=list)
    genvars: List[str] = field(default_factory=list)
    is_initial: bool = True

    @property
    def readable(self) -> List[Variable]:
        return self.state + self.nets

    def scope(self) -> Scope:
        return Scope(self.readable, functions=list(self.functions))


class Modules:
    def __init__(self, random: Random, names: Names):
        self.random, self.names = random, names
        self.expressions = Expressions(random)
        self.statements = Statements(self.expressions, names)
        self.reads_file = False

    # -- declarations

    def declared(self, inside: Inside, variable: Variable, begins: Optional[int]) -> None:
        """A register or a memory, and the value that it begins with, unless that is None."""
        random, name = self.random, variable.name
        if begins is None:
            inside.items.append(text(f"reg {variable.declared};\n"))
        elif variable.sizes:
            inside.items.append(text(f"reg {variable.declared};\n"))
            inside.items.append(self.filled(variable, begins))
        elif inside.is_initial:
            inside.items.append(text(f"reg {variable.declared};\ninitial {name} = {begins};\n"))
        else:
            inside.items.append(text(f"{random.choice(['reg', 'logic'])} {variable.declared} = {begins};\n"))

    def filled(self, memory: Variable, begins: int) -> Tree:
        """Gives each word of a memory a value: in a loop, or of a file and one by one those that the file leaves out."""
        if memory.width >= 4 and memory.sizes == (8,) and self.random.random() < 0.5:
            self.reads_file = True
            left = "".join(f"{memory.name}[{k}] = {begins};\n" for k in range(8) if k not in WORDS_OF_FILE)
            return text(f'initial begin\n$readmemh("{WORDS}", {memory.name});\n{left}end\n')
        counters = [self.names.plain("k") for _ in memory.sizes]
        head = "".join(f"for ({it} = 0; {it} < {size}; {it} = {it} + 1) " for it, size in zip(counters, memory.sizes))
        word = memory.name + "".join(f"[{it}]" for it in counters)
        lines = f"initial begin\n{head}{word} = {' + '.join(counters)} * {begins};\nend\n"
        return text(f"integer {', '.join(counters)};\n{lines}")

    def begin(self, random_bits: int = 16) -> int:
        return self.random.getrandbits(self.random.choice([1, 4, random_bits]))

    def registers(self, inside: Inside) -> List[Variable]:
        """Declares what blocks at the clock write."""
        random, names = self.random, self.names
        made = [names.variable("q", 40) for _ in range(random.choice([1, 1, 2]))]
        if random.random() < 0.25:
            sizes = random.choice([(4,), (4,), (8,), (5,), (4, 2), (2, 4), (8,), (16,)])
            made.append(Variable(names.new("m"), random.choice([1, 3, 4, 8, 9]), random.random() < 0.3, sizes=sizes))
        for variable in made:
            self.declared(inside, variable, self.begin())
        inside.state += made
        return made + self.of_types(inside)

    def of_types(self, inside: Inside) -> List[Variable]:
        """Declares registers of named types. Returns them, and the members of structs."""
        written: List[Variable] = []
        for kind in self.random.choice([[], [], [], [struct], [struct], [enum], [enum], [struct, enum]]):
            made = kind(self.random, self.names)
            inside.items.append(text(f"{made.text}initial {made.variable.name} = {self.first_value(made.variable)};\n"))
            inside.state += [made.variable, *made.more]
            written += [made.variable, *(it for it in made.more if not it.is_constant)]
        return written

    def first_value(self, variable: Variable) -> str:
        return self.random.choice(variable.items) if variable.items else str(self.begin())

    def routines(self, inside: Inside) -> None:
        """Functions of what they get alone, as `always @*` does not see what they read."""
        constants = [it for it in inside.readable if it.is_constant]
        for _ in range(self.random.choice([0, 0, 1, 1])):
            scope = Scope(list(constants), functions=list(inside.functions))
            function, tree = self.statements.routine(scope, False)
            inside.functions.append(function)
            inside.items.append(tree)

    # -- blocks

    def clocked(self, inside: Inside, written: Sequence[Variable]) -> None:
        """A block at the clock that writes these registers."""
        random = self.random
        scope = inside.scope()
        scope.loop_variables = list(inside.loop_variables)
        memories = any(it.sizes for it in written)
        scope.targets = [Target(it, False) for it in written]
        if random.random() < 0.3:  # a function that reads registers
            function, tree = self.statements.routine(inside.scope(), False)
            inside.items.append(tree)
            scope.functions.append(function)
        if random.random() < 0.35:
            task, tree = self.statements.routine(inside.scope(), True, scope.targets if random.random() < 0.6 else ())
            inside.items.append(tree)
            scope.tasks.append(task)
        locals_of = ""
        first: List[Tree] = []
        if scope.tasks or random.random() < 0.3:
            for local in [self.names.variable("u", 20) for _ in range(random.choice([1, 2, 3]))]:
                locals_of += f"reg {local.declared};\n"
                first.append(self.statements.assigned(scope, text(local.name), local.width, True))
                first[-1].kind = Kind.TEXT
                scope.variables = [*scope.variables, local]
                scope.targets += [Target(local, True)]
        if random.random() < 0.02 and not memories:  # one register is written in both ways
            scope.targets += [Target(random.choice(written), True)]
        lines = body([*first, self.statements.body(scope, random.choice([2, 2, 3]), random.choice([1, 2]))])
        begin = f"begin : {self.names.new('b')}\n{locals_of}" if locals_of else "begin\n"
        if inside.clocks.resets and not memories and random.random() < 0.6:
            inside.items.append(self.with_reset(inside.clocks, written, begin, lines))
        else:
            kind = "always_ff" if not locals_of and random.random() < 0.1 else "always"
            inside.items.append(item(f"{kind} @({inside.clocks.clock}) ", begin, lines, "end"))

    def with_reset(self, clocks: Clocks, written: Sequence[Variable], begin: str, lines: Tree) -> Tree:
        random = self.random
        resets = random.sample(list(clocks.resets), 1)
        if len(clocks.resets) == 2 and random.random() < 0.1:
            resets = list(clocks.resets)
        edges = " or ".join(f"{edge} {name}" for edge, name in resets)
        chain = ""
        for edge, name in resets:
            values = "".join(f"{it.name} <= {self.first_value(it)};\n" for it in written)
            chain += f"if ({'!' if edge == 'negedge' else ''}{name}) begin\n{values}end\nelse "
        return item(f"always @({clocks.clock} or {edges}) {begin}", chain, "begin\n", lines, "end\nend")

    def combinational(self, inside: Inside) -> None:
        """A block that follows its inputs."""
        random = self.random
        scope = inside.scope()
        # with one variable in two such blocks each of them would wake the other one for ever
        scope.loop_variables = [loop_variable(random, self.names)]
        inside.items.append(text(scope.loop_variables[0].declared))
        if not inside.is_initial or random.random() < 0.2:
            # `always @*` would not begin where no value changes, and in `always_comb` a local variable is a latch
            scope.is_plain, scope.loop_variables = random.random() < 0.98, []
        made = [self.names.variable("c") for _ in range(random.choice([1, 1, 2]))]
        first = []
        for variable in made:
            inside.items.append(text(f"reg {variable.declared};\n"))
            tree = self.statements.assigned(scope, text(variable.name), variable.width, True)
            tree.kind = Kind.TEXT  # without a first value it would be a latch
            first.append(tree)
            scope.variables = [*scope.variables, variable]
            scope.targets.append(Target(variable, True))
        if not scope.is_plain and random.random() < 0.3:
            task, tree = self.statements.routine(Scope([it for it in scope.variables if it.is_constant]), True, is_static=True)
            inside.items.append(tree)
            scope.tasks.append(task)
        begin = "begin\n"
        if random.random() < 0.2:
            begin = f"begin : {self.names.new('b')}\n"
        kind = "always_comb" if scope.is_plain or not inside.is_initial else "always @*"
        lines = self.statements.body(scope, 2, random.choice([1, 2]))
        inside.items.append(item(f"{kind} {begin}", *first, lines, "end"))
        inside.nets += made

    # -- nets

    def net(self, inside: Inside) -> None:
        random = self.random
        variable = self.names.variable("w", 40)
        name, width = variable.name, variable.width
        value = self.value_for(inside, width)
        form = random.random()
        if form < 0.35:
            made = [item(f"wire {variable.declared} = ", value.tree, ";")]
        elif form < 0.7 or width < 3:
            made = [item(f"wire {variable.declared};\nassign {name} = ", value.tree, ";")]
        elif form < 0.85:
            middle = random.randint(1, width - 1)
            other = self.value_for(inside, width)
            made = [item(f"wire {variable.declared};\nassign {name}{variable.part(width - 1, middle)} = ", value.tree,
                         f";\nassign {name}{variable.part(middle - 1, 0)} = ", other.tree, ";")]
        elif form < 0.95:
            other = self.names.variable("w", 16)
            made = [item(f"wire {variable.declared};\nwire {other.declared};\nassign {{{name}, {other.name}}} = ",
                         value.tree, ";")]
            inside.nets.append(other)
        else:  # not declared, so it is a net of one bit
            variable = Variable(self.names.plain("n"), 1)
            made = [item(f"assign {variable.name} = ", value.tree, ";")]
        inside.items += made
        inside.nets.append(variable)

    def value_for(self, inside: Inside, width: int) -> Value:
        most = max(width, self.random.choice([4, 9, 10, 14, 32, 40]))
        return self.expressions.value(inside.scope(), self.random.choice([1, 1, 2, 3]), most)

    def gates(self, inside: Inside) -> None:
        random = self.random
        variable = Variable(self.names.new("g"), 1)
        kind = random.choice(["and", "or", "xor", "nand", "nor", "xnor", "not", "buf"])
        count = 1 if kind in ("not", "buf") else random.choice([2, 2, 3])
        inputs = [self.expressions.value(inside.scope(), 1, 1).tree for _ in range(count)]
        inside.items.append(item(f"wire {variable.declared};\n{kind} {self.names.new('x')} ({variable.name}, ",
                                 joined(inputs), ");"))
        inside.nets.append(variable)

    def generated(self, inside: Inside) -> None:
        """A part that is generated: a loop that makes the bits of a net, a choice, or blocks with registers."""
        form = self.random.choice([self.of_bits, self.of_bits, self.of_choice, self.of_blocks])
        form(inside)

    def of_bits(self, inside: Inside) -> None:
        random = self.random
        counter = self.counter(inside)
        step, end = random.choice([1, 1, 2, 3]), random.choice([1, 2, 3, 4, 6])
        variable = Variable(self.names.new("w"), step * (end + 1), random.random() < 0.4)
        scope = inside.scope()
        scope.counters = [Counter(counter, 0, end)]
        local = Variable(self.names.plain("l"), random.randint(1, 9), random.random() < 0.4)
        value = self.expressions.value(scope, 2, random.choice([8, 10, 32, 32])).tree
        bits = f"[{counter}]" if step == 1 else f"[{step} * {counter} +: {step}]"
        scope.variables.append(local)
        written = self.expressions.value(scope, 2, 32).tree
        block = self.names.plain("g")
        inside.items.append(item(
            f"wire {variable.declared};\n", f"generate for ({counter} = 0; {counter} <= {end}; ",
            f"{counter} = {counter} + 1) begin : {block}\nwire {local.declared};\nassign {local.name} = ", value, ";\n",
            f"assign {variable.name}{bits} = ", written, ";\nend endgenerate"))
        inside.nets += [variable, replace(local, name=f"{block}[{random.randint(0, end)}].{local.name}")]

    def counter(self, inside: Inside) -> str:
        """A genvar, often one that other loops count with too."""
        if inside.genvars and self.random.random() < 0.7:
            return inside.genvars[0]
        inside.genvars.append(self.names.plain("j"))
        inside.items.append(text(f"genvar {inside.genvars[-1]};\n"))
        return inside.genvars[-1]

    def of_choice(self, inside: Inside) -> None:
        random = self.random
        variable = self.names.variable("w", 24)
        values = [self.value_for(inside, variable.width).tree for _ in range(3)]
        constants = [it for it in inside.readable if it.is_constant]
        chosen = expression(random.choice(constants).name) if constants else self.expressions.literal(3).tree
        arms = [item(f"assign {variable.name} = ", it, ";") for it in values]
        if random.random() < 0.5:
            tree = item(f"wire {variable.declared};\ngenerate if (", chosen, f" {random.choice(['<', '==', '>'])} ",
                        f"{random.choice([0, 1, 2, 3])}) begin\n", arms[0], "end else begin\n", arms[1],
                        "end endgenerate")
        else:
            tree = item(f"wire {variable.declared};\ngenerate case (", chosen, ")\n",
                        "0, 1: begin\n", arms[0], "end\n3: begin\n", arms[1], "end\ndefault: begin\n", arms[2],
                        "end\nendcase endgenerate")
        for arm in arms:
            arm.kind = Kind.TEXT
        inside.items.append(tree)
        inside.nets.append(variable)

    def of_blocks(self, inside: Inside) -> None:
        """Blocks at the clock, each with a register of its own."""
        random = self.random
        counter, block = self.counter(inside), self.names.plain("g")
        count = random.choice([2, 3])
        register = replace(self.names.variable("q", 12), name=self.names.plain("q"))
        scope = inside.scope()
        scope.counters = [Counter(counter, 0, count - 1)]
        scope.variables.append(register)
        scope.targets = [Target(register, False)]
        lines = self.statements.body(scope, 2, random.choice([1, 2]))
        begins = f"reg {register.declared};\ninitial {register.name} = {counter} + {self.begin()};\n"
        inside.items.append(item(
            f"generate for ({counter} = 0; {counter} < {count}; {counter} = {counter} + 1) begin : {block}\n", begins,
            f"always @({inside.clocks.clock}) begin\n", lines, "end\nend endgenerate"))
        inside.state += [replace(register, name=f"{block}[{k}].{register.name}") for k in range(count)]

    # -- instances

    def instance(self, inside: Inside, module: Module) -> None:
        random = self.random
        ports: List[Tuple[str, object]] = [(name, name) for name in module.clocks]
        for port in module.inputs:
            most = max(port.width, random.choice([4, 8, 10, 32])) if random.random() < 0.5 else port.width
            value = self.expressions.value(inside.scope(), random.choice([0, 0, 1, 2]), most)
            if str(value.tree).startswith("$signed(") and random.random() < 0.95:  # Yosys ends with an error
                value = self.expressions.value(inside.scope(), 0, most)
            if value.width < port.width and random.random() < 0.95:  # of an operator this is rejected
                value = self.expressions.value(inside.scope(), 0, most)
            narrow = value.width < port.width and _WRONG_AT_PORT.fullmatch(str(value.tree))
            if narrow or _ITEM_OF_ENUM.search(str(value.tree)):
                value = self.expressions.literal(most)
            ports.append((port.name, value.tree))
        made = []
        for port in module.outputs:
            shape = self.names.variable("o")
            width = shape.width if random.random() < 0.4 else port.width
            net = replace(shape, width=width)
            if random.random() < 0.15 and width > 2:
                halves = [replace(net, width=1, low=0), Variable(self.names.new("o"), width - 1)]
                connected = "{" + ", ".join(it.name for it in halves) + "}"
            else:
                halves, connected = [net], net.name
            made += halves
            ports.append((port.name, connected))
        inside.items += [text(f"wire {it.declared};\n") for it in made]
        parts = [expression(it) if isinstance(it, str) else it for _, it in ports]
        if random.random() < 0.6:
            parts = [text(f".{name}(", part, ")") for (name, _), part in zip(ports, parts)]
            random.shuffle(parts)
        given = [f".{it}({random.choice([0, 1, 2, 3, 5, 12])})" for it in module.parameters if random.random() < 0.6]
        name = self.names.new("u")
        parameters = f"#({', '.join(given)}) " if given else ""
        inside.items.append(item(f"{module.name} {parameters}{name} (", joined(parts), ");"))
        inside.nets += made

    # -- whole modules

    def filled_in(self, inside: Inside, children: Sequence[Module], steps: int) -> None:
        """Gives a module registers, nets and blocks."""
        random = self.random
        inside.loop_variables += [loop_variable(random, self.names) for _ in range(2)]
        inside.items += [text(it.declared) for it in inside.loop_variables]
        groups = [self.registers(inside) for _ in range(random.choice([1, 1, 2]))]
        self.routines(inside)
        waiting = list(children)
        for _ in range(steps):
            if waiting and random.random() < 0.5:
                self.instance(inside, waiting.pop())
            else:
                random.choices([self.net, self.combinational, self.gates, self.generated], [4, 4, 0.5, 1.5])[0](inside)
        for module in waiting:
            self.instance(inside, module)
        for group in groups:
            self.clocked(inside, group)
