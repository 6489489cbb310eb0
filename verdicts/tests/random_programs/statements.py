"""Random statements of blocks, functions and tasks."""

from __future__ import annotations

import re
from dataclasses import replace
from typing import List, Sequence, Tuple

from .expressions import Expressions
from .scope import Argument, LoopVariable, Names, Routine, Scope, Target, Variable
from .tree import Part, Tree, body, expression, item, joined, statement, text
from .types import loop_variable

# How often a part with a variable index that is written goes downward: it is rejected if it may end below bit 0.
DOWNWARD = 0.01
_AT_INDEX = re.compile(r"\[[^\]]*[A-Za-z]")


class Statements:
    def __init__(self, expressions: Expressions, names: Names):
        self.random, self.expressions, self.names = expressions.random, expressions, names

    def body(self, scope: Scope, depth: int, count: int) -> Tree:
        return body([self.one(scope, depth) for _ in range(count)])

    def some(self, scope: Scope, depth: int) -> Tree:
        return self.body(scope, depth - 1, self.random.choice([1, 1, 1, 2]))

    def one(self, scope: Scope, depth: int) -> Tree:
        if depth <= 0:
            return self.assignment(scope)
        forms = [self.assignment, self.conditional, self.case, self.loop, self.repeat, self.block, self.call]
        has_tasks = any(it.blocks for it in scope.targets) and scope.tasks
        repeats = 0.004 if scope.result else 0.3  # Yosys rejects a function that repeats
        weights = [5, 3, 3, 1.6 if scope.loop_variables else 0, repeats, 0 if scope.is_plain else 1, 2.5 if has_tasks else 0]
        form, = self.random.choices(forms, weights)
        return form(scope) if form == self.assignment else form(scope, depth)

    # -- assignments

    def assignment(self, scope: Scope) -> Tree:
        target = self.random.choice(scope.targets)
        if target.variable.items:
            item_of = self.random.choice(target.variable.items)
            return statement(target.variable.name, " = " if target.blocks else " <= ", item_of, ";")
        if self.random.random() < (0.08 if target.blocks else 0.01):  # Yosys often rejects it in braces with <=
            written, width = self.several(scope, target.blocks)
        else:
            written, width = self.written(scope, target.variable)
        # Icarus Verilog ends at once where such an assignment is to the result of a function
        if target.blocks and target.variable.name != scope.result and width > 1 and self.random.random() < 0.06:
            return self.operator_assignment(scope, written, width)
        return self.assigned(scope, written, width, target.blocks)

    def assigned(self, scope: Scope, written: Tree, width: int, blocks: bool) -> Tree:
        most = max(width, self.random.choice([4, 8, 10, 12, 32, 32, 40]))
        # at a variable index it is seldom a narrow one with a sign, or a shift of a sum: they are rejected
        is_alone = _AT_INDEX.search(str(written)) and self.random.random() < 0.93
        form = self.expressions.concatenation if is_alone else self.expressions.value
        value = form(scope, most=most, depth=self.random.choice([0, 1, 1, 2, 2, 3]))
        if scope.result and str(written) == scope.result and self.random.random() < 0.5:
            return statement(written, " = ", written, self.random.choice([" + ", " ^ ", " - "]), value.tree, ";")
        return statement(written, " = " if blocks else " <= ", value.tree, ";")

    def operator_assignment(self, scope: Scope, written: Tree, width: int) -> Tree:
        operator = self.random.choice(["+=", "-=", "&=", "|=", "^=", "<<=", ">>=", ">>>="])
        if operator not in ("<<=", ">>=", ">>>="):
            return statement(written, f" {operator} ", self.expressions.value(scope, 1, width).tree, ";")
        # Icarus Verilog 11 and 12 shift by another amount where it is a sum, or has a sign
        amount = self.expressions.value(scope, 0, 3)
        return statement(written, f" {operator} ", *(["{", amount.tree, "}"] if amount.is_signed else [amount.tree]), ";")

    def several(self, scope: Scope, blocks: bool) -> Tuple[Tree, int]:
        """Several targets in braces, each once."""
        targets = [*dict.fromkeys(it.variable for it in scope.targets if it.blocks == blocks and not it.variable.sizes
                                  and it.variable.name != scope.result and not it.variable.items
                                  and not it.variable.has_members)]
        chosen = self.random.sample(targets, min(len(targets), self.random.choice([2, 2, 3])))
        if not chosen:
            return self.written(scope, next(it.variable for it in scope.targets if it.blocks == blocks and not it.variable.items))
        # Yosys rejects a variable index in braces that are written
        is_fixed = self.random.random() < 0.98
        parts = [self.written(scope, it, is_fixed) for it in chosen]
        return text("{", joined([tree for tree, _ in parts]), "}"), sum(width for _, width in parts)

    def written(self, scope: Scope, variable: Variable, is_fixed: bool = False) -> Tuple[Tree, int]:
        """A target or a part of it, with the width that it gets. A fixed part has constants as its places."""
        random, expressions = self.random, self.expressions
        words: List = [variable.name]
        for size in variable.sizes:
            words += ["[", expressions.index(scope, 0, size, False), "]"]
        form = random.random()
        is_fixed = is_fixed or variable.is_member
        if form < 0.6 or variable.width == 1:
            return text(*words), variable.width
        # Yosys fails where a function with constants as arguments writes out of range
        if is_fixed or form < 0.85 or scope.result and random.random() < 0.98:
            part, width = expressions.part(scope, variable, variable.width, is_fixed, DOWNWARD)
            return text(*words, part), width
        place = self.place(scope)
        if form < 0.92:  # what is out of range is not written
            return text(*words, "[", place, "]"), 1
        width = random.randint(1, variable.width)
        way = "-:" if random.random() < DOWNWARD else "+:"
        return text(*words, "[", place, f" {way} {width}]"), width

    def place(self, scope: Scope) -> Tree:
        """An index that may be out of range. It is seldom a constant, as Yosys ends with an error then."""
        for _ in range(9):
            place = self.expressions.value(scope, self.random.choice([0, 0, 1]), self.random.choice([2, 3, 4, 5]))
            if not place.is_constant:
                break
        return place.tree

    # -- statements with others inside

    def conditional(self, scope: Scope, depth: int) -> Tree:
        condition = self.expressions.alone(scope, self.random.choice([1, 1, 2]))
        first = statement("if (", condition.tree, ") begin\n", self.some(scope, depth), "end")
        if self.random.random() < 0.5:
            first.parts[-1:] = [" else begin\n", self.some(scope, depth), "end\n"]
        return first

    def case(self, scope: Scope, depth: int) -> Tree:
        random = self.random
        if random.random() < 0.15:
            return self.reverse_case(scope, depth)
        enums = [it for it in scope.variables if it.items]
        if enums and random.random() < 0.5:
            return self.case_of_enum(scope, random.choice(enums), depth)
        kind = random.choice(["case", "case", "casez", "casex"])
        if random.random() < 0.01:  # of `casez` and `casex` this is rejected
            selector = self.expressions.literal(5)
        else:
            selector = self.expressions.not_computed(scope, random.choice([0, 1, 2]), random.randint(2, 6))
        items = []
        for _ in range(random.choice([1, 2, 2, 3])):
            labels = [self.label(scope, kind, selector.width) for _ in range(random.choice([1, 1, 1, 2, 3]))]
            items.append(statement(joined(labels), ": begin\n", self.some(scope, depth), "end"))
        if random.random() < 0.7:
            items.append(statement("default: begin\n", self.some(scope, depth), "end"))
        return statement(f"{kind} (", selector.tree, ")\n", *items, "endcase")

    def case_of_enum(self, scope: Scope, variable: Variable, depth: int) -> Tree:
        labels = self.random.sample(variable.items, self.random.randint(1, len(variable.items)))
        items = [statement(f"{it}: begin\n", self.some(scope, depth), "end") for it in labels]
        return statement(f"case ({variable.name})\n", *items, "default: begin\n", self.some(scope, depth), "end\nendcase")

    def label(self, scope: Scope, kind: str, width: int) -> Tree:
        random = self.random
        if random.random() < 0.1:
            return self.expressions.not_computed(scope, 1, width).tree
        if random.random() < 0.15:
            width = max(width + random.choice([-1, 1, 2]), 1)
        if kind == "case":
            return self.expressions.sized(width, random.getrandbits(width)).tree
        wild = {"casez": "?z", "casex": "?xz"}[kind]
        digits = "".join(random.choice("01" * 2 + wild[:1] + random.choice(wild)) for _ in range(width))
        return expression(f"{width}'b{digits}")

    def reverse_case(self, scope: Scope, depth: int) -> Tree:
        """A case of a constant, with expressions as items."""
        items = [statement(self.expressions.not_computed(scope, 1, 1).tree, ": begin\n", self.some(scope, depth), "end")
                 for _ in range(self.random.randint(1, 3))]
        selector = self.random.choice(["1'b1", "1'b0", "1"])
        return statement(f"case ({selector})\n", *items, "default: begin\n", self.some(scope, depth), "end\nendcase")

    def loop(self, scope: Scope, depth: int) -> Tree:
        random = self.random
        variable = random.choice(scope.loop_variables)
        low, step = random.choice([0, 0, 0, 1, 2]), random.choice([1, 1, 1, 2])
        high = low + step * random.randint(1, 4)
        if not variable.has(high + step):
            high = low + step
        inside = replace(scope, counters=[*scope.counters, variable.between(low, high)],
                         loop_variables=[it for it in scope.loop_variables if it != variable])
        if variable.width == 32 and random.random() < 0.004:
            name = variable.name
            head = f"{name} = {low}; while ({name} <= {high}) begin {name} = {name} + 1;\n"
            inside.counters[-1] = variable.between(low + 1, high + 1)
            return statement(head, self.some(inside, min(depth, 2)), "end")
        head = self.head(variable, low, high, step)
        if inside.loop_variables and random.random() < 0.2:
            return self.with_second(inside, head, (high - low) // step + 1, depth)
        return statement(head, self.some(inside, min(depth, 2)), "end")

    def head(self, variable: LoopVariable, low: int, high: int, step: int) -> str:
        """The head of a loop. Where its numbers have no width, the width of a narrow variable must not matter inside."""
        random, name = self.random, variable.name
        is_exact = variable.type != "integer" and random.random() < 0.8
        first, last, by = (variable.literal(it) if is_exact else str(it) for it in (low, high, step))
        if variable.has(low - step) and random.random() < 0.25:
            return f"for ({name} = {last}; {name} >= {first}; {name} = {name} - {by}) begin\n"
        end = random.choice([f"< {high + 1}", f"<= {last}"])
        forms = [f"{name} = {name} + {by}"] * 3 + [f"{name} = {by} + {name}", f"{name} += {by}"] + [f"{name}++"] * (step == 1)
        return f"for ({name} = {first}; {name} {end}; {random.choice(forms)}) begin\n"

    def with_second(self, inside: Scope, head: str, times: int, depth: int) -> Tree:
        """A loop with a second variable that each round changes."""
        variable = inside.loop_variables.pop(0)
        second, low = variable.name, self.random.choice([0, 1])
        inside.counters.append(variable.between(low, low + times - 1))
        if self.random.random() < 0.5:
            before, after = f"{second} = {low};\n", f"{second} = {second} + 1;\n"
        else:
            before, after = f"{second} = {low + times - 1};\n", f"{second} = {second} - 1;\n"
        return statement(before, head, self.some(inside, min(depth, 2)), after, "end")

    def repeat(self, scope: Scope, depth: int) -> Tree:
        return statement(f"repeat ({self.random.randint(1, 4)}) begin\n", self.some(scope, min(depth, 2)), "end")

    def block(self, scope: Scope, depth: int) -> Tree:
        """A named block with a variable of its own, which gets a value first."""
        local, counts = self.names.variable("t", 16), loop_variable(self.random, self.names)
        first = text(local.name, " = ", self.expressions.value(scope, 2, max(local.width, 12)).tree, ";\n")
        inside = scope.with_more(variables=[local], targets=[Target(local, True)] * 2, loop_variables=[counts])
        after = self.random.choice([0, 1]) * [self.assignment(inside)]
        return statement(f"begin : {self.names.new('b')}\nreg {local.declared};\n{counts.declared}", first,
                         self.some(inside, depth), *after, "end")

    def call(self, scope: Scope, depth: int) -> Tree:
        task = self.random.choice(scope.tasks)
        wanted = sum(it.way != "input" for it in task.arguments)
        free = [it.variable for it in scope.targets if it.blocks and not it.variable.sizes and not it.variable.has_members]
        free = list(dict.fromkeys(free))
        if len(free) < wanted:
            return self.assignment(scope)
        outputs = self.random.sample(free, wanted)
        words = []
        for argument in task.arguments:
            if argument.way == "input":
                words.append(self.expressions.argument(scope, self.random.choice([0, 1, 2]), argument.variable.width))
            else:
                variable = outputs.pop()
                is_part = variable.width > 1 and self.random.random() < 0.2
                part = self.expressions.part(scope, variable, variable.width, variable.is_member, DOWNWARD)[0] if is_part else ""
                words.append(text(variable.name, part))
        return statement(task.name, "(", joined(words), ");") if words else statement(task.name, ";")

    # -- functions and tasks

    def routine(self, scope: Scope, is_task: bool, may_write: Sequence[Target] = (),
                is_static: bool = False) -> Tuple[Routine, Tree]:
        """A function or a task, which reads what the scope has, and its text. A task may write these registers."""
        random = self.random
        ways = random.choices(["input", "output", "inout"], [6, 5, 0.15], k=random.choice([1, 2, 2, 3])) if is_task \
            else ["input"] * random.choice([1, 2, 2, 3])
        arguments = [Argument(way, self.names.variable("a", 16)) for way in ways]
        name = self.names.new("t" if is_task else "f")
        shape = self.names.variable("r", 20)
        result = Variable(name, shape.width, shape.is_signed)
        local, counts = self.names.variable("v", 16), loop_variable(random, self.names)
        inputs = [it.variable for it in arguments if it.way != "output"]
        written = [it.variable for it in arguments if it.way != "input"] + [result] * (not is_task) + [local]
        inside = Scope([*scope.variables, *inputs], [], [], scope.functions, scope.tasks, [counts])
        lines = []
        for variable in written:
            tree, width = text(variable.name), variable.width
            lines.append(self.assigned(inside, tree, width, True))
            lines[-1].kind = tree.kind  # without a first value it would have an old one
            if variable is not result:  # Icarus Verilog fails where an index or a shift reads it
                inside.variables.append(variable)
        inside.targets += [Target(it, True) for it in written] + [*may_write] * 2
        if not is_task:
            inside.tasks, inside.result = [], name
        lines.append(self.body(inside, 2, random.choice([1, 1, 2])))
        locals_of = text(f"reg {local.declared};\n{counts.declared}")
        word = "task" if is_task else "function"
        automatic = "" if is_static else self.random.choice(["", "", "automatic "])
        head = f"{word} {automatic}{result.name if is_task else result.declared}"
        whole = self._written(head, arguments, [locals_of, "begin\n", *lines, f"end\nend{word}"])
        return Routine(name, arguments, result), whole

    def _written(self, head: str, arguments: Sequence[Argument], body: Sequence[Part]) -> Tree:
        """The text of a routine: its arguments are declared in its head, or after it."""
        if self.random.random() < 0.5 or not arguments:
            declared = [f"{it.way} {it.variable.declared};\n" for it in arguments]
            return item(head, ";\n", *declared, *body)
        declared = [f"{it.way} {it.variable.declared}" for it in arguments]
        return item(head, "(", ", ".join(declared), ");\n", *body)
