"""Random expressions. None has an x: what is selected is in range, and no divisor is zero."""

from __future__ import annotations

from random import Random
from typing import List, Tuple

from .scope import Routine, Scope, Value, Variable
from .tree import Tree, expression, joined

# Up to this width Yosys takes little time for a division and for a product.
DIVISION, PRODUCT = 7, 9


class Expressions:
    """Each method gets the largest width that the expression may have: its own, or that of what is around it."""

    def __init__(self, random: Random):
        self.random = random

    def value(self, scope: Scope, depth: int, most: int) -> Value:
        if depth <= 0:
            return self.leaf(scope, most)
        forms = [self.leaf, self.unary, self.reduction, self.arithmetic, self.heavy, self.shift, self.comparison,
                 self.logical, self.choice, self.concatenation, self.replication, self.changed_sign, self.call,
                 self.isolated]
        weights = [3, 2, 1, 5, 0.8, 2, 2, 1, 2, 2, 0.7, 1.5, 2.5 if scope.functions else 0, 0.3]
        form, = self.random.choices(forms, weights)
        return form(scope, most) if depth == 0 or form == self.leaf else form(scope, most, depth - 1)

    def alone(self, scope: Scope, depth: int) -> Value:
        """An expression whose width nothing around it changes."""
        return self.value(scope, depth, self.random.choice([3, 6, 9, 10, 16, 32, 40]))

    # -- leaves

    def leaf(self, scope: Scope, most: int) -> Value:
        kind = self.random.random()
        counters = [it for it in scope.counters if it.width <= most]
        if kind < 0.12 and counters:
            counter = self.random.choice(counters)
            return Value(expression(counter.name), counter.width, counter.is_signed)
        if kind < 0.3 or not scope.variables:
            return self.literal(most)
        return self.read(scope, self.random.choice(scope.variables), most)

    def literal(self, most: int) -> Value:
        random = self.random
        if most >= 32 and random.random() < 0.4:
            return Value(expression(str(random.choice([0, 1, 2, 3, 5, 7, 100, 255]))), 32, True, True)
        width = random.randint(1, min(most, 40))
        return self.sized(width, random.getrandbits(width))

    def sized(self, width: int, number: int) -> Value:
        is_signed = self.random.random() < 0.35
        base, written = self.random.choice([("b", f"{number:b}"), ("h", f"{number:x}"), ("d", f"{number}"),
                                            ("o", f"{number:o}"), ("b", f"{number:0{width}b}")])
        if width > 5 and self.random.random() < 0.2 and base != "d":
            written = f"{written[:1]}_{written[1:]}"
        return Value(expression(f"{width}'{'s' if is_signed else ''}{base}{written}"), width, is_signed, True)

    def read(self, scope: Scope, variable: Variable, most: int) -> Value:
        """The variable, or a part of it."""
        random = self.random
        name = variable.name
        if variable.sizes:
            words: List = [name]
            for size in variable.sizes:
                words += ["[", self.index(scope, 0, size, False), "]"]
            if variable.width == 1 or variable.width <= most and random.random() < 0.8:
                return Value(expression(*words), variable.width, variable.is_signed)
            tree, width = self.part(scope, variable, most)
            return Value(expression(*words, tree), width)
        if variable.width <= most and (variable.width == 1 or random.random() < 0.65):
            return Value(expression(name), variable.width, variable.is_signed, variable.is_constant)
        if variable.is_constant:
            return self.literal(most)
        tree, width = self.part(scope, variable, most, variable.is_member)
        return Value(expression(name, tree), width)

    def part(self, scope: Scope, variable: Variable, most: int, is_fixed: bool = False,
             downward: float = 0.4) -> Tuple[Tree, int]:
        """The text after a name that selects a part, and the width of the part."""
        random = self.random
        most = min(most, variable.width)
        form = 0.35 + 0.35 * random.random() if is_fixed else random.random()
        if form < 0.35:
            return expression("[", self.index(scope, variable.low, variable.width), "]"), 1
        width = random.randint(1, most)
        if form < 0.7:
            low = random.randint(0, variable.width - width)
            return expression(variable.part(low + width - 1, low)), width
        places = variable.width - width + 1
        if random.random() >= downward:
            return expression("[", self.index(scope, variable.low, places), f" +: {width}]"), width
        return expression("[", self.index(scope, variable.low + width - 1, places), f" -: {width}]"), width

    def index(self, scope: Scope, low: int, count: int, may_be_signed: bool = True) -> Tree:
        """An expression with a value from `low` on, of so many values."""
        random = self.random
        fitting = [it for it in scope.counters if low <= it.low and it.high < low + count]
        if fitting and random.random() < 0.8:
            counter = random.choice(fitting)
            more = random.randint(0, low + count - 1 - counter.high)
            return expression(f"{counter.name} + {more}" if more and random.random() < 0.5 else counter.name)
        if random.random() < 0.25 or count == 1:
            return expression(str(low + random.randrange(count)))
        bits = count.bit_length() - 1
        wide = [it for it in scope.variables if it.width >= bits and not it.sizes and not it.is_constant]
        if wide and random.random() < 0.93:
            low += random.randint(0, count - (1 << bits))
            taken = self.slice(random.choice(wide), bits)
        else:
            bits += 2
            divided = self.value(scope, random.choice([0, 0, 0, 1]), min(bits, DIVISION))
            taken = expression("{{", divided.tree, f"}} % {bits}'d{count}}}")
        if low:
            taken = expression(f"{low} + ", taken)
        elif may_be_signed and random.random() < 0.1:
            taken = expression("$signed({1'b0, ", taken, "})")
        return taken

    def slice(self, variable: Variable, bits: int) -> Tree:
        """So many bits of a variable, without a sign."""
        if variable.width == bits and not variable.is_signed:
            return expression(variable.name)
        if variable.width == 1:
            return expression("{", variable.name, "}")
        start = self.random.randint(0, variable.width - bits)
        return expression(variable.name, variable.part(start + bits - 1, start))

    # -- operators

    def unary(self, scope: Scope, most: int, depth: int) -> Value:
        of = self.value(scope, depth, most)
        return of._replace(tree=expression("(", self.random.choice(["~", "~", "-", "-", "+"]), of.tree, ")"))

    def reduction(self, scope: Scope, most: int, depth: int) -> Value:
        of = self.alone(scope, depth)
        operator = self.random.choice(["&", "|", "^", "~&", "~|", "~^", "^~", "!", "!"])
        return Value(expression("(", operator, of.tree, ")"), 1, is_constant=of.is_constant)

    def both(self, scope: Scope, operator: str, most: int, depth: int) -> Value:
        one, other = self.value(scope, depth, most), self.value(scope, depth, most)
        return Value(expression("(", one.tree, f" {operator} ", other.tree, ")"), max(one.width, other.width),
                     one.is_signed and other.is_signed, one.is_constant and other.is_constant)

    def arithmetic(self, scope: Scope, most: int, depth: int) -> Value:
        operators = ["+", "+", "-", "-", "&", "|", "^", "~^", "^~"] + ["*"] * 2 * (most <= PRODUCT)
        return self.both(scope, self.random.choice(operators), most, depth)

    def heavy(self, scope: Scope, most: int, depth: int) -> Value:
        """A division, a remainder or a power."""
        random = self.random
        if most > DIVISION:
            if most >= 32 and random.random() < 0.03:
                of = self.value(scope, depth, most)
                tree = expression("(", of.tree, random.choice([" / ", " % "]), str(random.choice([3, 5, 10, 8])), ")")
                return of._replace(tree=tree, width=max(of.width, 32))
            return self.isolated(scope, most, depth)
        if random.random() < 0.25:
            return self.power(scope, most, depth)
        of, by = self.value(scope, depth, most), self.value(scope, depth, most)
        one = "2'sd1" if by.is_signed else "1'd1"
        if most < 2:
            return of
        width = max(of.width, by.width, 2 if by.is_signed else 1)
        tree = expression("(", of.tree, random.choice([" / ", " % "]), text_or(by.tree, one), ")")
        return Value(tree, width, of.is_signed and by.is_signed, of.is_constant and by.is_constant)

    def power(self, scope: Scope, most: int, depth: int) -> Value:
        random = self.random
        form = random.random()
        if form < 0.04:  # this is rejected
            base = self.sized(min(most, 3), 2) if most >= 3 else self.sized(most, 1)
            exponent = self.value(scope, min(depth, 1), 3)
        elif form < 0.08:  # and this
            base, exponent = self.value(scope, depth, most), self.value(scope, 0, 3)
        else:
            base, exponent = self.sized(most, random.getrandbits(most)), self.sized(3, random.randint(0, 3))
        return base._replace(tree=expression("(", base.tree, " ** ", exponent.tree, ")"),
                             is_signed=base.is_signed and exponent.is_signed,
                             is_constant=base.is_constant and exponent.is_constant)

    def shift(self, scope: Scope, most: int, depth: int) -> Value:
        of = self.value(scope, depth, most)
        by = self.value(scope, min(depth, 1), self.random.choice([2, 3, 4, 5]))
        operator = self.random.choice(["<<", ">>", ">>>", ">>>", "<<<"])
        return of._replace(tree=expression("(", of.tree, f" {operator} ", by.tree, ")"),
                           is_constant=of.is_constant and by.is_constant)

    def comparison(self, scope: Scope, most: int, depth: int) -> Value:
        operator = self.random.choice(["==", "!=", "===", "!==", "<", "<=", ">", ">="])
        both = self.both(scope, operator, self.random.choice([4, 9, 10, 16, 32, 40]), depth)
        return both._replace(width=1, is_signed=False)

    def logical(self, scope: Scope, most: int, depth: int) -> Value:
        one, other = self.alone(scope, depth), self.alone(scope, depth)
        tree = expression("(", one.tree, self.random.choice([" && ", " || "]), other.tree, ")")
        return Value(tree, 1, is_constant=one.is_constant and other.is_constant)

    def choice(self, scope: Scope, most: int, depth: int) -> Value:
        condition, both = self.alone(scope, depth), self.both(scope, ":", most, depth)
        return both._replace(tree=expression("(", condition.tree, " ? ", both.tree.parts[1], " : ",
                                             both.tree.parts[3], ")"), is_constant=False)

    def concatenation(self, scope: Scope, most: int, depth: int) -> Value:
        parts: List[Value] = []
        left = most
        while left > 0 and len(parts) < self.random.choice([1, 2, 2, 3, 4]):
            part = self.value(scope, depth, self.random.randint(1, min(left, 31)))  # numbers without width are wider
            parts.append(part)
            left -= part.width
        return Value(expression("{", joined([it.tree for it in parts]), "}"), most - left,
                     is_constant=all(it.is_constant for it in parts))

    def replication(self, scope: Scope, most: int, depth: int) -> Value:
        of = self.concatenation(scope, max(most // 2, 1), depth)
        times = self.random.randint(1, max(min(most // of.width, 5), 1))
        return of._replace(tree=expression("{", str(times), of.tree, "}"), width=times * of.width)

    def changed_sign(self, scope: Scope, most: int, depth: int) -> Value:
        of = self.value(scope, depth, most)
        name = self.random.choice(["$signed", "$signed", "$unsigned"])
        return of._replace(tree=expression(f"{name}(", of.tree, ")"), is_signed=name == "$signed")

    def isolated(self, scope: Scope, most: int, depth: int) -> Value:
        """A division in braces, which has its own width."""
        if most < 2:
            return self.reduction(scope, most, depth)
        of = self.heavy(scope, min(most, DIVISION), depth)
        return of._replace(tree=expression("{", of.tree, "}"), is_signed=False)

    def call(self, scope: Scope, most: int, depth: int) -> Value:
        functions = [it for it in scope.functions if it.result.width <= most]
        if not functions:
            return self.unary(scope, most, depth)
        function = self.random.choice(functions)
        return Value(self.called(scope, function, depth), function.result.width, function.result.is_signed)

    def called(self, scope: Scope, function: Routine, depth: int) -> Tree:
        values = [self.argument(scope, min(depth, 2), it.variable.width) for it in function.arguments]
        changing = [it for it in scope.variables if not it.is_constant]
        if changing and self.random.random() < 0.9:  # much of a function that gets constants alone is rejected
            at = self.random.randrange(len(values))
            values[at] = self.read(scope, self.random.choice(changing), 40).tree
        return expression(f"{function.name}(", joined(values), ")")

    def argument(self, scope: Scope, depth: int, width: int) -> Tree:
        """What a routine gets. It is seldom computed from constants, which is rejected."""
        most = max(width, self.random.choice([8, 10, 32]))
        return self.not_computed(scope, depth, most).tree

    def not_computed(self, scope: Scope, depth: int, most: int) -> Value:
        """An expression that is seldom computed from constants."""
        value = self.value(scope, depth, most)
        return self.value(scope, 0, most) if value.is_constant and depth and self.random.random() < 0.98 else value


def text_or(tree: Tree, one: str) -> Tree:
    """The value with its lowest bit set."""
    return expression("(", tree, f" | {one})")
