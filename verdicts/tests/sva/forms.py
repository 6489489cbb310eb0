"""Random sequences and properties: each as a form for the plain reading, and as text."""

from __future__ import annotations

import random
from typing import Optional, Tuple

from .expressions import random_expression

# ('e', text), or the name of an operator with its parts and ranges.
Form = Tuple


def written(least: int, most: Optional[int]) -> str:
    return f"{least}" if least == most else f"{least}:{'$' if most is None else most}"


class Maker:
    """Makes forms. Without `free`, each range has an end."""

    def __init__(self, rng: random.Random, has_past: bool, is_bound: bool):
        self.rng, self.has_past, self.is_bound = rng, has_past, is_bound

    def expression(self, is_plain: bool = False) -> Form:
        return "e", random_expression(self.rng, self.has_past and not is_plain, self.is_bound)

    def two_valued(self) -> Form:
        """An expression that can be false: `$past` is neither true nor false at first."""
        return self.expression(True)

    def range(self, low: int, free: bool) -> Tuple[int, Optional[int]]:
        least, chance = self.rng.randint(low, 2), self.rng.random()
        if chance < 0.45:
            return least, least
        return (least, least + self.rng.randint(0, 2)) if chance < 0.9 or not free else (least, None)

    # -- sequences

    def sequence(self, depth: int, free: bool) -> Tuple[Form, str]:
        """A sequence whose text can be a part of any other one."""
        if depth == 0 or self.rng.random() < 0.2:
            form = self.expression()
            return form, f"({form[1]})"
        kind = self.rng.choice([self._delay, self._delay, self._delay, self._wait, self._repeated, self._goto,
                                self._throughout, self._first, self._both, self._both])
        return kind(depth, free)

    def _delay(self, depth: int, free: bool) -> Tuple[Form, str]:
        (left, one), (right, other) = self.sequence(depth - 1, free), self.sequence(depth - 1, free)
        least, most = self.range(0, free)
        delay = f"##{least}" if least == most else f"##[{written(least, most)}]"
        return ("delay", left, least, most, right), f"({one} {delay} {other})"

    def _wait(self, depth: int, free: bool) -> Tuple[Form, str]:
        (right, other), (least, most) = self.sequence(depth - 1, free), self.range(0, free)
        delay = f"##{least}" if least == most else f"##[{written(least, most)}]"
        return ("wait", least, most, right), f"({delay} {other})"

    def _repeated(self, depth: int, free: bool) -> Tuple[Form, str]:
        (part, text), (least, most) = self.sequence(depth - 1, free), self.range(0, free)
        return ("repeat", part, least, most), f"({text}[*{written(least, most)}])"

    def _goto(self, _: int, free: bool) -> Tuple[Form, str]:
        form, (least, most), kind = self.two_valued(), self.range(1, free), self.rng.choice(["->", "="])
        if not free or form[1] in ("1", "1'b0"):
            return form, f"({form[1]})"
        return ("goto" if kind == "->" else "nonconsecutive", form, least, most), f"(({form[1]})[{kind}{written(least, most)}])"

    def _throughout(self, depth: int, free: bool) -> Tuple[Form, str]:
        form, (part, text) = self.expression(), self.sequence(depth - 1, free)
        return ("throughout", form, part), f"(({form[1]}) throughout {text})"

    def _first(self, depth: int, free: bool) -> Tuple[Form, str]:
        part, text = self.sequence(depth - 1, free)
        return ("first", part), f"first_match({text})"

    def _both(self, depth: int, free: bool) -> Tuple[Form, str]:
        kind = self.rng.choice(["or", "and", "intersect", "within"])
        (left, one), (right, other) = self.sequence(depth - 1, free), self.sequence(depth - 1, free)
        return (kind, left, right), f"({one} {kind} {other})"

    # -- properties

    def property(self, depth: int, free: bool) -> Tuple[Form, str]:
        if depth == 0 or self.rng.random() < 0.15:
            part, text = self.sequence(2, free)
            return ("sequence", part), text
        kinds = [self._implication] * 5 + [self._not, self._and_or, self._and_or, self._if, self._next, self._implies,
                                           self._followed]
        return self.rng.choice(kinds + [self._until, self._always] * free)(depth, free)

    def _implication(self, depth: int, free: bool) -> Tuple[Form, str]:
        (left, one), (right, other) = self.sequence(2, free), self.property(depth - 1, free)
        arrow = self.rng.choice(["|->", "|=>"])
        return ("implication", left, arrow == "|=>", right), f"({one} {arrow} {other})"

    def _not(self, depth: int, _: bool) -> Tuple[Form, str]:
        part, text = self.property(depth - 1, False)
        return ("not", part), f"(not {text})"

    def _and_or(self, depth: int, free: bool) -> Tuple[Form, str]:
        kind = self.rng.choice(["and", "or"])
        (left, one), (right, other) = self.property(depth - 1, free), self.property(depth - 1, free)
        return (f"p{kind}", left, right), f"({one} {kind} {other})"

    def _if(self, depth: int, free: bool) -> Tuple[Form, str]:
        form = self.two_valued()
        (left, one), (right, other) = self.property(depth - 1, free), self.property(depth - 1, free)
        return ("if", form, left, right), f"(if ({form[1]}) {one} else {other})"

    def _next(self, depth: int, free: bool) -> Tuple[Form, str]:
        count, (part, text) = self.rng.randint(0, 3), self.property(depth - 1, free)
        return ("next", count, part), f"(nexttime[{count}] {text})"

    def _implies(self, depth: int, free: bool) -> Tuple[Form, str]:
        kind = self.rng.choice(["iff", "implies"])
        left, one = self.property(depth - 1, False)
        right, other = self.property(depth - 1, free and kind == "implies")
        return (kind, left, right), f"({one} {kind} {other})"

    def _followed(self, depth: int, _: bool) -> Tuple[Form, str]:
        (left, one), (right, other) = self.sequence(2, False), self.property(depth - 1, False)
        sign = self.rng.choice(["#-#", "#=#"])
        return ("not", ("implication", left, sign == "#=#", ("not", right))), f"({one} {sign} {other})"

    def _until(self, depth: int, free: bool) -> Tuple[Form, str]:
        kind = self.rng.choice(["until", "until_with"])
        (left, one), (right, other) = self.property(depth - 1, free), self.property(depth - 1, free)
        return (kind, left, right), f"({one} {kind} {other})"

    def _always(self, depth: int, free: bool) -> Tuple[Form, str]:
        part, text = self.property(depth - 1, free)
        return ("always", part), f"(always {text})"
