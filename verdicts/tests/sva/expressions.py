"""Random expressions of properties, and what Icarus Verilog says of each at each edge. `$past` and its like are registers
there that begin with the values before the first edge: x, or that of the declaration. None of it is the translator's."""

from __future__ import annotations

import random
import re
from dataclasses import dataclass, field
from typing import List

INPUTS = "input clk, a, b, c, d, r, input [1:0] v"
# The signals of a module: its declaration, the value before the first edge, and the next value.
OWN = {
    "q": ("reg q = 0;", "1'b0", "a"), "n": ("reg [2:0] n = 3'd5;", "3'd5", "n + v"),
    "k": ("reg k; initial k = 1;", "1'bx", "b ^ k"), "m": ("reg [1:0] m; initial m = 2;", "2'bx", "m + v"),
    "s": ("reg signed [2:0] s; initial s = -1;", "3'sbx", "s + v"),
}
WIRES = "wire w = a ^ b;"
FIRST = {**{name: "1'bx" for name in "abcdrw"}, "v": "2'bx", **{name: first for name, (_, first, _) in OWN.items()}}
WIDTHS = {**dict.fromkeys("abcdrw", ""), "v": "[1:0]", "q": "", "n": "[2:0]", "k": "", "m": "[1:0]", "s": "signed [2:0]"}
# The ports of a checker that is bound: all of its signals are nets.
CHECKER = "input clk, " + ", ".join(f"input {WIDTHS[name]} {name}" for name in WIDTHS)
_INNER = ["a", "b", "k", "w", "!a", "!q", "!k", "(a && k)", "q || b", "v[1]", "v == 2'd1", "v == 3'd6", "n == 3'd5", "q",
          "n[1]", "n[2]"]
_WIDE = ["v", "m", "n", "s"]
# A hole `{0}` has a call of the past of one bit, `{2}` of a vector, and `{3}` the same vector now.
_PASTS = [
    "{0}", "!{0}", "{0} && b", "!({0} || b)", "{0} || !{1}", "a ? {0} : {1}", "({0} ? !a : b == c)", "{0} === a", "{0} !== b",
    "{0} == {1}", "{0} != c", "({0} == d) || ({1} != d)", "{2} == {3}", "{2} != {3}", "{3} == {2} + 2'd1", "{2} < {3}",
    "{2} == v", "v == {2}", "!({2} - 1 > {3})", "&{2}", "!(|{2})", "-{2} == {3}", "{2}", "!{2}", "{0} && {1} || a",
]
_BEYOND = ["{4} == 3'd6", "{4} != 3'd6", "3'd5 == {4}", "!({4} == 3'd4)"]
_CHANGES = ["$rose(a)", "$fell(b)", "$rose(w)", "$rose(q)", "$fell(q)", "$stable(v)", "$changed(v)", "$stable(n)", "$changed(n)",
            "$rose(v == 2'd1)", "$fell(v == 3'd6)", "$stable(v == 3'd6)", "$rose(a) == b", "!$fell(a)", "$changed(a && !q)"]
_PLAIN = ["a", "b", "c", "d", "!a", "!b", "(a && !b)", "b || c", "!(a ^ c)", "(a ? b : !d)", "v > 1", "v", "k", "w", "n != 2", "1",
          "1'b0", "$onehot(v)", "$countones(v) == 2", "s < 0", "v + m"]


def random_expression(rng: random.Random, has_past: bool, is_bound: bool) -> str:
    """An expression. A checker that is bound has no changes: their first edge is not known there."""
    chance = rng.random()
    if not has_past or chance < 0.6:
        return rng.choice(_PLAIN) if is_bound or chance < 0.45 else rng.choice(_CHANGES)
    inner = _INNER if not is_bound else [it for it in _INNER if "q" not in it]

    def past(words: List[str]) -> str:
        steps = rng.choice([1, 1, 1, 2, 3])
        return f"$past({rng.choice(words)}{f', {steps}' if steps > 1 else ''})"

    wide = rng.choice(_WIDE[:3])
    steps = rng.choice(["", "", ", 2"])
    form = rng.choice(_PASTS) if chance < 0.9 else rng.choice(_BEYOND)
    return form.format(past(inner), past(inner), f"$past({wide}{steps})", wide, f"$past({rng.choice('vm')}{steps})")


@dataclass
class Truths:
    """A module that prints at each edge which expressions are true."""

    edge: str
    is_bound: bool
    texts: List[str] = field(default_factory=list)

    @property
    def name(self) -> str:
        return f"truth_{self.edge}_{int(self.is_bound)}"

    def take(self, text: str) -> None:
        if text not in self.texts:
            self.texts.append(text)

    def module(self) -> str:
        lines = [f"module {self.name}({INPUTS});", signals(self.edge)]
        for name, first in FIRST.items():
            value = f"{first.split(chr(39))[0]}'bx" if self.is_bound else first
            lines.append(f"localparam {WIDTHS[name]} first_{name} = {value};")
        for at, text in enumerate(self.texts):
            lines += self._expression(at, text)
        bits = ", ".join(f"t{at}" for at in range(len(self.texts))) or "1'b0"
        return "\n".join([*lines, f'task show; $display("{self.name} %b", {{{bits}}}); endtask', "endmodule", ""])

    def _expression(self, at: int, text: str) -> List[str]:
        """A bit that is 1 where an expression is true."""
        lines: List[str] = []

        def replaced(call: "re.Match[str]") -> str:
            name = f"h{at}_{len(lines)}"
            inner, _, steps = call[2].partition(", ")
            lines.append(self._history(name, inner, int(steps or 1)))
            return {"$past": f"{name}", "$rose": f"({name}_now === 1'b1 && {name} !== 1'b1)",
                    "$fell": f"({name}_now === 1'b0 && {name} !== 1'b0)", "$stable": f"({name}_now === {name})",
                    "$changed": f"({name}_now !== {name})"}[call[1]]

        plain = re.sub(r"(\$(?:past|rose|fell|stable|changed))\(((?:[^()]|\([^()]*\))*)\)", replaced, text)
        return [*lines, f"wire t{at} = ({plain}) ? 1'b1 : 1'b0;"]

    def _history(self, name: str, inner: str, steps: int) -> str:
        """The value of an expression so many edges ago, and now."""
        first = re.sub(r"(?<!')\b[a-z]\b", lambda it: f"first_{it[0]}", inner)
        kind = WIDTHS.get(inner, "")  # other ones are one bit
        names = [f"{name}_{k}" for k in range(steps)]
        starts = ", ".join(f"{it} = {first}" for it in names)
        moves = " ".join(f"{to} <= {of};" for to, of in zip(names, [inner, *names]))
        return (f"reg {kind} {starts}; always @({self.edge} clk) begin {moves} end "
                f"wire {kind} {name} = {names[-1]}; wire {kind} {name}_now = {inner};")


def signals(edge: str) -> str:
    """The declarations of the signals of a module, and what they do at an edge."""
    moves = " ".join(f"{name} <= {following};" for name, (_, _, following) in OWN.items())
    return " ".join([*(it[0] for it in OWN.values()), WIRES, f"always @({edge} clk) begin {moves} end"])
