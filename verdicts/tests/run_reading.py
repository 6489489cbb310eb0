#!/usr/bin/env python3
"""What aig-verdicts rejects or changes of a source before Yosys makes a circuit of it, on small trees and texts, without
Yosys: loops that Yosys counts in another way (`loops`), places where their variables have another value (`places`),
comparisons that are wider than a bit (`comparisons`), parts of signed variables in functions that get constants
(`signed_parts`), and assignments that newer versions lose (`lost`); and the gates that it leaves of a circuit
(`hashes`). run_probes.py compares circuits with a simulator."""

import random
import re

import paths  # noqa: F401
from aig_verdicts.reading import comparisons, findings, hashed, registers
from aig_verdicts.reading.misread import counted, evaluated, loops, overridden
from aig_verdicts.reading.text import rtlil, tree
from aig_verdicts.reading.misread.scope import Scope
from aig.tools import ToolFailed
from library import runs


def node(kind, *parts, name="", signed=False, input=False, place="?"):
    return tree.Node(kind, place, name, "", signed, input, False, "?", list(parts))


def number(text):
    """A number as Verilog has it: `5`, `3'd5` or `3'sd5`."""
    width, sign, value = re.fullmatch(r"(?:(\d+)'(s?)d)?(\d+)", text).groups()
    bits = format(int(value), f"0{width or 32}b")
    return tree.Node("CONSTANT", "?", "", bits, not width or sign == "s", False, False, "?")


def named(name, *ranges):
    return node("IDENTIFIER", *ranges, name=name)


def of_range(high, low):
    return node("RANGE", number(str(high)), number(str(low)))


def variable(name, width, signed=False, **more):
    return node("WIRE", *[of_range(width - 1, 0)] * (width > 1), name=name, signed=signed, **more)


# The width and the sign of k, its first value, the condition and the step, and whether Yosys surely has the rounds of the
# standard.
LOOPS = (
    (32, True, "0", "LT 8", "ADD 1", True), (3, False, "0", "LT 7", "ADD 1", True), (3, False, "0", "LT 8", "ADD 1", False),
    (3, False, "4'd9", "LT 5", "ADD 3'd1", False), (3, False, "4'd6", "GT 2", "ADD 4'd2", False),
    (3, False, "3'd6", "GT 2", "ADD 3'd2", True), (32, True, "3'd5", "LT 8", "ADD 1", False),
    (32, True, "3'd3", "LT 8", "ADD 1", True), (4, False, "4'sd5", "LT 9", "ADD 4'sd1", False),
    (4, False, "4'sd1", "LT 7", "ADD 4'sd1", True), (4, False, "5", "LT 9", "SUB 1", False),
    (4, True, "5", "GE 0", "SUB 1", True), (4, False, "5", "GE 0", "SUB 1", False), (4, True, "5", "GE 4'd1", "SUB 1", True),
    (4, True, "5", "GE 4'd0", "SUB 1", False), (4, True, "1", "LE 8", "ADD 1", False), (4, False, "1", "LE 8", "MUL 2", False),
    (5, False, "1", "LE 8", "SHIFT_LEFT 1", True), (3, False, "0", "LT n", "ADD 1", True), (3, False, "0", "LT n", "ADD 2", False),
    (3, False, "0", "NE n", "ADD 1", False), (3, False, "0", "LT p", "ADD 1", False),
)


def counts(_, tally, __):
    for width, signed, first, condition, step, is_right in LOOPS:
        def side(text):
            kind, other = text.split()
            return node(kind, named("k"), named(other) if other.isalpha() else number(other))

        head = [node("ASSIGN_EQ", named("k"), it) for it in (number(first), side(step))]
        loop = node("FOR", head[0], side(condition), head[1], node("BLOCK"), place="a.v:3.1-3.9")
        k, n, p = variable("k", width, signed), variable("n", 4), variable("p", 4, True)
        scope = Scope(node("MODULE", k, n, p, node("ALWAYS", loop), name="m"))
        found = list(counted.other_values([scope]))
        tally.compare(f"{width} {signed} {first} {condition} {step}", found, [] if is_right else ["a.v:3"])


def k_and(kind, *others):
    return node(kind, named("k"), *[number(it) if it[0].isdigit() else named(it) for it in others])


def written(width, value):
    return node("ASSIGN_EQ", named(f"y{width}"), value)


def in_braces(value):
    return written(40, node("CONCAT", value))


def as_index(value):
    return written(40, named("u", node("RANGE", value)))


def chosen(selector):
    return node("CASE", named(selector), node("COND", named("k"), node("BLOCK")))


def s_and_d(value):
    return node("ADD", node("ADD", value, named("s")), named("d"))


# The width and the sign of k, the head of its loop as above, a statement of the body, and whether Yosys and Icarus Verilog
# have one value in it. s, d and n have signs and 8, 32 and 4 bits; u has none and 8. The variable j of another loop, of 3
# bits, has none as well.
UP, DOWN = ("LT 6", "ADD 1"), ("GE 0", "SUB 1")
PLACES = (
    ("u[k + 2], byte", 8, True, "0", *UP, as_index(k_and("ADD", "2")), True),
    ("u[k + 2], byte", 8, True, "5", *DOWN, as_index(k_and("ADD", "2")), True),
    ("u[~k], reg [2:0]", 3, False, "0", *UP, as_index(k_and("BIT_NOT")), False),
    ("u[k >> 1], reg [31:0]", 32, False, "0", *UP, as_index(k_and("SHIFT_RIGHT", "1")), True),
    ("{k}, reg [2:0]", 3, False, "0", *UP, in_braces(named("k")), False),
    ("{k}, reg [2:0], exact", 3, False, "3'd0", "LT 6", "ADD 3'd1", in_braces(named("k")), True),
    ("{k + s + d}, reg [2:0]", 3, False, "0", *UP, in_braces(s_and_d(named("k"))), False),
    ("{k + s + d}, reg [2:0], exact first", 3, False, "3'd0", *UP, in_braces(s_and_d(named("k"))), True),
    ("{k + j + s + d}, reg [2:0]", 3, False, "0", *UP, in_braces(s_and_d(k_and("ADD", "j"))), False),
    ("{k + s}, integer, unsigned step", 32, True, "0", "LT 6", "ADD 1'd1", in_braces(k_and("ADD", "s")), False),
    ("y4 = k + n, reg [2:0]", 3, False, "0", *UP, written(4, k_and("ADD", "n")), True),
    ("y8 = k + n, reg [2:0]", 3, False, "0", *UP, written(8, k_and("ADD", "n")), False),
    ("y8 = k + n, reg [2:0], exact first", 3, False, "3'd0", *UP, written(8, k_and("ADD", "n")), True),
    ("y40 = k ^ 1, reg [31:0]", 32, False, "0", *UP, written(40, k_and("BIT_XOR", "1")), True),
    ("y8 = k + u, signed [3:0], from 2 to 0", 4, True, "2", "GE 0", "SUB 1", written(8, k_and("ADD", "u")), True),
    ("y8 = k + u, signed [3:0], below zero", 4, True, "2", "GT -3", "SUB 1", written(8, k_and("ADD", "u")), False),
    ("y8 = k + s, signed [3:0], below zero", 4, True, "2", "GT -3", "SUB 1", written(8, k_and("ADD", "s")), True),
    ("y16 = (k - u) >> 1, reg [2:0]", 3, False, "0", *UP, written(16, node("SHIFT_RIGHT", k_and("SUB", "u"), number("1"))), False),
    ("k > s, reg [2:0]", 3, False, "1", *UP, written(1, k_and("GT", "s")), False),
    ("k > u, reg [2:0]", 3, False, "1", *UP, written(1, k_and("GT", "u")), True),
    ("k - 3 >= 0, reg [2:0]", 3, False, "1", *UP, written(1, node("GE", k_and("SUB", "3"), number("0"))), False),
    ("k + 1 >= 3, reg [2:0]", 3, False, "1", *UP, written(1, node("GE", k_and("ADD", "1"), number("3"))), True),
    ("case (n) k, reg [7:0]", 8, False, "8", "LT 10", "ADD 1", chosen("n"), False),
    ("case (u) k, reg [7:0]", 8, False, "8", "LT 10", "ADD 1", chosen("u"), True),
)


def loop_of(first, condition, step, inside):
    def side(text):
        kind, other = text.split()
        return node(kind, named("k"), node("NEG", number(other[1:])) if other[0] == "-" else number(other))

    head = [node("ASSIGN_EQ", named("k"), it) for it in (number(first), side(step))]
    return node("FOR", head[0], side(condition), head[1], node("BLOCK", *inside))


def places(_, tally, __):
    """Each expression has a line of its own."""
    others = [variable("s", 8, True), variable("d", 32, True), variable("n", 4, True), variable("u", 8), variable("j", 3),
              *[variable(f"y{it}", it) for it in (1, 4, 8, 16, 40)]]
    of_j = loop_of("0", "LT 6", "ADD 1", [])
    of_j.parts[0].parts[0] = named("j")
    for text, width, signed, first, condition, step, inside, is_right in PLACES:
        for it in inside.all():
            it.place = "a.v:3.1-3.9"
        loop = loop_of(first, condition, step, [inside])
        scope = Scope(node("MODULE", variable("k", width, signed), *others, node("ALWAYS", loop, of_j), name="m"))
        tally.compare(text, sorted({*loops.odd_counters(scope)}), [] if is_right else ["a.v:3"])


def comparison(kind, width, value):
    return ["  cell " + kind + " $1", "    parameter \\A_SIGNED 1", f"    parameter \\Y_WIDTH {width}", "    connect \\A \\s",
            f"    connect \\Y {value}", "  end"]


def narrowed(lines):
    design = rtlil.read("\n".join(["module \\m", "  wire width 4 \\y", *lines, "end", ""]))
    for module in design.modules:
        comparisons.narrow(module)
    return design.text().split("\n")


def narrow(_, tally, __):
    for kind in ("$lt", "$le", "$ge", "$gt"):
        made = narrowed(comparison(kind, 4, "\\y"))
        tally.check(f"{kind}: the wire comes first", "  wire width 1 $compared$0" in made[:made.index(f"  cell {kind} $1")])
        tally.check(f"{kind}: one bit", "    parameter \\Y_WIDTH 1" in made and "    connect \\Y $compared$0" in made)
        tally.check(f"{kind}: zeros above it", "  connect \\y { 3'000 $compared$0 }" in made)
    for kind, width in (("$ge", 1), ("$add", 4)):
        lines = comparison(kind, width, "\\y")
        tally.check(f"{kind} of {width}", set(lines) <= set(narrowed(lines)))


# What a function gives back that has a part of a signed variable v, and whether its sign matters.
def _part(high, low):
    return named("v", of_range(high, low))


PARTS_OF_SIGNED = (
    ("v[1:0] + 1", node("ADD", _part(1, 0), number("1")), True), ("v[1:0] + w", node("ADD", _part(1, 0), named("w")), False),
    ("v[1:0] + u", node("ADD", _part(1, 0), named("u")), True), ("v[1:0] + 3'd1", node("ADD", _part(1, 0), number("3'd1")), False),
    ("v[1:0] ** u + w", node("ADD", node("POW", _part(1, 0), named("u")), named("w")), True),
    ("v[1:0] + v[2:1]", node("ADD", _part(1, 0), _part(2, 1)), True), ("v[1:0] > w", node("GT", _part(1, 0), named("w")), False),
    ("v[1:0] > 2", node("GT", _part(1, 0), number("2")), True), ("v[1:0] + u[1:0]", node("ADD", _part(1, 0), named("u", of_range(1, 0))), True),
)


def signed_parts(_, tally, __):
    for text, value, matters in PARTS_OF_SIGNED:
        inputs = [variable("v", 4, True, input=True), variable("u", 5, True, input=True), variable("w", 5, input=True)]
        written = node("ASSIGN_EQ", named("f"), value)
        function = node("FUNCTION", variable("f", 6), *inputs, node("BLOCK", written), name="f")
        call = node("FCALL", *[number("1")] * 3, name="f", place="a.v:7.1-7.9")
        scope = Scope(node("MODULE", function, node("ASSIGN", named("x"), call), name="m"))
        tally.compare(text, list(evaluated.signed_parts(scope)), ["a.v:7"] if matters else [])


def named_registers(_, tally, __):
    """What each register of `$past` and of an assertion is called, and lines of seven digits in names alone."""
    wires = {"q": [2, 3], "$past$sources/x.v:9$1$0": [4, 5], "$past$sources/x.v:10$2$0": [6, 7],
             "$past$sources/x.v:10$2$1": [8, 9], "$past$sources/x.v:10$3$0": [10], "$flatten\\u.$past$sources/x.v:2$4$0": [11],
             "$formal$sources/x.v:9$5_CHECK": [12], "$formal$sources/x.v:9$5_EN": [13]}
    cells = {"lab": {"connections": {"A": [12], "EN": [13]}}}
    flat = {"m": {"netnames": {wire: {"bits": bits} for wire, bits in wires.items()}, "cells": cells}}
    tally.compare("registers: names", registers.registers(flat, {"lab": "3"}), {
        "$past$sources/x.v:9$1$0": "past_1", "$past$sources/x.v:10$2$0": "past_2", "$past$sources/x.v:10$2$1": "past_2_2",
        "$past$sources/x.v:10$3$0": "past_3", "u.$past$sources/x.v:2$4$0": "u.past_1",
        "$formal$sources/x.v:9$5_CHECK": "value_3", "$formal$sources/x.v:9$5_EN": "when_3"})
    for line, wanted in (("  cell $add $add$sources/x.v:9$2", "  cell $add $add$sources/x.v:0000009$2"),
                         ("    assign $0$past$sources/x.v:12$1$0[0:0]$9 \\q", "    assign $0$past$sources/x.v:0000012$1$0[0:0]$9 \\q"),
                         ('  attribute \\src "sources/x.v:9.1-9.4"', '  attribute \\src "sources/x.v:9.1-9.4"'),
                         ("    connect \\A \\sources/x.v:9$2", "    connect \\A \\sources/x.v:9$2")):
        tally.compare(f"registers: {line}", registers.with_even_lines(line), wanted)


INPUTS, GATES, CIRCUITS = 4, 24, 400


def _circuit(dice):
    """Gates over a few inputs, many of which are twice there, constant or simpler than they look."""
    literals, gates = [0, *(2 * k for k in range(1, INPUTS + 1))], []
    for k in range(GATES):
        one, other = (dice.choice(literals[-9:] if dice.random() < 0.7 else literals) ^ dice.randrange(2) for _ in range(2))
        gates.append((2 * (INPUTS + 1 + k), one, other))
        literals.append(gates[-1][0])
    return gates


def _values(gates):
    """The value of each positive literal, as a number with a bit for each value of the inputs."""
    rows, every = range(1 << INPUTS), (1 << (1 << INPUTS)) - 1
    values = {0: 0, **{2 * k: sum((it >> (k - 1) & 1) << it for it in rows) for k in range(1, INPUTS + 1)}}
    for literal, one, other in gates:
        values[literal] = _value(values, one, every) & _value(values, other, every)
    return lambda literal: _value(values, literal, every)


def _value(values, literal, every):
    return values[literal & ~1] ^ (every if literal & 1 else 0)


def hashes(_, tally, __):
    """Gates keep their values for each value of the inputs, come after what they read, and none is twice there."""
    dice, smaller = random.Random(1), 0
    for k in range(CIRCUITS):
        gates = _circuit(dice)
        made, value = hashed.Hashed(gates), _values(gates)
        roots = [it[0] ^ dice.randrange(2) for it in dice.sample(gates, 5)]
        left = made.gates(made.read_by(roots, {}))
        known, of_left = {0, *(2 * it for it in range(1, INPUTS + 1))}, _values(left)
        for literal, one, other in left:
            tally.check(f"hashed: {k}: order", {one & ~1, other & ~1} <= known)
            known.add(literal)
        tally.compare(f"hashed: {k}: values", [of_left(made.literal(it)) for it in roots], [value(it) for it in roots])
        tally.compare(f"hashed: {k}: none twice", len({it[1:] for it in left}), len(left))
        needed = {made.literal(it) & ~1 for it in roots} | {it & ~1 for gate in left for it in gate[1:]}
        tally.check(f"hashed: {k}: none unread", all(it[0] in needed for it in left))
        tally.check(f"hashed: {k}: none is constant", all(of_left(it[0]) != 0 or one != other ^ 1 for it in left for one, other in [it[1:]]))
        smaller += len(left) < len(gates) // 2
    tally.check("hashed: most become much smaller", smaller > CIRCUITS * 3 // 4, smaller)
    for gates, root, wanted in RULES:
        made = hashed.Hashed(gates)
        tally.compare(f"hashed: {gates}", (made.literal(root), made.gates(made.read_by([root], {}))), wanted)
    made = hashed.Hashed([(20, 2, 4), (22, 6, 8), (24, 10, 12)])
    for root, wanted in ((20, {20, 2, 4, 22, 6, 8}), (23, {22, 6, 8, 4}), (10, {10, 20, 2, 4, 22, 6, 8}), (12, {12}), (0, {0})):
        tally.compare(f"hashed: {root} through latches", made.read_by([root], {2: 23, 6: 5, 10: 21, 12: 13}), wanted)


# Gates over the inputs 2, 4 and 6; a literal; what it becomes, and the gates that it needs.
RULES = (
    ([(8, 2, 0)], 8, (0, [])), ([(8, 1, 2)], 9, (3, [])), ([(8, 2, 2)], 8, (2, [])), ([(8, 3, 2)], 9, (1, [])),
    ([(8, 4, 2), (10, 2, 4)], 11, (9, [(8, 2, 4)])), ([(8, 2, 4), (10, 8, 3)], 10, (0, [])), ([(8, 2, 4), (10, 4, 8)], 10, (8, [(8, 2, 4)])),
    ([(8, 2, 4), (10, 9, 3)], 10, (3, [])), ([(8, 2, 4), (10, 9, 2)], 10, (10, [(10, 2, 5)])),
    ([(8, 2, 4), (10, 3, 6), (12, 8, 10)], 12, (0, [])), ([(8, 2, 4), (10, 3, 6), (12, 8, 11)], 12, (8, [(8, 2, 4)])),
    ([(8, 2, 4), (10, 2, 5), (12, 9, 11)], 12, (3, [])), ([(8, 2, 4), (10, 3, 5), (12, 9, 11)], 12, (12, [(8, 2, 4), (10, 3, 5), (12, 9, 11)])),
)


def late(name, *index, line=1):
    """`name[index] <= 0`."""
    found = [node("RANGE", *[named(it) if isinstance(it, str) else it for it in index])] if index else []
    return node("ASSIGN_LE", named(name, *found), number("0"), place=f"a.v:{line}.1-2")


def bits(name, *index, **more):
    return late(name, *[number(str(it)) for it in index], **more)


def inside(*statements):
    """`if (e) begin .. end`."""
    return node("CASE", named("e"), node("COND", number("1"), node("BLOCK", *statements)))


def each_k(*statements):
    first, step = (node("ASSIGN_EQ", named("k"), it) for it in (number("0"), k_and("ADD", "1")))
    return node("FOR", first, k_and("LT", "6"), step, node("BLOCK", *statements))


def call(name):
    return node("TCALL", name=name)


# Statements of a branch. What Yosys 0.66 loses is in line 2.
LOST = (
    ("after an if", [inside(late("q")), late("q", line=2)]),
    ("after an if in an if", [inside(inside(late("q"))), late("q", line=2)]),
    ("before an if", [late("q"), inside(late("q"))]),
    ("after and before", [late("q"), inside(late("q")), bits("q", 0)]),
    ("after, and other bits before", [bits("q", 7, 4), inside(late("q")), bits("q", 3, 0, line=2)]),
    ("after, and a bit before", [bits("q", 1), inside(late("q")), bits("q", 3, 0)]),
    ("after, and an unknown bit before", [late("q", "n"), inside(late("q")), bits("q", 3, line=2)]),
    ("another variable", [inside(late("r")), late("q")]),
    ("other bits", [inside(bits("q", 7, 4)), bits("q", 3, 0)]),
    ("a bit of both", [inside(bits("q", 7, 3)), bits("q", 3, 0, line=2)]),
    ("the other order of bits", [inside(bits("q", 3, 7)), bits("q", 4, line=2)]),
    ("a member", [inside(late("q")), late("q.a", line=2)]),
    ("all members", [inside(late("q.a")), late("q", line=2)]),
    ("a member of what was written", [late("q"), inside(late("q")), late("q.a")]),
    ("all of what was written in a member", [late("q.a"), inside(late("q")), late("q")]),
    ("another member", [inside(late("q.b")), late("q.a")]),
    ("a longer name", [inside(late("q")), late("qa")]),
    ("a longer member", [inside(late("q.a")), late("q.ab")]),
    ("in a block", [node("BLOCK", inside(late("q"))), node("BLOCK", late("q", line=2))]),
    ("in braces", [inside(late("q")), node("ASSIGN_LE", node("CONCAT", named("r"), named("q")), place="a.v:2.1-2")]),
    ("an index that changes", [inside(late("q")), late("q", "n")]),
    ("after an index that changes", [inside(late("q", "n")), late("q")]),
    ("a range of a parameter", [inside(late("q", "P")), bits("q", 0, line=2)]),
    ("at once", [inside(node("ASSIGN_EQ", named("q"))), late("q")]),
    ("in each round", [each_k(late("q", "k"), inside(late("q", "k")))]),
    ("in each round, after", [each_k(inside(late("q", "k")), late("q", "k", line=2))]),
    ("in the next round", [each_k(late("q", k_and("ADD", "1"), line=2), inside(late("q", "k")))]),
    ("in a task", [call("only"), late("q", line=2)]),
    ("in a task of an if", [inside(call("only")), late("q", line=2)]),
    ("a task", [inside(late("q")), call("late")]),
    ("a task of its own", [call("itself")]),
)


def lost(_, tally, __):
    """Assignments that newer versions of Yosys lose, inside of an `if` and, where none is lost, outside of it."""
    tasks = [node("TASK", inside(late("q")), name="only"), node("TASK", late("q", line=2), name="late"),
             node("TASK", call("itself"), name="itself")]
    for name, statements in LOST:
        wanted = ["a.v:2"] if any(it.line == "a.v:2" for each in [*statements, *tasks[1:2] * (name == "a task")]
                                  for it in each.all()) else []
        for outside, where in (([], "outside"), (wanted, "inside")):
            block = node("BLOCK", *([inside(*statements)] if where == "inside" else statements))
            own = [variable("q", 8), variable("n", 3), node("PARAMETER", number("7"), name="P")]
            scope = Scope(node("MODULE", *own, *tasks, node("ALWAYS", block), name="m"))
            tally.compare(f"lost: {name}, {where}", list(overridden.lost(scope)), outside)
    deep = node("TASK", inside(inside(late("q")), late("q", line=2)), name="deep")
    tally.compare("lost: in a task of its own", list(overridden.lost(Scope(node("MODULE", deep, name="m")))), ["a.v:2"])
    for version, is_lost in (("0.23", False), ("0.52", False), ("0.52+57", False), ("0.53", True), ("0.66", True),
                             ("1.0", True), ("?", True)):
        tally.compare(f"lost: Yosys {version}", _said_by(version)[:17], "a.v:2: inside of " if is_lost else "")


class _Read:
    """What a version of Yosys read."""

    TEXTS = {"tree": """    AST_MODULE <sources/a.v:1.1-9.10> str='\\m'
      AST_BLOCK <sources/a.v:1.1-2>
        AST_ALWAYS <sources/a.v:1.1-2>
          AST_CASE <sources/a.v:1.1-2>
            AST_COND <sources/a.v:1.1-2>
              AST_CASE <sources/a.v:1.1-2>
                AST_COND <sources/a.v:1.1-2>
                  AST_ASSIGN_LE <sources/a.v:1.1-2>
                    AST_IDENTIFIER <sources/a.v:1.1-2> str='\\q'
              AST_ASSIGN_LE <sources/a.v:2.1-2>
                AST_IDENTIFIER <sources/a.v:2.1-2> str='\\q'""", "read.il": "module \\m\nend\n"}

    def __init__(self, version):
        self._version = version

    def text(self, name):
        return self.TEXTS[name]

    def version(self):
        return f"yosys Yosys {self._version} (git sha1 0)"


def _said_by(version):
    try:
        findings.look_at_sources(_Read(version))
    except ToolFailed as failed:
        return str(failed)
    return ""


PARTS = {"lost": lost, "hashes": hashes,
         "registers": named_registers, "loops": counts, "places": places, "comparisons": narrow, "signed_parts": signed_parts}

if __name__ == "__main__":
    runs.main(__doc__, PARTS)
