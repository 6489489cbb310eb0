"""What the nodes of expressions mean that are more than an operator of operators.py: one function each, with its clause
of IEEE 1800-2017. An x is any value, and so is a division by zero."""

from __future__ import annotations

from typing import Dict

from . import sampled
from .values import Expression, Meaning
from .names import Run
from .operators import BINARY, DIVISIONS, EQUALS, UNARY
from .parts import part
from ..dumps.tree import Node, number

# The largest constant exponent.
_LARGEST_POWER = 1 << 8


def _binary(tag: str) -> Expression:
    make = BINARY[tag]
    return lambda m, node, run: make(m.words, *m.words_of(node.children[:2], run))


def _unary(tag: str) -> Expression:
    make = UNARY[tag]
    return lambda m, node, run: make(m.words, m.word(node.children[0], run))


def _is_signed(m: Meaning, node: Node) -> bool:
    return number(node.name).signed if node.tag == "const" else m.tree.shape(node).signed


def _unsigned_comparison(tag: str) -> Expression:
    """11.4.4: an order of two signed values is a signed one. Where Verilator writes the other one, its types are wrong:
    5.006 to 5.048 do that for `inside` in a concatenation."""
    make = _binary(tag)

    def compare(m: Meaning, node: Node, run: Run) -> int:
        if all(_is_signed(m, it) for it in node.children):
            raise node.error("signed values that Verilator compares as unsigned ones")
        return make(m, node, run)
    return compare


def constant(m: Meaning, node: Node, run: Run) -> int:
    """5.7: a constant. Its bits x and z are open."""
    w = m.words
    if node.name in ("'0", "'1"):  # Verilator writes supply0 and supply1 so
        return w.const(-int(node.name[1]), m.tree.shape(node).width)
    bits = number(node.name).bits
    if not set(bits) - set("01"):
        return w.const(int(bits[::-1], 2), len(bits))
    unknown = m.free(len(bits), node)
    return w.joined([w.const(int(b), 1) if b in "01" else w.slice(unknown, k, k) for k, b in enumerate(bits)])


def matches(m: Meaning, subject: int, bits: str, wild: str) -> int:
    """11.4.5: whether a word is equal to a constant, apart from the bits of it that are in `wild`. Nothing is equal to
    an x."""
    w = m.words
    if any(b not in "01" and b not in wild for b in bits):
        return w.zero
    kept = [k for k, b in enumerate(bits) if b in "01"]
    if not kept:
        return w.one
    asked = w.joined([w.const(int(bits[k]), 1) for k in kept])
    return w.op("eq", w.joined([w.slice(subject, k, k) for k in kept]), asked)


def case_equality(m: Meaning, node: Node, run: Run) -> int:
    """11.4.5 and 11.4.6: a constant may have x and z, which are wild for ==? and !=?."""
    (left, right), is_wild = node.children, node.tag in ("eqwild", "neqwild")
    if left.tag == "const" and right.tag != "const" and not is_wild:
        left, right = right, left
    if right.tag == "const":
        made = matches(m, m.word(left, run), number(right.name).bits, "xz" if is_wild else "")
    else:
        made = m.words.op("eq", m.word(left, run), m.word(right, run))
    return m.words.invert(made) if EQUALS[node.tag] else made


def division(m: Meaning, node: Node, run: Run) -> int:
    """11.4.3: a division by zero, and its remainder, are x."""
    w, (a, b) = m.words, m.words_of(node.children, run)
    if w.value(b) == 0:
        return m.free(w.width[a], node)
    made = w.op(DIVISIONS[node.tag], a, b)
    return made if w.value(b) is not None else w.ite(w.any(b), made, m.free(w.width[a], node))


def power(m: Meaning, node: Node, run: Run) -> int:
    """11.4.3: the exponent is a constant, or the base is the constant 2."""
    w, (base, exponent) = m.words, m.words_of(node.children, run)
    width, by = m.tree.shape(node).width, w.value(exponent)
    if by is not None and by < _LARGEST_POWER:
        made = w.const(1, width)
        for _ in range(by):
            made = w.op("mul", made, w.uext(base, width))
        return made
    if w.value(base) == 2 and node.tag in ("pow", "powsu"):
        return BINARY["shiftl"](w, w.const(1, width), exponent)
    raise node.error("a power of variables")


def zero_extension(m: Meaning, node: Node, run: Run) -> int:
    """11.6.1: a wider value without a sign."""
    return m.words.uext(m.word(node.children[0], run), m.tree.shape(node).width)


def sign_extension(m: Meaning, node: Node, run: Run) -> int:
    """11.6.1 and 11.8.3: a wider value with a sign."""
    return m.words.sext(m.word(node.children[0], run), m.tree.shape(node).width)


def repetition(m: Meaning, node: Node, run: Run) -> int:
    """11.4.12.1: copies side by side."""
    return m.words.repeat(m.word(node.children[0], run), m.known(node.children[1], run))


def reversed_stream(m: Meaning, node: Node, run: Run) -> int:
    """11.4.14.2: slices in the opposite order; the last one may be shorter."""
    w, x, size = m.words, m.word(node.children[0], run), m.known(node.children[1], run)
    pieces = [w.slice(x, min(k + size, w.width[x]) - 1, k) for k in range(0, w.width[x], size)]
    return w.joined(pieces[::-1])


def ones(m: Meaning, node: Node, run: Run) -> int:
    """20.9: how many bits are 1."""
    w, x, width = m.words, m.word(node.children[0], run), m.tree.shape(node).width
    total = w.const(0, width)
    for k in range(w.width[x]):
        total = w.op("add", total, w.uext(w.slice(x, k, k), width))
    return total


def logarithm(m: Meaning, node: Node, run: Run) -> int:
    """20.8.1: how many bits number so many things."""
    w, x, width = m.words, m.word(node.children[0], run), m.tree.shape(node).width
    less = w.op("sub", x, w.const(1, w.width[x]))
    made = w.const(0, width)
    for k in range(w.width[x]):
        made = w.ite(w.slice(less, k, k), w.const(k + 1, width), made)
    return w.ite(w.any(x), made, w.const(0, width))


def unknown_or_first(m: Meaning, node: Node, run: Run) -> int:
    """20.9: no value is unknown. Of a constant, the call is the `$initstate` of changes.py."""
    if node.children[0].tag == "const":
        return m.first.leaves[0]
    return UNARY["isunknown"](m.words, m.word(node.children[0], run))


def call(m: Meaning, node: Node, run: Run) -> int:
    """13.4: the value of a function."""
    return m.call(node, run)


def unset(m: Meaning, node: Node, run: Run) -> int:
    """6.8: what an automatic variable begins with."""
    shape = m.tree.shape(node)
    return m.words.const(0, shape.width) if shape.two_valued else m.free(shape.width, node)


def assertions_on(m: Meaning, node: Node, run: Run) -> int:
    """Verilator asks whether assertions are on: they are."""
    return m.words.one


def member(m: Meaning, node: Node, run: Run) -> int:
    """6.19: the value of a name of an enumeration."""
    item = m.tree.known[str(node.get("of"))]
    m.tree.check(item)
    return m.word(item.of("const")[0], run)


def with_effect(m: Meaning, node: Node, run: Run) -> int:
    """11.3.6 and 11.4.2: a++ inside of an expression is statements, then a value."""
    m.effect(node.children[:-1], run)
    return m.word(node.children[-1], run)


TABLE: Dict[str, Expression] = {
    **{tag: _binary(tag) for tag in BINARY}, **{tag: _unary(tag) for tag in UNARY},
    **{tag: _unsigned_comparison(tag) for tag in ("lt", "gt", "lte", "gte")},
    **{tag: division for tag in DIVISIONS}, **{tag: case_equality for tag in EQUALS},
    **{tag: power for tag in ("pow", "powsu", "powss", "powus")},
    "const": constant, "sel": part, "replicate": repetition, "extend": zero_extension, "extends": sign_extension,
    "streaml": reversed_stream, "countones": ones, "clog2": logarithm, "isunknown": unknown_or_first,
    "funcref": call, "methodcall": call, "creset": unset, "cexpr": assertions_on, "enumitemref": member,
    "exprstmt": with_effect, **sampled.TABLE,
}
