"""Parts of vectors and elements of arrays: 11.5 of IEEE 1800-2017. What is out of range is x when it is read."""

from __future__ import annotations

from typing import List, Optional

from .values import Meaning
from .names import Run, Signal, Value
from .operators import BINARY
from ..dumps.tree import Node, number

# Verilator gives these a signed type where they are an index.
_NO_SIGN = ("sel", "concat", "replicate", "extend", "eq", "neq", "lt", "gt", "lte", "gte", "redor", "redand", "redxor")
# No range reaches this width of an index.
_WIDE = 32


def made_by_verilator(node: Node) -> bool:
    """Whether a part is Verilator's own cut to a width: it, its index and what it cuts have one place. A part in the
    source has the place of its bracket, and a member of a structure the place of its name."""
    if node.tag != "sel" or node.children[1].tag != "const":
        return False
    return node.place == node.children[1].place == node.children[0].place


def signed_value(value: int, width: int) -> int:
    """A value of so many bits as a signed one."""
    return value - (value >> (width - 1) << width)


def index(m: Meaning, node: Node, run: Run, reach: int) -> int:
    """11.5.1: an index with a sign in front, wide enough to compare with `reach`.

    Verilator cuts an index to the bits that the range needs. What it cut off says whether the index is out of range, so
    this looks below such a cut, and computes without a loss what Verilator subtracts for [7:4] and for -:. Nodes that
    Verilator made have the places of the nodes below."""
    w = m.words
    if made_by_verilator(node):
        return index(m, node.children[0], run, reach)
    if node.tag in ("add", "sub") and any(it.tag == "const" and it.place == node.place for it in node.children):
        own = [it.children[0] if it.tag in ("extend", "extends") else it for it in node.children]
        a, b = (index(m, it, run, reach) for it in own)
        width = max(w.width[a], w.width[b]) + 1
        return w.op(node.tag, w.sext(a, width), w.sext(b, width))
    word = m.word(node, run)
    if node.tag == "const":
        signed = number(node.name).signed
    else:
        signed = node.tag not in _NO_SIGN and m.tree.shape(node).signed
    width = max(w.width[word], reach.bit_length()) + 1
    return w.sext(word, width) if signed or w.width[word] >= _WIDE else w.uext(word, width)


def part(m: Meaning, node: Node, run: Run) -> int:
    """11.5.1: a part of a vector."""
    of, at, size = node.children
    width, x = m.known(size, run), m.word(of, run)
    place = index(m, at, run, m.words.width[x] + width)
    low = m.words.value(place)
    if low is not None:
        return _at(m, x, signed_value(low, m.words.width[place]), width, node)
    return _at_variable(m, x, place, width, node)


def _at(m: Meaning, x: int, low: int, width: int, node: Node) -> int:
    """The part at a constant index."""
    w, whole = m.words, m.words.width[x]
    kept = [0 <= k < whole for k in range(low, low + width)]
    if all(kept):
        return w.slice(x, low + width - 1, low)
    unknown = m.free(width, node)
    return w.joined([w.slice(x, low + k, low + k) if is_kept else w.slice(unknown, k, k) for k, is_kept in enumerate(kept)])


def _at_variable(m: Meaning, x: int, place: int, width: int, node: Node) -> int:
    """The part at a variable index: the word moved down, where the bits are in range."""
    w, whole, at = m.words, m.words.width[x], node.children[1]
    if at.tag in ("varref", "extend") and (1 << _narrowest(m, at)) - 1 + width <= whole:
        near = w.slice(place, _narrowest(m, at) - 1, 0)
        return w.slice(BINARY["shiftr"](w, x, near), width - 1, 0)
    by = w.op("add", place, w.const(width - 1, w.width[place]))
    x, inside = (w.concat(it, w.const(0, width - 1)) if width > 1 else it for it in (x, w.const(-1, whole)))
    moved, right = (w.uext(BINARY["shiftr"](w, it, by), width) for it in (x, inside))
    return w.op("or", w.op("and", moved, right), w.op("and", m.free(width, node), w.invert(right)))


def _narrowest(m: Meaning, node: Node) -> int:
    """How many bits of an index can be other than 0."""
    if node.tag == "extend":
        return _narrowest(m, node.children[0])
    shape = m.tree.shape(node)
    return 99 if shape.signed else shape.width


def element(m: Meaning, node: Node, run: Run) -> Value:
    """11.5.1 and 7.4.6: an element of an array, or an array of fewer dimensions."""
    whole, size = m.elements(node.children[0], run), m.tree.shape(node).depth
    rows = [whole[k:k + size] for k in range(0, len(whole), size)]
    place = index(m, node.children[1], run, len(rows))
    at, width = m.words.value(place), m.words.width[place]
    if at is not None and at < len(rows):
        return rows[at]
    unknown: Optional[Value] = None
    if at is not None or (1 << width) > len(rows):
        unknown = tuple(m.free(m.words.width[whole[0]], node) for _ in range(size))
    if at is not None and unknown is not None:
        return unknown
    return _chosen(m, rows, place, width - 1, 0, unknown)


def _chosen(m: Meaning, rows: List[Value], place: int, bit: int, first: int, unknown: Optional[Value]) -> Value:
    """The row of an index, by its bits from the highest one; `unknown` where there is none."""
    if first >= len(rows) and unknown is not None:
        return unknown
    if bit < 0:
        return rows[first]
    c = m.words.slice(place, bit, bit)
    high = _chosen(m, rows, place, bit - 1, first + (1 << bit), unknown)
    low = _chosen(m, rows, place, bit - 1, first, unknown)
    return tuple(m.words.ite(c, a, b) for a, b in zip(high, low))


def variable(m: Meaning, node: Node, run: Run) -> Value:
    """A variable, a net, or a parameter, whose value is below its declaration."""
    found = m.named(node, run)
    if isinstance(found, Node) and found.tag == "var" and found.get("param") and found.children:
        return m.elements(found.children[0], run)
    if not isinstance(found, Signal):
        raise node.error(f"the name {node.name}")
    return run.read(found)


def constant_array(m: Meaning, node: Node, run: Run) -> Value:
    """10.10: the elements of a constant array."""
    return tuple(x for it in node.children for x in m.elements(it.children[0], run))


def chosen_array(m: Meaning, node: Node, run: Run) -> Value:
    """11.4.11: one of two, element by element."""
    c = m.bit(node.children[0], run)
    yes, no = (m.elements(it, run) for it in node.children[1:])
    if len(yes) != len(no):
        raise node.error("a choice of arrays of different sizes")
    return tuple(m.words.ite(c, a, b) for a, b in zip(yes, no))


ARRAYS = {"varref": variable, "varxref": variable, "arraysel": element, "initarray": constant_array,
          "cond": chosen_array}
