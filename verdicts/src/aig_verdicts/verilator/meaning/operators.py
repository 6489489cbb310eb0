"""What each operator does with words. Verilator writes the width and the sign of each operand out (IEEE 1800-2017, 11.6
and 11.8), so an operator of the tree is one line of a table here, and never looks around itself."""

from __future__ import annotations

from typing import Callable, Dict

from .words import Words

Binary = Callable[[Words, int, int], int]
Unary = Callable[[Words, int], int]


def _not(make: Binary) -> Binary:
    return lambda w, a, b: w.invert(make(w, a, b))


def _swapped(make: Binary) -> Binary:
    return lambda w, a, b: make(w, b, a)


def _op(kind: str) -> Binary:
    return lambda w, a, b: w.op(kind, a, b)


def _shift(kind: str) -> Binary:
    """11.4.10: the amount has no sign. A shift by the width or more leaves only what is shifted in."""
    def make(w: Words, x: int, by: int) -> int:
        width = w.width[x]
        needed = width.bit_length()
        if w.width[by] <= needed:
            return w.op(kind, x, w.uext(by, width))
        far, near = w.any(w.slice(by, w.width[by] - 1, needed)), w.slice(by, needed - 1, 0)
        sign = w.slice(x, width - 1, width - 1) if kind == "sra" else w.zero
        return w.ite(far, w.repeat(sign, width), w.op(kind, x, w.uext(near, width)))
    return make


def _one_hot(w: Words, x: int, is_none_too: bool) -> int:
    """20.9: whether one bit is 1. Then x & (x - 1) is zero."""
    least = w.op("and", x, w.op("sub", x, w.const(1, w.width[x])))
    few = w.invert(w.any(least))
    return few if is_none_too else w.conj(few, w.any(x))


def _implies(w: Words, a: int, b: int) -> int:
    return w.disj(w.invert(w.any(a)), w.any(b))


def _same(w: Words, x: int) -> int:
    return x


_LESS, _LESS_SIGNED = _op("ult"), _op("slt")
BINARY: Dict[str, Binary] = {
    # 11.4.3: arithmetic
    "add": _op("add"), "sub": _op("sub"), "mul": _op("mul"), "muls": _op("mul"),
    # 11.4.4: relations
    "lt": _LESS, "gt": _swapped(_LESS), "gte": _not(_LESS), "lte": _not(_swapped(_LESS)),
    "lts": _LESS_SIGNED, "gts": _swapped(_LESS_SIGNED),
    "gtes": _not(_LESS_SIGNED), "ltes": _not(_swapped(_LESS_SIGNED)),
    # 11.4.5: equality
    "eq": _op("eq"), "neq": _not(_op("eq")),
    # 11.4.7: logic, of operands of any width
    "logand": lambda w, a, b: w.conj(w.any(a), w.any(b)),
    "logor": lambda w, a, b: w.disj(w.any(a), w.any(b)),
    "logif": _implies,
    "logeq": lambda w, a, b: w.invert(w.op("xor", w.any(a), w.any(b))),
    # 11.4.8: bit by bit
    "and": _op("and"), "or": _op("or"), "xor": _op("xor"),
    # 11.4.10: shifts
    "shiftl": _shift("sll"), "shiftr": _shift("srl"), "shiftrs": _shift("sra"),
    # 11.4.12: the first part has the higher bits
    "concat": lambda w, a, b: w.concat(a, b),
}
UNARY: Dict[str, Unary] = {
    # 11.4.3, 11.4.7 and 11.4.8
    "negate": lambda w, a: w.negate(a), "lognot": lambda w, a: w.invert(w.any(a)), "not": lambda w, a: w.invert(a),
    # 11.4.9: reductions
    "redand": lambda w, a: w.all(a), "redor": lambda w, a: w.any(a), "redxor": lambda w, a: w.odd(a),
    # 20.9: counts of bits. No bit is x here, as an x is one of two values.
    "onehot": lambda w, a: _one_hot(w, a, False), "onehot0": lambda w, a: _one_hot(w, a, True),
    "isunknown": lambda w, a: w.zero,
    # 6.24 and 11.7: Verilator writes each change of a width apart from these.
    "signed": _same, "unsigned": _same, "ccast": _same, "castwrap": _same, "sampled": _same, "resizelvalue": _same,
}
# 11.4.3: toward zero. The remainder has the sign of the first operand.
DIVISIONS = {"div": "udiv", "divs": "sdiv", "moddiv": "urem", "moddivs": "srem"}
# 11.4.5 and 11.4.6: whether the result is inverted.
EQUALS = {"eqcase": False, "neqcase": True, "eqwild": False, "neqwild": True}
