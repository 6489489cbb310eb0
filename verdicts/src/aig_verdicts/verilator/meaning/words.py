"""Words: expressions of bit-vectors, each made once, with constants folded.

A word is a number. `kind`, `width` and `parts` say what it is. A leaf `signal` is a signal of the design whose value is
not known yet: see circuit.py. The kinds of the other words are operators of BTOR2."""

from __future__ import annotations

from typing import Callable, Dict, Hashable, List, Optional, Set, Tuple

from ..dumps.tree import NotRead

_COMPUTED: Dict[str, Callable[[int, int, int], int]] = {
    "and": lambda a, b, w: a & b, "or": lambda a, b, w: a | b, "xor": lambda a, b, w: a ^ b,
    "add": lambda a, b, w: a + b, "sub": lambda a, b, w: a - b, "mul": lambda a, b, w: a * b,
    "eq": lambda a, b, w: int(a == b), "ult": lambda a, b, w: int(a < b),
    "slt": lambda a, b, w: int(_signed(a, w) < _signed(b, w)),
    "sll": lambda a, b, w: a << b if b < w else 0, "srl": lambda a, b, w: a >> b if b < w else 0,
    "sra": lambda a, b, w: _signed(a, w) >> min(b, w),
    "udiv": lambda a, b, w: a // b, "urem": lambda a, b, w: a % b,
    "sdiv": lambda a, b, w: _toward_zero(_signed(a, w), _signed(b, w)),
    "srem": lambda a, b, w: _signed(a, w) - _signed(b, w) * _toward_zero(_signed(a, w), _signed(b, w)),
}
_OF_ONE_BIT = {"eq", "ult", "slt", "redxor"}
_COMMUTE = {"and", "or", "xor", "add", "mul", "eq"}


def _signed(value: int, width: int) -> int:
    return value - (1 << width) if value >> (width - 1) & 1 else value


def _toward_zero(a: int, b: int) -> int:
    return abs(a) // abs(b) * (1 if (a < 0) == (b < 0) else -1)


class Words:
    """All words of a circuit."""

    def __init__(self) -> None:
        self.kind: List[str] = []
        self.width: List[int] = []
        self.parts: List[Tuple[int, ...]] = []
        self.label: Dict[int, str] = {}
        self.owner: Dict[int, Tuple[object, int]] = {}  # of a leaf `signal`: the signal and the element
        self._known: Dict[Hashable, int] = {}
        self.zero, self.one = self.const(0, 1), self.const(1, 1)

    def _make(self, kind: str, width: int, parts: Tuple[int, ...]) -> int:
        key = (kind, width, parts)
        if key not in self._known:
            self._known[key] = self._new(kind, width, parts)
        return self._known[key]

    def _new(self, kind: str, width: int, parts: Tuple[int, ...]) -> int:
        self.kind.append(kind)
        self.width.append(width)
        self.parts.append(parts)
        return len(self.kind) - 1

    def const(self, value: int, width: int) -> int:
        """A constant."""
        return self._make("const", width, (value & ((1 << width) - 1),))

    def leaf(self, kind: str, width: int, label: str) -> int:
        """A new input, state or signal."""
        made = self._new(kind, width, ())
        self.label[made] = label
        return made

    def value(self, word: int) -> Optional[int]:
        """The value of a constant; None for another word."""
        return self.parts[word][0] if self.kind[word] == "const" else None

    def invert(self, x: int) -> int:
        """Each bit of x inverted."""
        if self.kind[x] == "not":
            return self.parts[x][0]
        value = self.value(x)
        return self.const(~value, self.width[x]) if value is not None else self._make("not", self.width[x], (x,))

    def op(self, kind: str, a: int, b: int) -> int:
        """An operator of two words of one width."""
        w = self.width[a]
        if w != self.width[b]:
            raise NotRead(f"{kind} of {w} and {self.width[b]} bits")
        x, y = self.value(a), self.value(b)
        out = 1 if kind in _OF_ONE_BIT else w
        if x is not None and y is not None and not (y == 0 and kind in ("udiv", "urem", "sdiv", "srem")):
            return self.const(_COMPUTED[kind](x, y, w), out)
        if kind in ("and", "mul") and 0 in (x, y):
            return self.const(0, w)
        if kind in _COMMUTE and a > b:
            a, b, x, y = b, a, y, x
        return self._simple(kind, a, b, x, y, w) or self._make(kind, out, (a, b))

    def _simple(self, kind: str, a: int, b: int, x: Optional[int], y: Optional[int], w: int) -> int:
        """A simpler word for this one, or 0. The word 0 is the constant 1'b0, which `op` makes by itself."""
        ones = (1 << w) - 1
        for one, other, value in ((a, b, x), (b, a, y)):
            if value is None:
                continue
            if kind == "and" and value == ones or kind in ("or", "xor", "add") and value == 0:
                return other
            if kind == "or" and value == ones:
                return one
            if kind == "xor" and value == ones:
                return self.invert(other)
            if kind == "eq" and w == 1:
                return other if value else self.invert(other)
        if kind in ("sub", "sll", "srl", "sra") and y == 0:
            return a
        if kind in ("sll", "srl", "sra") and y is not None:
            return self._moved(kind, a, min(y, w))
        if a == b and kind in ("and", "or"):
            return a
        return self.one if a == b and kind == "eq" else 0

    def _moved(self, kind: str, a: int, by: int) -> int:
        w = self.width[a]
        if by == w:
            return self.repeat(self.slice(a, w - 1, w - 1), w) if kind == "sra" else self.const(0, w)
        if kind == "sll":
            return self.concat(self.slice(a, w - 1 - by, 0), self.const(0, by))
        kept = self.slice(a, w - 1, by)
        return self.sext(kept, w) if kind == "sra" else self.uext(kept, w)

    def conj(self, a: int, b: int) -> int:
        """Both of two bits."""
        return self.zero if self.zero in (a, b) or a == self.invert(b) else self.op("and", a, b)

    def disj(self, a: int, b: int) -> int:
        """One of two bits."""
        return self.invert(self.conj(self.invert(a), self.invert(b)))

    def ite(self, c: int, a: int, b: int) -> int:
        """`a` where c is true, else b."""
        if a == b or c == self.one:
            return a
        if c == self.zero:
            return b
        if self.kind[c] == "not":
            c, a, b = self.parts[c][0], b, a
        if self.kind[a] == "ite" and self.parts[a][0] == c:
            a = self.parts[a][1]
        if self.kind[b] == "ite" and self.parts[b][0] == c:
            b = self.parts[b][2]
        if a == b:
            return a
        if self.width[a] == 1 and (self.value(a), self.value(b)) in ((1, 0), (0, 1)):
            return c if self.value(a) else self.invert(c)
        return self._make("ite", self.width[a], (c, a, b))

    def slice(self, x: int, high: int, low: int) -> int:
        """The bits high to low of x."""
        kind, parts = self.kind[x], self.parts[x]
        if low == 0 and high == self.width[x] - 1:
            return x
        if kind == "const":
            return self.const(parts[0] >> low, high - low + 1)
        if kind == "slice":
            return self.slice(parts[0], parts[2] + high, parts[2] + low)
        if kind == "concat":
            cut = self.width[parts[1]]
            if low >= cut:
                return self.slice(parts[0], high - cut, low - cut)
            if high < cut:
                return self.slice(parts[1], high, low)
            return self.concat(self.slice(parts[0], high - cut, 0), self.slice(parts[1], cut - 1, low))
        return self._make("slice", high - low + 1, (x, high, low))

    def concat(self, a: int, b: int) -> int:
        """`a` above b."""
        if self.kind[a] == "const" and self.kind[b] == "const":
            return self.const(self.parts[a][0] << self.width[b] | self.parts[b][0], self.width[a] + self.width[b])
        if self.kind[b] == "concat":            # to the left, and neighbours of one word together
            return self.concat(self.concat(a, self.parts[b][0]), self.parts[b][1])
        last, rest = (self.parts[a][1], self.parts[a][0]) if self.kind[a] == "concat" else (a, None)
        if self.kind[last] == "slice" and self.kind[b] == "slice":
            (of, high, low), (other, below, lowest) = self.parts[last], self.parts[b]
            if of == other and low == below + 1:
                whole = self.slice(of, high, lowest)
                return whole if rest is None else self.concat(rest, whole)
        if rest is not None and self.kind[last] == "const" and self.kind[b] == "const":
            return self.concat(rest, self.concat(last, b))
        return self._make("concat", self.width[a] + self.width[b], (a, b))

    def joined(self, parts: List[int]) -> int:
        """Words side by side, the least significant first."""
        made = parts[0]
        for it in parts[1:]:
            made = self.concat(it, made)
        return made

    def repeat(self, x: int, times: int) -> int:
        """`times` copies of x."""
        return self.joined([x] * times)

    def uext(self, x: int, width: int) -> int:
        """`x` with zeros in front, or its lower part."""
        more = width - self.width[x]
        return self.slice(x, width - 1, 0) if more <= 0 else self.concat(self.const(0, more), x)

    def sext(self, x: int, width: int) -> int:
        """`x` with its sign in front, or its lower part."""
        more, top = width - self.width[x], self.width[x] - 1
        return self.slice(x, width - 1, 0) if more <= 0 else self.concat(self.repeat(self.slice(x, top, top), more), x)

    def any(self, x: int) -> int:
        """Whether a bit of x is 1."""
        return x if self.width[x] == 1 else self.invert(self.op("eq", x, self.const(0, self.width[x])))

    def all(self, x: int) -> int:
        """Whether each bit of x is 1."""
        return x if self.width[x] == 1 else self.op("eq", x, self.const(-1, self.width[x]))

    def odd(self, x: int) -> int:
        """Whether an odd number of bits of x are 1."""
        value = self.value(x)
        if value is not None:
            return self.const(bin(value).count("1"), 1)
        return x if self.width[x] == 1 else self._make("redxor", 1, (x,))

    def negate(self, x: int) -> int:
        """Minus x."""
        return self.op("sub", self.const(0, self.width[x]), x)

    def rebuilt(self, x: int, parts: List[int]) -> int:
        """A word of the kind of x, of other parts."""
        kind = self.kind[x]
        if kind in ("const", "input", "state", "signal"):
            return x
        if kind == "not":
            return self.invert(parts[0])
        if kind == "ite":
            return self.ite(*parts)
        if kind == "slice":
            return self.slice(parts[0], self.parts[x][1], self.parts[x][2])
        if kind == "concat":
            return self.concat(*parts)
        return self.odd(parts[0]) if kind == "redxor" else self.op(kind, *parts)

    def below(self, x: int) -> Tuple[int, ...]:
        """The words that x is made of."""
        kind = self.kind[x]
        return () if kind == "const" else self.parts[x][:1] if kind == "slice" else self.parts[x]

    def everything(self, roots: List[int]) -> Set[int]:
        """Words, and all that they are made of."""
        seen, todo = set(roots), list(roots)
        while todo:
            for it in self.below(todo.pop()):
                if it not in seen:
                    seen.add(it)
                    todo.append(it)
        return seen

    def support(self, roots: List[int]) -> Set[int]:
        """The leaves that words depend on."""
        return {it for it in self.everything(roots) if self.kind[it] in ("input", "state", "signal")}

    def replaced(self, x: int, by: Dict[int, int], memo: Dict[int, int]) -> int:
        """`x` with other words for some of its leaves."""
        if x in by:
            return by[x]
        if x not in memo:
            memo[x] = self.rebuilt(x, [self.replaced(it, by, memo) for it in self.below(x)])
        return memo[x]
