"""AND gates, folded and shared as they are made, and the arithmetic of words made of them. Literals are AIGER's."""

from __future__ import annotations

from typing import Dict, List, Tuple

Bits = List[int]


class Gates:
    """A growing circuit."""

    def __init__(self) -> None:
        self.top = 0
        self.gates: List[Tuple[int, int, int]] = []
        self._seen: Dict[Tuple[int, int], int] = {}

    def source(self) -> int:
        """A new variable."""
        self.top += 1
        return 2 * self.top

    def conj(self, a: int, b: int) -> int:
        """Both."""
        if a > b:
            a, b = b, a
        if a == 0 or a == b ^ 1:
            return 0
        if a == 1 or a == b:
            return b
        made = self._seen.get((a, b))
        if made is None:
            made = self._seen[a, b] = self.source()
            self.gates.append((made, b, a))
        return made

    def disj(self, a: int, b: int) -> int:
        """One of them."""
        return self.conj(a ^ 1, b ^ 1) ^ 1

    def xor(self, a: int, b: int) -> int:
        """Just one of them."""
        return self.disj(self.conj(a, b ^ 1), self.conj(a ^ 1, b))

    def ite(self, c: int, a: int, b: int) -> int:
        """`a` if c, else b."""
        return self.disj(self.conj(c, a), self.conj(c ^ 1, b)) if a != b else a

    def all(self, x: Bits) -> int:
        """All bits."""
        made = 1
        for it in x:
            made = self.conj(made, it)
        return made

    def odd(self, x: Bits) -> int:
        """Whether an odd number of bits is 1."""
        made = 0
        for it in x:
            made = self.xor(made, it)
        return made

    def less(self, x: Bits, y: Bits) -> int:
        """Whether x < y, without signs."""
        return self.sub(x, y)[1] ^ 1

    def mux(self, c: int, x: Bits, y: Bits) -> Bits:
        """`x` if c, else y."""
        return [self.ite(c, a, b) for a, b in zip(x, y)]

    def add(self, x: Bits, y: Bits, carry: int = 0) -> Tuple[Bits, int]:
        """The sum, and the carry."""
        made = []
        for a, b in zip(x, y):
            half = self.xor(a, b)
            made.append(self.xor(half, carry))
            carry = self.disj(self.conj(a, b), self.conj(half, carry))
        return made, carry

    def sub(self, x: Bits, y: Bits) -> Tuple[Bits, int]:
        """The difference, and whether x >= y."""
        return self.add(x, [it ^ 1 for it in y], 1)

    def negative(self, x: Bits) -> Bits:
        """Minus x."""
        return self.sub([0] * len(x), x)[0]

    def equal(self, x: Bits, y: Bits) -> int:
        """Whether they are equal."""
        return self.all([self.xor(a, b) ^ 1 for a, b in zip(x, y)])

    def mul(self, x: Bits, y: Bits) -> Bits:
        """The product."""
        made = [0] * len(x)
        for k, c in enumerate(y):
            made = made[:k] + self.add(made[k:], [self.conj(c, it) for it in x[:len(x) - k]])[0]
        return made

    def divide(self, x: Bits, y: Bits) -> Tuple[Bits, Bits]:
        """Quotient and remainder; by zero all ones and x."""
        rest, quotient = [0] * len(x), [0] * len(x)
        for k in reversed(range(len(x))):
            wide = [x[k]] + rest
            less, enough = self.sub(wide, y + [0])
            quotient[k], rest = enough, self.mux(enough, less, wide)[:len(x)]
        return quotient, rest

    def divide_signed(self, x: Bits, y: Bits) -> Tuple[Bits, Bits]:
        """Quotient and remainder toward zero; the remainder has the sign of x."""
        q, r = self.divide(self.mux(x[-1], self.negative(x), x), self.mux(y[-1], self.negative(y), y))
        return self.mux(self.xor(x[-1], y[-1]), self.negative(q), q), self.mux(x[-1], self.negative(r), r)

    def shift(self, x: Bits, by: Bits, fill: int, left: bool) -> Bits:
        """`x` moved."""
        for k, c in enumerate(by):
            n = min(1 << min(k, 30), len(x))
            x = self.mux(c, [fill] * n + x[:len(x) - n] if left else x[n:] + [fill] * n, x)
        return x
