"""Texts of Verilog that say when an expression is true, and when it is false."""

from __future__ import annotations

from dataclasses import dataclass


# What is never true, and what always is.
NEVER, ALWAYS = "1'b0", "1'b1"


@dataclass(frozen=True)
class Truth:
    """Two texts: an expression is true, and it is false. If neither, it is x."""

    true: str
    false: str

    @property
    def opposite(self) -> "Truth":
        return Truth(self.false, self.true)


def both(*parts: str) -> str:
    """A conjunction."""
    parts = tuple(it for it in parts if it != ALWAYS)
    if NEVER in parts:
        return NEVER
    return f"({' && '.join(parts)})" if len(parts) > 1 else parts[0] if parts else ALWAYS


def either(*parts: str) -> str:
    """A disjunction."""
    parts = tuple(it for it in parts if it != NEVER)
    if ALWAYS in parts:
        return ALWAYS
    return f"({' || '.join(parts)})" if len(parts) > 1 else parts[0] if parts else NEVER
