"""Values 0, 1 and x."""

from __future__ import annotations

from importlib import import_module
from typing import Any, Dict, Hashable, SupportsInt, Union

numpy: Any
try:
    numpy = import_module("numpy")
except ImportError:  # the package works without it
    numpy = None


class Unknown:
    """The type of `X`, the value x: not known to be 0 or 1. It is neither true nor false: compare with `is X` first."""

    def __repr__(self) -> str:
        return "X"

    def __str__(self) -> str:
        return "x"

    def __bool__(self) -> bool:
        raise ValueError("x is neither true nor false: compare with `is X` first")

    def __reduce__(self) -> str:
        return "X"


X = Unknown()
Value = Union[int, Unknown]
_LETTERS: Dict[Hashable, str] = {0: "0", 1: "1", "0": "0", "1": "1", "x": "x", None: "x", X: "x"}


def letter(value: object) -> str:
    """The letter of a value: 0, 1, False, True, X, None or a letter."""
    found = _LETTERS.get(value) if isinstance(value, Hashable) else None
    if found is None and isinstance(value, SupportsInt) and int(value) == value:
        found = _LETTERS.get(int(value))  # numpy's numbers
    if found is None:
        raise ValueError(f"a value is 0, 1 or x, and not {value!r}")
    return found


def letters_of(value: object, count: int) -> str:
    """The letters of a vector of so many bits, the most significant first: of a number, of X or None for x in each bit,
    or so many letters as they are."""
    if isinstance(value, str) and len(value) == count and not value.strip("01x"):
        return value
    if value is X or value is None or isinstance(value, str) and value == "x":
        return "x" * count
    if isinstance(value, SupportsInt) and int(value) == value and 0 <= int(value) < 1 << count:
        return f"{int(value):0{count}b}"
    raise ValueError(f"a value of {count} bits is a number below {1 << count}, X, or {count} letters, and not {value!r}")


def value_of(text: str) -> Value:
    """The value of a letter."""
    return X if text == "x" else int(text)


def number_of(letters: str) -> Value:
    """The number that these bits are, the most significant first; X if one of them is x."""
    return X if "x" in letters else int(letters, 2)
