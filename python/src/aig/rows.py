"""Rows of input values, and the stimulus that the program reads."""

from __future__ import annotations

from typing import Any, Iterable, Mapping, Sequence, Union

from .entries import Entries
from .values import letter, letters_of, numpy

Row = Union[str, Sequence[object], Mapping[str, object]]


def stimulus(entries: Entries, rows: Iterable[Row]) -> bytes:
    """The stimulus of these rows: texts such as `01x`, sequences of values, dictionaries by name, also of vectors (x for
    an input that is left out), or an array of numpy. Bytes are a stimulus already."""
    if isinstance(rows, (bytes, bytearray)):
        return bytes(rows)
    if numpy is not None and isinstance(rows, numpy.ndarray) and rows.ndim == 2 and rows.dtype.kind in "biu":
        return _of_array(rows)
    return "".join(_line(entries, row) + "\n" for row in rows).encode()


def _line(entries: Entries, row: Row) -> str:
    if isinstance(row, str):
        return row
    if not isinstance(row, Mapping):
        return "".join(map(letter, row))
    letters = ["x"] * len(entries.section("i"))
    for name, value in row.items():
        bits = entries.bits(name, "i")
        given = letter(value) if len(bits) == 1 else letters_of(value, len(bits))
        for bit, it in zip(bits, reversed(given)):
            letters[bit.position] = it
    return "".join(letters)


def _of_array(rows: Any) -> bytes:
    if rows.size and (rows.min() < -1 or rows.max() > 1):
        raise ValueError("a value of an array is 0, 1, or -1 for x")
    codes = numpy.full((rows.shape[0], rows.shape[1] + 1), ord("\n"), dtype=numpy.uint8)
    codes[:, :-1] = numpy.where(rows == -1, ord("x"), rows.astype(numpy.int8) + ord("0"))
    return bytes(codes.tobytes())
