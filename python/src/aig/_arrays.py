"""Numbers as an engine takes them: each has 32 bits, and an array has as many as its entries need."""

from __future__ import annotations

from array import array
from operator import index
from typing import Any, Iterable, Optional, Tuple

from ._engine import MOST, Edit
from .values import numpy


def numbers(given: Any, each: int) -> Optional[memoryview]:
    """The numbers of an array, so many for each of its entries; None if this is no array."""
    if numpy is not None and isinstance(given, numpy.ndarray) and given.dtype.names:
        given = _of_structs(given, each)
    try:
        view = memoryview(given)
    except TypeError:
        return None
    if view.format not in ("I", "@I") or view.itemsize != 4 or not view.c_contiguous:
        raise ValueError("an array has numbers of 32 bits without a sign, one after the other")
    if view.nbytes % (4 * each):
        raise ValueError(f"an array has {each} numbers for each of its entries")
    return view.cast("B").cast("I")


def _of_structs(given: Any, each: int) -> Any:
    """An array of numpy whose entries are structs, as one of numbers."""
    types = [given.dtype[name] for name in given.dtype.names]
    if types != [numpy.dtype(numpy.uint32)] * each or given.itemsize != 4 * each or not given.flags.c_contiguous:
        raise ValueError(f"a struct of an array has {each} numbers of 32 bits without a sign, one after the other")
    return given.view(numpy.uint32)


def array_of(rows: Iterable[Tuple[int, ...]]) -> memoryview:
    return memoryview(array("I", [it for row in rows for it in row]))


def room_of(given: Any, count: int) -> memoryview:
    """The bytes of a buffer for so many values, or of a new one."""
    if given is None:
        return memoryview(bytearray(count))
    view = memoryview(given)
    if view.readonly or view.itemsize != 1 or not view.c_contiguous or view.nbytes != count:
        raise ValueError(f"the values need a buffer of {count} bytes that can be written, one after the other")
    return view.cast("B") if count else memoryview(bytearray())


def as_given(room: memoryview, given: Any) -> Any:
    """The values in a room: an array of numpy if the cells were one, else bytes."""
    if numpy is not None and isinstance(given, numpy.ndarray):
        return numpy.frombuffer(room, dtype=numpy.uint8)
    return bytes(room)


def cell(frame: Any, literal: Any) -> Tuple[int, int]:
    """A frame and a literal, if a question can have them."""
    found = number(frame), number(literal)
    if min(found) < 0:
        raise unknown(question(frame, literal))
    return found


def held_to_bounds(edit: Edit) -> Edit:
    """An edit, if a line can have its numbers."""
    found = [number(it) for it in edit]
    if min(found) < 0:
        raise unknown(edit.line)
    return Edit(*found)


def number(given: Any) -> int:
    """A number that C can take as it is, else -1."""
    try:
        found = index(given)
    except TypeError:
        return -1
    return found if found <= MOST else -1


def question(frame: object, literal: object) -> str:
    return f"v {frame} {literal}"


def unknown(line: str) -> ValueError:
    return ValueError(f"the bench does not know the line {line!r}")
