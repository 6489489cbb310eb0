"""An open bench in the library for C (`aig_live_*` of aig.h), which this process has loaded.

A pointer and a length go to C by `_lent` alone, so no length is of anything but the buffer that it goes with. Each call
keeps the interpreter's lock. What it writes is of this call alone, but for the report, which nobody reads.
"""

from __future__ import annotations

import ctypes
import warnings
from ctypes import POINTER, Structure, byref, c_bool, c_size_t, c_uint8, c_uint32, c_uint64, c_void_p
from functools import lru_cache
from threading import get_ident
from typing import Any, Callable, Dict, List, Optional, Tuple, Union

from . import __version__
from ._engine import FAULT, Edit, Kind
from .program import failed, held
from .errors import EditError, OutOfMemory

DONE, REFUSED, NO_ROOM, NO_MEMORY = 0, 1, 2, 3
OUT_OF_MEMORY = 11
# The numbers of the reply `no` by the reasons not to unroll.
UNROLL_FAULTS = {b"no frames": 9, b"liveness": 12, b"limit": 10}
FIRST_ROOM = 1 << 16
LONGEST_VERSION = 64


class _Live(Structure):
    _fields_ = [("inside", c_void_p), ("present", c_bool)]


class _Report(Structure):
    _fields_ = [("evaluated", c_uint64), ("changed", c_uint64)]


class _Sizes(Structure):
    _fields_ = [(name, c_uint32) for name in ("frames", "inputs", "latches", "outputs", "gates", "max_var")]


_BENCH, _REPORT = POINTER(_Live), POINTER(_Report)
_BUFFER: List[Any] = [c_void_p, c_size_t]
_ROOM: List[Any] = [*_BUFFER, POINTER(c_size_t)]
# The arguments of each call.
CALLS: Dict[str, List[Any]] = {
    "open": [*_BUFFER, *_BUFFER, _BENCH, *_ROOM],
    "close": [_BENCH],
    "set": [_BENCH, c_uint32, c_uint32, c_uint8, _REPORT],
    "rewire": [_BENCH, c_uint32, c_uint32, c_uint32, _REPORT],
    "reset": [_BENCH, c_uint32, c_uint8, _REPORT],
    "output": [_BENCH, c_uint32, c_uint32, _REPORT],
    "append_gate": [_BENCH, c_uint32, c_uint32, POINTER(c_uint32), _REPORT],
    "add_frame": [_BENCH, *_BUFFER, _REPORT],
    "drop_frame": [_BENCH, _REPORT],
    "edits": [_BENCH, *_BUFFER, POINTER(c_size_t), _REPORT],
    "value": [_BENCH, c_uint32, c_uint32, POINTER(c_uint8)],
    "values": [_BENCH, *_BUFFER, *_BUFFER],
    "row": [_BENCH, c_uint32, *_BUFFER, *_BUFFER],
    "replace_rows": [_BENCH, *_BUFFER],
    "sizes": [_BENCH, POINTER(_Sizes)],
    "trace": [_BENCH, *_ROOM],
    "unrolled": [_BENCH, c_bool, *_ROOM],
    "circuit": [_BENCH, *_ROOM],
    "stimulus": [_BENCH, *_ROOM],
}
Calls = Dict[str, Callable[..., int]]


@lru_cache(maxsize=None)
def loaded(path: str) -> Optional[Calls]:
    """The calls of the library at a path. None, and one line of warning, if it does not load, lacks one of them, or is
    of another version than this package: its structs may be larger. A process gives the same answers."""
    try:
        return _calls(path)
    except (OSError, AttributeError) as why:
        warnings.warn(f"a process holds each bench: {why}", RuntimeWarning, stacklevel=5)
        return None


def _calls(path: str) -> Calls:
    library = ctypes.PyDLL(path)
    version = _version(library.aig_version)
    if version != __version__:
        raise OSError(f"{path} has version {version}, and this package {__version__}")
    calls = {name: getattr(library, f"aig_live_{name}") for name in CALLS}
    for name, call in calls.items():
        call.argtypes, call.restype = CALLS[name], c_uint8
    return calls


def _version(call: Any) -> str:
    """What the library says that its version is."""
    call.argtypes, call.restype = _ROOM, c_uint8
    room, length = ctypes.create_string_buffer(LONGEST_VERSION), c_size_t(0)
    return room.raw[: length.value].decode("latin-1") if call(*_lent(room), byref(length)) == DONE else "unknown"


def _lent(buffer: Union[bytes, memoryview, "ctypes.Array[Any]"], numbers: int = 1) -> Tuple[Any, int]:
    """A buffer as C gets it, and its length: how many entries of so many numbers it has."""
    if not isinstance(buffer, memoryview):
        return buffer, len(buffer)
    own = buffer if buffer.nbytes and not buffer.readonly else memoryview(bytearray(buffer.tobytes() or bytes(4)))
    return byref(ctypes.c_char.from_buffer(own)), len(buffer) // numbers


class ByLibrary:
    """A bench that the library keeps open. Only the thread that opened it calls it."""

    def __init__(self, calls: Calls, file: bytes, rows: bytes):
        self._calls, self._thread = calls, get_ident()
        self._struct = _Live()
        self._bench, self._report = byref(self._struct), byref(_Report())
        self._value = calls["value"]
        room, length = ctypes.create_string_buffer(FIRST_ROOM), c_size_t(0)
        status = calls["open"](*_lent(file), *_lent(rows), self._bench, *_lent(room), byref(length))
        if status == NO_MEMORY:
            raise OutOfMemory("program", "memory")
        if status != DONE:
            with held(file, rows) as (paths, _):
                raise failed(["bench", *paths, "/dev/stdin"], status, b"aig: " + room.raw[: length.value] + b"\n")

    def edit(self, edit: Edit) -> int:
        kind, a, b, c = edit
        calls, bench, report = self._calls, self._bench, self._report
        if kind == Kind.SET:
            return calls["set"](bench, a, b, c, report)
        if kind == Kind.REWIRE:
            return calls["rewire"](bench, a, b, c, report)
        if kind == Kind.RESET:
            return calls["reset"](bench, a, b, report)
        if kind == Kind.APPEND:
            return calls["append_gate"](bench, a, b, byref(c_uint32(0)), report)
        if kind == Kind.OUTPUT:
            return calls["output"](bench, a, b, report)
        return calls["drop_frame"](bench, report)

    def edits(self, edits: memoryview) -> Tuple[int, int]:
        done = c_size_t(0)
        status = self._calls["edits"](self._bench, *_lent(edits, 4), byref(done), self._report)
        return done.value, status

    def append(self, row: bytes) -> int:
        return self._calls["add_frame"](self._bench, *_lent(row.translate(_VALUES)), self._report)

    def value(self, frame: int, literal: int) -> int:
        found = c_uint8(0)
        status = self._value(self._bench, frame, literal, byref(found))
        return FAULT + status if status else found.value

    def values(self, cells: memoryview, room: memoryview) -> None:
        self._done(self._calls["values"](self._bench, *_lent(cells, 2), *_lent(room)))

    def row(self, frame: int, literals: memoryview, room: memoryview) -> None:
        self._done(self._calls["row"](self._bench, frame, *_lent(literals), *_lent(room)))

    def replace(self, rows: bytes) -> int:
        return self._calls["replace_rows"](self._bench, *_lent(rows.translate(_VALUES, b"\n")))

    def _done(self, status: int) -> None:
        if status:
            raise RuntimeError(f"the library answered a question with status {status}")

    def _sizes(self) -> _Sizes:
        sizes = _Sizes()
        self._done(self._calls["sizes"](self._bench, byref(sizes)))
        return sizes

    def variables(self) -> int:
        return int(self._sizes().max_var)

    def frames(self) -> int:
        return int(self._sizes().frames)

    def _text(self, name: str, *words: bool) -> Tuple[int, bytes]:
        """The status of a call that writes a text into a room, and the text."""
        size = FIRST_ROOM
        while True:
            room, length = ctypes.create_string_buffer(size), c_size_t(0)
            status = self._calls[name](self._bench, *words, *_lent(room), byref(length))
            if status != NO_ROOM:
                return status, room.raw[: length.value]
            size *= 4

    def _whole(self, name: str, line: str) -> bytes:
        status, text = self._text(name)
        if status != DONE:
            raise EditError(OUT_OF_MEMORY, line)
        return text

    def trace(self) -> bytes:
        return self._whole("trace", "t")

    def unrolled(self) -> bytes:
        status, text = self._text("unrolled", False)
        if status == DONE:
            return text
        faults = [number for reason, number in UNROLL_FAULTS.items() if status == REFUSED and reason in text]
        raise EditError(faults[0] if faults else OUT_OF_MEMORY, "u")

    def saved(self) -> Tuple[bytes, bytes]:
        return self._whole("circuit", "circuit"), self._whole("stimulus", "stimulus")

    def close(self) -> None:
        self._calls["close"](self._bench)

    def __del__(self) -> None:
        # On another thread the library may not be called: then the memory is lost.
        if self._thread == get_ident():
            self.close()


# The value of each letter.
_VALUES = bytes.maketrans(b"01x", b"\x00\x01\x02")
