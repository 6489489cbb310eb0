"""The workbench: a circuit and rows that are edited while all values stay current."""

from __future__ import annotations

from array import array
from threading import get_ident
from typing import (
    TYPE_CHECKING, Any, Dict, Iterable, List, NoReturn, Optional, Sequence, Tuple, Union, overload,
)

from ._arrays import array_of, as_given, cell, number, numbers, question, room_of, unknown
from ._by_program import ByProgram
from ._engine import FAULT, LETTERS, NO_FRAME, NO_KIND, NO_VALUE, Edit, Engine, Kind
from ._named import edits_of
from .program import answers, run
from ._where import library
from .entries import Entries, Signal
from .errors import EditError
from .rows import Row
from .runs import Difference, Trace, Witness, difference, explanation
from .values import Value, X

if TYPE_CHECKING:
    from .circuit import Circuit

    Numbers = Union["array[int]", memoryview]

VALUES: Sequence[Value] = (0, 1, X)
# The bytes that are values.
KNOWN = bytes(range(len(VALUES)))


class Bench:
    """An open bench, to edit and to ask. Close it, or use it in a `with`. It stays on the thread that opened it.

    A signal is a name, `!` and a name, or a literal. To ask, set and reset, NAME is also the vector of the bits
    `NAME[0]`, `NAME[1]`, .., and its value a number, or X if a bit is x. If an edit is not possible, it raises an
    EditError, and nothing changes. The library holds the bench where it is found, and else a process `aig bench`: the
    answers are the same.
    """

    def __init__(self, circuit: Circuit, rows: Iterable[Row] = ()):
        self.circuit = circuit
        self._opened = circuit.file, circuit.rows(rows)
        self._moved: Dict[int, int] = {}
        self._first = self._signals = circuit.signals
        self._literals: Optional[memoryview] = None
        self._thread = get_ident()
        self._held: Optional[Engine] = _engine_of(*self._opened)

    def __enter__(self) -> Bench:
        return self

    def __exit__(self, *_: object) -> None:
        self.close()

    def __repr__(self) -> str:
        return f"<Bench of {self.circuit!r}>"

    def __reduce_ex__(self, _: object) -> NoReturn:
        raise TypeError("a bench has no copy: save it, and open another one")

    @property
    def _engine(self) -> Engine:
        """What holds the bench, for a call that is right."""
        if get_ident() != self._thread:
            raise RuntimeError("a bench stays on the thread that opened it")
        if self._held is None:
            raise ValueError("the bench is closed")
        return self._held

    @property
    def signals(self) -> Entries:
        """The entries of the circuit as it is now: an output may have another literal."""
        if self._moved:
            self._signals, self._moved = self._signals.with_outputs(self._moved), {}
        return self._signals

    @property
    def frames(self) -> int:
        """How many frames there are."""
        return self._engine.frames()

    @property
    def rows(self) -> List[str]:
        """The rows, a text per frame."""
        return self._engine.saved()[1].decode().splitlines()

    def script(self, lines: Iterable[str]) -> List[str]:
        """The replies to lines of a script (`aig bench --help`). A reply `no` raises nothing. Lines `t` and `u`, whose
        replies have several lines, are not possible here. From then on a process `aig bench` holds the bench."""
        lines = list(lines)
        if any(line.strip() in ("t", "u") or "\n" in line for line in lines):
            raise ValueError("a line has to have a reply of one line: for t and u call trace and unroll")
        engine = self._engine
        if not isinstance(engine, ByProgram):
            self._held = ByProgram(*engine.saved())
            engine.close()
            engine = self._held
        replies = engine.script(lines)
        for line, reply in zip(lines, replies):
            words = line.split()
            if words[:1] == ["o"] and reply == "ok":
                self._moved[int(words[1])] = int(words[2])
        return replies

    # -- questions

    def value(self, signal: Signal, frame: int) -> Value:
        """The value of a signal at a frame: 0, 1 or X; of a vector a number or X."""
        literals = self.signals.literals(signal)
        if len(literals) > 1:
            return self._of_bits([(frame, literals)])[0]
        frame, literal = cell(frame, literals[0])
        found = self._engine.value(frame, literal)
        if found >= FAULT:
            raise EditError(found - FAULT, question(frame, literal))
        return VALUES[found]

    @overload
    def values(self, cells: Iterable[Signal], frames: Iterable[int]) -> List[List[Value]]: ...

    @overload
    def values(self, cells: Iterable[Tuple[Signal, int]]) -> List[Value]: ...

    @overload
    def values(self, cells: Numbers, *, into: Any = None) -> bytes: ...

    def values(self, cells: Any, frames: Optional[Iterable[int]] = None, *, into: Any = None) -> object:
        """Many values, by one call.

        values(signals, frames)  a list per frame with a value per signal
        values(pairs)            a list with a value per pair of a signal and a frame
        values(array)            bytes with 0, 1, or 2 for x per cell. The array has numbers of 32 bits (`array("I")`):
                                 a frame and a literal by turns. Of an array of numpy it is one of numpy. With `into=`
                                 the values are in that buffer, too, which has a byte for each
        """
        given = numbers(cells, 2) if frames is None else None
        if given is not None:
            return as_given(self._values(given, room_of(into, len(given) // 2)), cells)
        if into is not None:
            raise ValueError("into= is for the values of an array")
        if frames is None:
            return self._of_bits((frame, self.signals.literals(signal)) for signal, frame in cells)
        bits, at = [self.signals.literals(signal) for signal in cells], list(frames)
        found = self._of_bits((frame, literals) for frame in at for literals in bits)
        width = len(bits)
        return [found[width * row : width * (row + 1)] for row in range(len(at))]

    def frame(self, frame: int, *, into: Any = None) -> bytes:
        """The values of all variables at a frame, from variable 0 on: 0, 1, 2 for x, or 20 for a variable that is not
        defined. With `into=` they are in that buffer, too."""
        engine = self._engine
        at, count = number(frame), engine.variables() + 1
        if at < 0:
            raise unknown(question(frame, 0))
        if at >= engine.frames():
            raise EditError(NO_FRAME, question(frame, 0))
        if self._literals is None or len(self._literals) != count:
            self._literals = memoryview(array("I", range(0, 2 * count, 2)))
        room = room_of(into, count)
        engine.row(at, self._literals, room)
        return bytes(room)

    def _of_bits(self, cells: Iterable[Tuple[int, Sequence[int]]]) -> List[Value]:
        """The value of each signal at a frame, whose literals are there, the least significant first."""
        cells = list(cells)
        asked = array_of(cell(frame, literal) for frame, literals in cells for literal in literals)
        found, at = self._values(asked, room_of(None, len(asked) // 2)), 0
        values: List[Value] = []
        for _, literals in cells:
            bits = found[at : at + len(literals)]
            values.append(VALUES[bits[0]] if len(bits) == 1 else _number_of(bits))
            at += len(bits)
        return values

    def _values(self, cells: memoryview, room: memoryview) -> memoryview:
        self._engine.values(cells, room)
        if room.tobytes().strip(KNOWN):
            at = next(at for at, it in enumerate(room) if it >= FAULT)
            raise EditError(room[at] - FAULT, question(*cells[2 * at : 2 * at + 2]))
        return room

    def trace(self) -> Trace:
        """The trace of all frames."""
        return Trace(self.signals, self._engine.trace())

    def unroll(self) -> bytes:
        """The circuit unrolled for all frames, as text."""
        return self._engine.unrolled()

    def why(self, of: Optional[str] = None, frame: Optional[int] = None, depth: Optional[int] = None) -> List[str]:
        """Why a signal or a vector has its value: lines, from a frame back (default: the last). Without a name it is the
        property that `witness` shows."""
        return self.witness().why(None, frame, depth) if of is None else explanation(*self._now, of, frame, depth)

    def check(self) -> List[str]:
        """Which properties the run reaches, and at which frame: the lines of `check` at the prompt."""
        return answers("check", self._now)

    def witness(self, property: Optional[Signal] = None) -> Witness:
        """The witness that the run reaches a property; the first that it reaches, if none is named."""
        file, rows = self._now
        return type(self.circuit)(file).witness(rows.decode().splitlines(), property)

    def diff(self) -> Difference:
        """What differs from the run as it was opened: by input, latch, output or property, and by frame, the value then
        and the value now. It is None where one of the runs does not have the frame."""
        return difference(self._before, _run_of(self._engine, self.signals))

    def wave(self) -> bytes:
        """The run as a value change dump, for a waveform viewer."""
        return run("wave", files=self._now)

    def svg(self) -> str:
        """A picture of the run, as `Trace.svg`. What differs from the run as it was opened is in thick lines."""
        from .pictures import svg_of_trace

        return svg_of_trace(self.trace(), self._before)

    def _repr_html_(self) -> Optional[str]:
        if self._held is None:
            return None
        from .pictures import scrolling

        return scrolling(self.svg())

    @property
    def _now(self) -> Tuple[bytes, bytes]:
        """The circuit and the rows."""
        return self._engine.saved()

    @property
    def _before(self) -> Trace:
        """The run as it was opened."""
        engine = _engine_of(*self._opened)
        try:
            return _run_of(engine, self._first)
        finally:
            engine.close()

    # -- edits

    def set(self, input: Signal, frame: int, value: object) -> None:
        """Sets an input of a frame, or a vector of inputs."""
        self._edit("set", input, frame, value)

    def append(self, row: Row) -> None:
        """Appends a frame."""
        letters = self.circuit.rows([row]).rstrip(b"\n")
        line = f"+ {letters.decode()}"
        if letters.strip(LETTERS.encode()):
            raise unknown(line)
        status = self._engine.append(letters)
        if status:
            raise EditError(status, line)

    def pop(self) -> None:
        """Removes the last frame."""
        self._edit("pop")

    def replace_rows(self, rows: Iterable[Row]) -> None:
        """Replaces all rows by as many others."""
        text = self.circuit.rows(rows)
        frames, inputs = self._engine.frames(), len(self.circuit.signals.section("i"))
        lines = text.split(b"\n")
        if lines.pop() or len(lines) != frames or any(len(it) != inputs or it.strip(b"01x") for it in lines):
            raise ValueError(f"the bench needs {frames} rows of {inputs} values")
        status = self._engine.replace(text)
        if status:
            raise EditError(status, "rows")

    def rewire(self, gate: int, left: Signal, right: Signal) -> None:
        """Sets the right sides of the gate with this literal."""
        self._edit("rewire", gate, left, right)

    def reset(self, latch: Signal, value: object) -> None:
        """Sets the initial value of a latch, or of a vector of latches; x for any value."""
        self._edit("reset", latch, value)

    def add_gate(self, left: Signal, right: Signal) -> int:
        """Appends a gate, and returns its literal."""
        self._edit("add_gate", left, right)
        return 2 * self._engine.variables()

    def set_output(self, output: Signal, signal: Signal) -> None:
        """Sets an output to a signal."""
        self._edit("set_output", output, signal)

    def edits(self, edits: Union[Iterable[Sequence[object]], Numbers]) -> None:
        """Does edits one after the other, by one call. If one is not possible, those before it are done, and the
        EditError says how many they are (`done`).

        An edit is the name of a method and its arguments, as `("set", "enable", 3, 1)`; `append` is none of them. Or
        all are an array of numbers of 32 bits (`array("I")`), four for each edit, as `struct aig_edit` of aig.h.
        """
        given = numbers(edits, 4)
        if given is not None:
            self._do(given, range(len(given) // 4 + 1))
            return
        named: Iterable[Any] = edits
        each = [edits_of(self.signals, name, words) for name, *words in named]
        self._do(array_of(it for of in each for it in of), [at for at, of in enumerate(each) for _ in of] + [len(each)])

    def _edit(self, name: str, *words: object) -> None:
        """An edit by its name. That of a vector is refused at its first bit, or not at all."""
        edits = edits_of(self.signals, name, words)
        if len(edits) > 1:
            self._do(array_of(edits), [0] * (len(edits) + 1))
            return
        status = self._engine.edit(edits[0])
        if status:
            raise EditError(status, edits[0].line)
        self._note(edits)

    def _do(self, numbers: memoryview, of: Sequence[int]) -> None:
        """Does the edits of an array. `of` says of which edit of the caller each is a part."""
        done, status = self._engine.edits(numbers)
        if Kind.OUTPUT in numbers[: 4 * done : 4].tobytes():
            self._note(Edit(*numbers[at : at + 4]) for at in range(0, 4 * done, 4))
        if status:
            edit = Edit(*numbers[4 * done : 4 * done + 4])
            if status in (NO_KIND, NO_VALUE):
                raise ValueError(f"edit {done} is none: {tuple(edit)}")
            raise EditError(status, edit.line, of[done])

    def _note(self, edits: Iterable[Edit]) -> None:
        """Notes which outputs have another literal."""
        self._moved.update((it.a, it.b) for it in edits if it.kind == Kind.OUTPUT)

    # -- the end

    def save(self) -> Tuple[Circuit, List[str]]:
        """The edited circuit and rows. The bench goes on with them."""
        file, rows = self._engine.saved()
        self.circuit = type(self.circuit)(file)
        self._signals, self._moved = self.circuit.signals, {}
        return self.circuit, rows.decode().splitlines()

    def close(self) -> None:
        """Ends the bench. What was not saved is lost."""
        if self._held is not None:
            self._engine.close()
            self._held = None


def _engine_of(file: bytes, rows: bytes) -> Engine:
    """A bench in the library, if that is found and can be used, else in a process."""
    path = library()
    if path is not None:
        from ._by_library import ByLibrary, loaded

        calls = loaded(path)
        if calls is not None:
            return ByLibrary(calls, file, rows)
    return ByProgram(file, rows)


def _run_of(engine: Engine, signals: Entries) -> Trace:
    """The trace of all frames, with the properties."""
    literals = [it.literal or 0 for it in signals.section("b")]
    asked = array_of((frame, literal) for frame in range(engine.frames()) for literal in literals)
    room = room_of(None, len(asked) // 2)
    engine.values(asked, room)
    letters, width = "".join(LETTERS[it] for it in room), len(literals)
    return Trace(signals, engine.trace(), [letters[width * at : width * (at + 1)] for at in range(engine.frames())])


def _number_of(bits: memoryview) -> Value:
    """The number of a vector with these bits, the least significant first."""
    return X if 2 in bits else sum(bit << at for at, bit in enumerate(bits))
