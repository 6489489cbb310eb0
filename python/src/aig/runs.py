"""Runs of a circuit: traces and witnesses."""

from __future__ import annotations

from itertools import zip_longest
from typing import TYPE_CHECKING, Any, Dict, List, Optional, Sequence, Tuple, Union, overload

from .program import run
from .entries import Entries
from .values import Value, number_of, numpy, value_of

if TYPE_CHECKING:
    from .circuit import Circuit


class Trace:
    """The values of a run: `trace["count[0]"]` is a text with a letter per frame, `trace["count[0]", 3]` one value.

    states, inputs, outputs  a text per frame, with a letter per latch, input or output
    bad                      a text per frame, with a letter per bad state property; nothing if that was not asked for
    """

    def __init__(self, entries: Entries, text: bytes, bad: Sequence[str] = ()):
        self.text = text.decode()
        self.entries, self.bad = entries, bad
        columns = [line.split(" ") for line in self.text.split("\n")[:-1]]
        self.states: List[str] = [line[0] for line in columns]
        self.inputs: List[str] = [line[1] for line in columns]
        self.outputs: List[str] = [line[2] for line in columns]

    def __len__(self) -> int:
        return len(self.states)

    def __repr__(self) -> str:
        return f"<Trace of {len(self)} frames>"

    @overload
    def __getitem__(self, key: str) -> str: ...

    @overload
    def __getitem__(self, key: Tuple[str, int]) -> Value: ...

    def __getitem__(self, key: Union[str, Tuple[str, int]]) -> Union[str, Value]:
        if isinstance(key, tuple):
            name, frame = key
            return value_of(self[name][frame])
        entry = self.entries.find(key, "ilo")
        return "".join(row[entry.position] for row in self.section(entry.letter))

    def section(self, letter: str) -> Sequence[str]:
        """The texts of the inputs (`i`), latches (`l`), outputs (`o`) or properties (`b`), one per frame."""
        return {"i": self.inputs, "l": self.states, "o": self.outputs, "b": self.bad}[letter]

    def vector(self, name: str) -> List[Value]:
        """The numbers, one per frame, of the signals `NAME[n]`, `NAME[n+1]`, .. of one section; X where a bit is x.
        `NAME[n]` is the least significant bit. A vector [0:7] of Verilog has its bits in the other order, and is
        rejected: put its bits together yourself."""
        bits = self.entries.vector(name)
        if not bits:
            raise KeyError(f"there is no vector {name!r}")
        columns = [self[it.place] for it in reversed(bits)]
        return [number_of("".join(letters)) for letters in zip(*columns)]

    def array(self, section: str = "outputs") -> Any:
        """The values of `states`, `inputs` or `outputs` as an array of numpy, a row per frame, with -1 for x."""
        if numpy is None:
            raise ImportError("numpy is not installed")
        rows = getattr(self, section)
        codes = numpy.frombuffer("".join(rows).encode(), dtype=numpy.uint8).reshape(len(rows), -1)
        return numpy.where(codes == ord("x"), -1, codes.astype(numpy.int8) - ord("0")).astype(numpy.int8)

    def svg(self) -> str:
        """A picture of the run: its inputs, latches and outputs, 24 at most."""
        from .pictures import svg_of_trace

        return svg_of_trace(self)

    def _repr_svg_(self) -> str:
        return self.svg()

    def _repr_html_(self) -> str:
        from .pictures import scrolling

        return scrolling(self.svg())


# Of two runs: by signal and frame, the value of each.
Difference = Dict[str, Dict[int, Tuple[Optional[Value], Optional[Value]]]]


def difference(one: Trace, other: Trace) -> Difference:
    """The values that two runs of circuits with the same inputs, latches, outputs and properties do not share. A frame
    that a run does not have has None."""
    from .waves.signals import Names, Signal, labels

    properties = [Signal(it.label, "b", (it.position,)) for it in one.entries.section("b")]
    signals = [*Names(one.entries.all).all, *properties]
    found: Difference = {}
    for label, (_, letter, positions) in zip(labels(signals), signals):
        rows = zip_longest(*(["".join(row[at] for at in reversed(positions)) for row in run.section(letter)]
                             for run in (one, other)))
        pairs = {frame: (_number(was), _number(now)) for frame, (was, now) in enumerate(rows) if was != now}
        if pairs:
            found[label] = pairs
    return found


def _number(letters: Optional[str]) -> Optional[Value]:
    return None if letters is None else number_of(letters)


def explanation(
    circuit: bytes, run_file: bytes, of: Optional[str], frame: Optional[int], depth: Optional[int], *options: str
) -> List[str]:
    """The lines of `aig why`."""
    given = {"--of": of, "--frame": frame, "--depth": depth}
    words = [f"{option}={value}" for option, value in given.items() if value is not None]
    return run("why", *options, *words, files=[circuit, run_file]).decode().splitlines()


class Witness:
    """A run to a bad state.

    property    the property that it reaches, by name or as `b0`
    position    the position of this property
    start       a letter per latch
    rows        a text per frame, with a letter per input
    text        the witness as the program writes it
    concrete    the same run with the value for each x that a solver found, if it is known
    """

    def __init__(self, circuit: Circuit, text: bytes, concrete: Optional[bytes] = None):
        self.circuit, self.text = circuit, bytes(text)
        self.concrete = Witness(circuit, concrete) if concrete is not None else None
        lines = self.text.decode().split("\n")
        self.position = int(lines[1][1:])
        properties = circuit.properties
        self.property = properties[self.position] if self.position < len(properties) else f"b{self.position}"
        self.start, self.rows = lines[2], lines[3:-2]

    def __repr__(self) -> str:
        return f"<Witness of {self.property} at frame {len(self.rows) - 1}>"

    def _repr_pretty_(self, printer: Any, cycle: bool) -> None:
        printer.text(f"{self!r}\n{self.text.decode()}")

    def reduced(self) -> Witness:
        """The same witness with x for each value that the failure does not need."""
        whole = self.concrete.text if self.concrete else self.text
        return Witness(self.circuit, run("reduce", files=[self.circuit.file, self.text]), None if b"x" in whole else whole)

    def why(self, of: Optional[str] = None, frame: Optional[int] = None, depth: Optional[int] = None) -> List[str]:
        """Why a signal or a vector (default: the property) has its value at a frame (default: the last): lines, from
        that frame back."""
        return explanation(self.circuit.file, self.text, of, frame, depth, "--witness")

    def wave(self) -> bytes:
        """Its run as a value change dump, for a waveform viewer."""
        return run("wave", "--witness", files=[self.circuit.file, self.text])

    def svg(self) -> str:
        """A picture of its run. Thick lines are the values that suffice for the property (`why`), hatched boxes are
        x."""
        from .pictures import svg_of_witness

        return svg_of_witness(self)

    def _repr_svg_(self) -> str:
        return self.svg()

    def _repr_html_(self) -> str:
        from .pictures import scrolling

        return scrolling(self.svg())
