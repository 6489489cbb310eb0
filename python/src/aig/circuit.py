"""Circuits, and what can be asked about them."""

from __future__ import annotations

import os
from pathlib import Path
from typing import Dict, Iterable, List, Optional, Tuple, Union

from .parts import parts_of
from .program import OftenRead, run
from .bench import Bench
from .certified import Certified
from .entries import SECTIONS, Entries, Entry, Signal, listed
from .formula import Formula
from .rows import Row, stimulus
from .runs import Trace, Witness, explanation
from .verdict import Verdict


class Circuit:
    """A circuit that the program accepted: `Circuit(bytes)`, or `aig.read(path)`. It never changes; a `Bench` edits
    one.

    A signal is a name (its symbol, or `i0`, `l2`, `o1`, `b0` by section and position), `!` and a name for its negation,
    or a literal.
    """

    def __init__(self, file: Union[bytes, str]):
        self.file = file.encode() if isinstance(file, str) else file if isinstance(file, OftenRead) else bytes(file)
        self.signals = Entries(listed(run("info", "--names", "--json", files=[self.file])))
        self._facts: Optional[Dict[str, Union[int, str]]] = None

    def __repr__(self) -> str:
        counts = ((len(self.signals.section(letter)), name) for letter, name in SECTIONS.items())
        return f"<Circuit of {', '.join(f'{count} {name}' for count, name in counts if count) or 'nothing'}>"

    # -- what it has

    @property
    def entries(self) -> List[Entry]:
        """All entries, in the order of the file."""
        return self.signals.all

    @property
    def inputs(self) -> List[str]:
        return self._labels("i")

    @property
    def latches(self) -> List[str]:
        return self._labels("l")

    @property
    def outputs(self) -> List[str]:
        return self._labels("o")

    @property
    def properties(self) -> List[str]:
        """The bad state properties."""
        return self._labels("b")

    def _labels(self, letter: str) -> List[str]:
        return [entry.label for entry in self.signals.section(letter)]

    @property
    def gates(self) -> List[Tuple[int, int, int]]:
        """The gates: the literal of each, and its two right sides."""
        return parts_of(self.to("aag")).gates

    def info(self) -> Dict[str, Union[int, str]]:
        """The facts that `aig info` prints: variables, gates, levels, fanout, .."""
        if self._facts is None:
            pairs = (line.split(" ", 1) for line in run("info", files=[self.file]).decode().splitlines())
            self._facts = {name: int(value) if value.isdigit() else value for name, value in pairs}
        return dict(self._facts)

    def find(self, name: Signal, sections: str = "ilobcf") -> Entry:
        """The entry of this name, or at this place, among these sections."""
        return self.signals.find(name, sections)

    def literal(self, signal: Signal) -> int:
        """The literal of a signal."""
        return self.signals.literal(signal)

    # -- other files

    def to(self, format: str) -> bytes:
        """The file in the format `aag` or `aig`."""
        return run("toaig", "--to", format, files=[self.file])

    def save(self, path: Union[str, "os.PathLike[str]"]) -> None:
        """Writes the file: as text if the path ends with `.aag`, else in the binary format."""
        Path(path).write_bytes(self.to("aag" if str(path).endswith(".aag") else "aig"))

    def select(self, properties: Iterable[Signal] = (), source: str = "bad", target: str = "bad") -> Circuit:
        """The circuit with only these of its properties. `source` and `target` are `bad` or `outputs`."""
        letter = {"bad": "b", "outputs": "o"}[source]
        options = [f"--property={self.find(which, letter).position}" for which in properties]
        return Circuit(run("select", "--to", "aig", "--from", source, "--as", target, *options, files=[self.file]))

    def cut(self, free: Iterable[Signal] = (), starts: Iterable[Signal] = (), constraints: Iterable[Signal] = ()
            ) -> Circuit:
        """The circuit in which these may be anything: next states of latches and values of gates, initial values of
        latches, and constraints. If no run of it reaches a property, none of this circuit does. All else keeps its
        place and literal; new inputs come after the others."""
        lines = [f"f {self.literal(signal)}\n" for signal in free]
        lines += [f"r {self.literal(signal)}\n" for signal in starts]
        lines += [f"c {self.find(which, 'c').position}\n" for which in constraints]
        return Circuit(run("cut", "--to", "aag", files=[self.file], named={"--cuts": "".join(lines).encode()}))

    def unroll(self, frames: int) -> Circuit:
        """The circuit unrolled for so many frames, without latches."""
        return Circuit(run("unroll", f"--frames={frames}", "--to", "aig", files=[self.file]))

    # -- runs

    def simulate(self, rows: Iterable[Row]) -> Trace:
        """The run over these rows, from the resets."""
        return Trace(self.signals, run("sim", files=[self.file, self.rows(rows)]))

    def wave(self, rows: Iterable[Row]) -> bytes:
        """The run over these rows as a value change dump, for a waveform viewer."""
        return run("wave", files=[self.file, self.rows(rows)])

    def why(self, of: str, rows: Iterable[Row], frame: Optional[int] = None, depth: Optional[int] = None) -> List[str]:
        """Why a signal or a vector has its value in the run over these rows: lines, from a frame back (default: the
        last)."""
        return explanation(self.file, self.rows(rows), of, frame, depth)

    def rows(self, rows: Iterable[Row]) -> bytes:
        """The stimulus of these rows."""
        return stimulus(self.signals, rows)

    def bench(self, rows: Iterable[Row] = ()) -> Bench:
        """A bench with this circuit and these rows, to edit and to ask."""
        return Bench(self, rows)

    # -- verdicts

    def check(self, witness: Union[Witness, bytes, str], property: Optional[Signal] = None) -> Verdict:
        """The verdict on a witness. If a property is named, a witness of another one is rejected."""
        text = _text_of(witness)
        options = [] if property is None else [f"--property={self.position(property)}"]
        line = run("check", *options, files=[self.file, text], good=(0, 1)).decode().strip()
        return Verdict(line, witness=Witness(self, text) if line == "confirmed" else None)

    def witness(self, rows: Iterable[Row], property: Optional[Signal] = None) -> Witness:
        """The witness that the run over these rows reaches a property; the first that it reaches, if none is named."""
        options = [] if property is None else [f"--property={self.position(property)}"]
        return Witness(self, run("witness", *options, files=[self.file, self.rows(rows)]))

    def cnf(self, frames: int, property: Signal = 0, step: bool = False) -> Formula:
        """The formula, for a SAT solver, that a property is reached within so many frames; with `step`, that of the
        induction step."""
        options = [f"--frames={frames}", f"--property={self.position(property)}"] + ["--step"] * step
        return Formula(self, options)

    def refute(self, frames: int, proof: bytes, property: Signal = 0, step: Optional[bytes] = None) -> str:
        """Checks a solver's proof about the formula of `cnf`, and returns `unreachable within K`. With a proof of the
        induction step too, it returns `unreachable`."""
        options = [f"--frames={frames}", f"--property={self.position(property)}"]
        named = {} if step is None else {"--step": step}
        return run("refute", *options, files=[self.file, proof], named=named).decode().strip()

    def cnf_alive(self, frames: int) -> Formula:
        """The formula that some run keeps all constraints for so many frames. `witness` of a model is a run for
        `check_alive`, whatever property it names."""
        return Formula(self, [f"--frames={frames}", "--alive"])

    def check_alive(self, witness: Union[Witness, bytes, str], frames: Optional[int] = None) -> str:
        """Whether the run of a witness keeps all constraints for so many frames (default: all): `alive`, or what speaks
        against it, as `constraint 2 0`."""
        options = ["--alive"] if frames is None else ["--alive", f"--frames={frames}"]
        return run("check", *options, files=[self.file, _text_of(witness)], good=(0, 1)).decode().strip()

    def refute_alive(self, frames: int, proof: bytes) -> str:
        """Checks a solver's proof about the formula of `cnf_alive`, and returns `no run of K frames`: the constraints
        contradict."""
        return run("refute", f"--frames={frames}", "--alive", files=[self.file, proof]).decode().strip()

    def certified(self, certificate: Union[Circuit, bytes, str], property: Signal = 0) -> Certified:
        """This circuit with a certificate, which claims that no run reaches the property."""
        text = certificate.file if isinstance(certificate, Circuit) else certificate
        return Certified(self, text.encode() if isinstance(text, str) else text, property)

    def position(self, property: Signal) -> int:
        """The position of a bad state property."""
        return self.find(property, "b").position


def _text_of(witness: Union[Witness, bytes, str]) -> bytes:
    text = witness.text if isinstance(witness, Witness) else witness
    return text.encode() if isinstance(text, str) else text


def read(path: Union[str, "os.PathLike[str]"]) -> Circuit:
    """The circuit of a file, in either format."""
    return Circuit(Path(path).read_bytes())

