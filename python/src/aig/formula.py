"""Formulas for SAT solvers."""

from __future__ import annotations

from typing import TYPE_CHECKING, Dict, Iterable, Iterator, List, Optional, Sequence, Tuple, Union

from .program import run
from .runs import Witness

if TYPE_CHECKING:
    from .circuit import Circuit

Model = Union[bytes, str, Iterable[Optional[int]]]


class Formula:
    """A formula that `aig cnf` prints for a circuit and these options: `text` in DIMACS, `clauses` as lists of numbers.

    variables  how many variables it has
    size       how many clauses it has
    """

    def __init__(self, circuit: Circuit, options: Sequence[str], certificate: Optional[bytes] = None):
        self._circuit, self._options = circuit, list(options)
        self._named = {} if certificate is None else {"--certificate": certificate}
        self.text = run("cnf", *self._options, files=[circuit.file], named=self._named)
        head = next(line for line in self.text.split(b"\n") if line.startswith(b"p"))
        self.variables, self.size = map(int, head.split()[2:])
        self._clauses: Optional[List[List[int]]] = None

    def __repr__(self) -> str:
        return f"<Formula of {self.size} clauses over {self.variables} variables>"

    def __iter__(self) -> Iterator[List[int]]:
        return iter(self.clauses)

    @property
    def clauses(self) -> List[List[int]]:
        if self._clauses is None:
            lines = (line for line in self.text.split(b"\n") if line and line[:1] not in b"cp")
            self._clauses = [list(map(int, line.split()))[:-1] for line in lines]
        return self._clauses

    @property
    def inputs(self) -> Dict[Tuple[int, int], int]:
        """The variable of each input that the formula reads, at each frame: `inputs[position, frame]`."""
        words = (line.split()[2:5] for line in self.text.split(b"\n") if line.startswith(b"c i "))
        return {(int(position), int(frame)): int(variable) for variable, frame, position in words}

    def witness(self, model: Model) -> Witness:
        """The witness of the run that a model names. The model is the text that a solver prints, numbers such as
        `[1, -2, ..]` (pycosat), or truth values by variable, the first of which counts for nothing (cryptominisat).

        The witness of a certificate's formula is one of the strengthened circuit: it shows which claim is wrong."""
        named = {"--model": _text_of(model), **self._named}
        said = run("witness", *self._options, files=[self._circuit.file], named=named)
        return Witness(self._subject(), said)

    def _subject(self) -> Circuit:
        return self._circuit


def _text_of(model: Model) -> bytes:
    if isinstance(model, (bytes, str)):
        return model.encode() if isinstance(model, str) else model
    numbers = []
    for variable, value in enumerate(model):
        if value is True or value is False:
            numbers.append(variable if value else -variable)
        elif value is not None:
            numbers.append(int(value))
    return b"v " + " ".join(str(number) for number in numbers if number).encode() + b" 0\n"
