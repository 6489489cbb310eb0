"""Circuits with a certificate."""

from __future__ import annotations

from typing import TYPE_CHECKING

from .program import run
from .entries import Signal
from .formula import Formula

if TYPE_CHECKING:
    from .circuit import Circuit


class Certified:
    """A circuit, one of its bad state properties, and a certificate: a circuit that says why no run reaches the
    property.

    Model checkers write such certificates. Nothing in them is believed.
    """

    def __init__(self, circuit: Circuit, certificate: bytes, property: Signal):
        self.circuit, self.certificate = circuit, certificate
        self.position = circuit.position(property)
        self._options = [f"--property={circuit.position(property)}"]
        self._named = {"--certificate": certificate}

    def __repr__(self) -> str:
        return f"<Certified {self.circuit!r}>"

    def strengthened(self) -> Circuit:
        """The circuit strengthened by the certificate. If no run reaches its one property, no run of the circuit
        reaches the property that the certificate is for."""
        from .circuit import Circuit

        return Circuit(run("strengthen", "--to", "aig", *self._options, files=[self.circuit.file], named=self._named))

    def cnf(self) -> Formula:
        """The formula that the certificate is wrong. If nothing satisfies it, no run reaches the property."""
        return CertifiedFormula(self)

    def refute(self, proof: bytes) -> str:
        """Checks a solver's proof about the formula of `cnf`, and returns `unreachable`."""
        return run("refute", *self._options, files=[self.circuit.file, proof], named=self._named).decode().strip()


class CertifiedFormula(Formula):
    """The formula that a certificate is wrong."""

    def __init__(self, certified: Certified):
        super().__init__(certified.circuit, certified._options, certified.certificate)
        self._certified = certified

    def _subject(self) -> Circuit:
        return self._certified.strengthened()
