"""aig: a verified AIGER toolkit, from Python.

    >>> import aig
    >>> circuit = aig.read("counter.aag")
    >>> circuit.simulate(["10", "10"])["count[0]"]
    '01'

The program `aig` computes every result; its documents say what is proved of it. This package passes bytes to the
program and back. It is tested, not proved.
"""

from typing import TYPE_CHECKING, List

if TYPE_CHECKING:
    from .bench import Bench
    from .certified import Certified
    from .circuit import Circuit, read
    from .entries import Entry
    from .errors import AigError, Crashed, EditError, OutOfMemory, Unreadable
    from .formula import Formula
    from .miters import miter
    from .runs import Trace, Witness
    from .solver import Solved, solve
    from .values import X
    from .verdict import Verdict
    from .tools import Stop, Stopped

__version__ = "0.4.0"

__all__ = [
    "AigError", "Bench", "Certified", "Circuit", "Crashed", "EditError", "Entry", "Formula", "OutOfMemory", "Solved",
    "Stop", "Stopped", "Trace", "Unreadable", "Verdict", "Witness", "X", "miter", "read", "solve",
]

# The names of each module. It is read when one of them is used first, so that `aig-explain` starts with few.
_NAMES = {
    "bench": ("Bench",), "certified": ("Certified",), "circuit": ("Circuit", "read"), "entries": ("Entry",),
    "errors": ("AigError", "Crashed", "EditError", "OutOfMemory", "Unreadable"), "formula": ("Formula",),
    "miters": ("miter",), "rows": (), "runs": ("Trace", "Witness"), "solver": ("Solved", "solve"),
    "values": ("X",), "verdict": ("Verdict",), "tools": ("Stop", "Stopped"),
}

if not TYPE_CHECKING:
    def __getattr__(name):
        """A name of the package, or one of its modules."""
        from importlib import import_module

        if name in _NAMES:
            return import_module(f".{name}", __name__)
        for module, names in _NAMES.items():
            if name in names:
                return globals().setdefault(name, getattr(import_module(f".{module}", __name__), name))
        if name in ("prove", "certify", "verdicts", "sva"):
            raise AttributeError(f"aig.{name} is of the package aig_verdicts now")
        raise AttributeError(f"module {__name__!r} has no attribute {name!r}")


def __dir__() -> List[str]:
    return sorted({*globals(), *__all__})
