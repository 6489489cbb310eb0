"""Verdicts on the assertions of a Verilog design, and on the properties of a circuit, which the program `aig` checks.

    >>> import aig
    >>> import aig_verdicts
    >>> aig_verdicts.prove(aig.read("wraps.aag"), "wraps").line
    'confirmed'

The command `aig-verdicts` is `aig_verdicts.command`. The package stands on `aig`. It is tested, not proved.
"""

from typing import TYPE_CHECKING, List

if TYPE_CHECKING:
    from .proving import certify, prove

__version__ = "0.4.0"

__all__ = ["certify", "prove"]

if not TYPE_CHECKING:
    def __getattr__(name):
        """A name of the package. A command that proves nothing of Python's reads none of it."""
        if name in __all__:
            from . import proving

            return globals().setdefault(name, getattr(proving, name))
        raise AttributeError(f"module {__name__!r} has no attribute {name!r}")


def __dir__() -> List[str]:
    return sorted({*globals(), *__all__})
