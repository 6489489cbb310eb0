"""The names of properties: that in the circuit says the kind too, so that the sum of the circuit fixes it."""

from __future__ import annotations

import re
from typing import List, Optional, Sequence, Tuple

# How the symbols of each kind begin. That of an assertion has it only where its name begins in such a way.
_STARTS = {"cover": "cover:", "condition": "if:", "assert": "assert:"}


def symbol(kind: str, name: str) -> str:
    """The symbol of a property in the circuit: it says the kind too, so that the circuit's sum fixes it."""
    plain = re.sub("[^!-~]", "_", name)
    if kind == "assert" and not plain.startswith(tuple(_STARTS.values())):
        return plain
    return _STARTS[kind] + plain


def properties(symbols: Sequence[str]) -> List[Tuple[str, str, Optional[int]]]:
    """The kind, the name and the owner of each property, by the symbols of the circuit alone. A condition comes right
    after its assertion."""
    found: List[Tuple[str, str, Optional[int]]] = []
    for at, symbol in enumerate(symbols):
        kind, name = _of_symbol(symbol)
        is_owned = kind == "condition" and at > 0 and _of_symbol(symbols[at - 1]) == ("assert", name)
        if kind == "condition" and not is_owned:
            kind, name = "assert", symbol
        found.append((kind, name, at - 1 if is_owned else None))
    return found


def _of_symbol(symbol: str) -> Tuple[str, str]:
    for kind, start in _STARTS.items():
        if symbol.startswith(start):
            rest = symbol[len(start):]
            return (kind, rest) if kind != "assert" or rest.startswith(tuple(_STARTS.values())) else ("assert", symbol)
    return "assert", symbol


def modules_and_signals(free: Sequence[str]) -> Tuple[List[str], List[str]]:
    """Of what is free the modules, and the signals, which begin with the name of the top module."""
    return [it for it in free if "." not in it], [it for it in free if "." in it]
