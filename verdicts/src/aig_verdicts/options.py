"""The form of options that other programs read: a module, a definition, a value of a parameter. Each is one word there."""

from __future__ import annotations

import re
from typing import Dict, Optional, Sequence

from aig.tools import ToolFailed

_DEFINITION = re.compile(r"[A-Za-z_][A-Za-z0-9_]*(=[A-Za-z0-9_'.+-]*)?")
_MODULE = re.compile(r"[A-Za-z_][A-Za-z0-9_$]*")
_NAME = re.compile(r"[A-Za-z_][A-Za-z0-9_$]*")
_DECIMAL = re.compile(r"-?\d{1,10}")
_SIZED = re.compile(
    r"(?:[1-9]\d{0,3})?'[sS]?(?:[bB][01][01_]*|[oO][0-7][0-7_]*|[dD]\d[\d_]*|[hH][\da-fA-F][\da-fA-F_]*)")
_TEXT = re.compile(r'"[ !#-\[\]-~]*"')
# A decimal number has 32 bits and a sign.
_MOST = (1 << 31) - 1


class Unusable(Exception):
    """A value that cannot be given to a parameter, and why."""


def values_of(given: Sequence[str]) -> Dict[str, str]:
    """The values by name, each given as NAME=VALUE. A value is one constant of Verilog, and nothing else."""
    found: Dict[str, str] = {}
    for it in given:
        name, sign, value = it.partition("=")
        if not sign or not _NAME.fullmatch(name):
            raise Unusable(f"{it!r} is no value of a parameter: NAME=VALUE")
        if name in found:
            raise Unusable(f"the parameter {name} gets two values")
        if not _is_constant(value):
            raise Unusable(f"the parameter {name} gets {value!r}, and that is no constant: a number as 8, -1 or 8'hff, or "
                           """a text as '"fast"'""")
        found[name] = value
    return found


def _is_constant(value: str) -> bool:
    if _DECIMAL.fullmatch(value):
        return abs(int(value)) <= _MOST
    return (_SIZED.fullmatch(value) or _TEXT.fullmatch(value)) is not None


def look_at_words(top: Optional[str], defines: Sequence[str]) -> None:
    """Rejects a top module or a definition that could be more than one word of Yosys' language."""
    if top is not None and not _MODULE.fullmatch(top):
        raise ToolFailed(f"{top!r} is no name of a module")
    for define in defines:
        if not _DEFINITION.fullmatch(define):
            raise ToolFailed(f"{define!r} is no definition: NAME or NAME=VALUE")
