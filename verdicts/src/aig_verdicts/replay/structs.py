"""How wide parts of packed structs are, by the declarations in a preprocessed source: a register for `$past` needs that, and
Icarus Verilog 11 aborts at `$bits` of such a part."""

from __future__ import annotations

import re
from typing import Dict, Iterator, List, NamedTuple, Optional, Tuple

_TYPEDEF = re.compile(r"\btypedef\s+((?:struct\s+packed|enum)\b[^;{]*\{[^{}]*\}|[^;{}]*?)\s*\b([A-Za-z_]\w*)\s*;", re.DOTALL)
_ENUM = re.compile(r"enum\s*([^{]*)\{")
_STRUCT = re.compile(r"struct\s+packed\s*(signed|unsigned)?\s*\{([^{}]*)\}", re.DOTALL)
_RANGE = re.compile(r"\[([^\]:]*):([^\]:]*)\]")
_QUIET = re.compile(r'//[^\n]*|/\*.*?\*/|"(?:\\.|[^"\\\n])*"|^`line[^\n]*', re.DOTALL | re.MULTILINE)


class Width(NamedTuple):
    """How wide a type is, as an expression, and whether it is signed."""

    bits: str
    is_signed: bool = False

    @property
    def declared(self) -> str:
        return f"{'signed ' if self.is_signed else ''}[({self.bits})-1:0]"


class Structs:
    """The types with names in a source that is preprocessed."""

    def __init__(self, source: str):
        self._text = _QUIET.sub(lambda it: re.sub(r"[^\n]", " ", it[0]), source)
        self._types: Dict[str, List[Tuple[int, str]]] = {}
        for it in _TYPEDEF.finditer(self._text):
            self._types.setdefault(it[2], []).append((it.start(), it[1]))

    def width(self, path: str, begin: int, end: int) -> Optional[Width]:
        """The width of `NAME.PART.PART` in the module that is between these places; None if that is not plain."""
        name, *parts = path.split(".")
        found = self._type_of(name, self._text[begin:end])
        for part in parts:
            struct = _STRUCT.fullmatch(found.strip()) if found else None
            found = dict(self._members(struct[2])).get(part) if struct else None
        return self._width(found) if found else None

    def _type_of(self, name: str, module: str) -> Optional[str]:
        """The type of a variable or port, if it has a name or is a struct."""
        direct = re.search(rf"(struct\s+packed[^;{{]*\{{[^{{}}]*\}})\s*(?:\w+\s*,\s*)*{re.escape(name)}\b", module)
        if direct:
            return direct[1]
        types = "|".join(sorted((re.escape(it) for it in self._types), key=len, reverse=True)) or "(?!)"
        declared = re.search(rf"(?:\b\w+\s*::\s*)?\b({types})\s+(?:[A-Za-z_]\w*\s*(?:=[^,;()]*)?,\s*)*{re.escape(name)}\b", module)
        return self._named(declared[1]) if declared else None

    def _named(self, name: str) -> Optional[str]:
        """What a name of a type means; None if it means several things."""
        found = self._types.get(name, [])
        return found[0][1] if len(found) == 1 else None

    @staticmethod
    def _members(body: str) -> Iterator[Tuple[str, str]]:
        """The parts of a struct, and their types."""
        for line in body.split(";"):
            match = re.fullmatch(r"\s*(.*?)((?:\b[A-Za-z_]\w*\s*,\s*)*\b[A-Za-z_]\w*)\s*", line, re.DOTALL)
            for name in match[2].split(",") if match and match[1].strip() else []:
                yield name.strip(), match[1] if match else ""

    def _width(self, kind: str) -> Optional[Width]:
        """How wide a type is. Names in a range would have another meaning in another module or package."""
        struct, enum = _STRUCT.fullmatch(kind.strip()), _ENUM.match(kind.strip())
        if struct:
            parts = [self._width(each) for _, each in self._members(struct[2])]
            widths = [it.bits for it in parts if it is not None]
            return Width("+".join(widths), struct[1] == "signed") if widths and len(widths) == len(parts) else None
        if enum:
            return self._width(enum[1]) if enum[1].strip() else Width("32", True)
        named = re.fullmatch(r"\s*(?:\w+\s*::\s*)?([A-Za-z_]\w*)\s*", kind)
        if named and named[1] in self._types:
            inner = self._named(named[1])
            return self._width(inner) if inner else None
        plain = re.fullmatch(r"\s*(?:(?:logic|reg|bit|wire|var)\b\s*)*((?:un)?signed\b)?\s*((?:\[[^\]]*\])?)\s*", kind)
        if not plain or re.search(r"[A-Za-z_$`]", plain[2]):
            return None
        limits = _RANGE.fullmatch(plain[2])
        if plain[2] and not limits:
            return None
        bits = f"(({limits[1]})>({limits[2]})?({limits[1]})-({limits[2]}):({limits[2]})-({limits[1]}))+1" if limits else "1"
        return Width(f"({bits})", plain[1] == "signed")
