"""Where a signal is declared in the sources."""

from __future__ import annotations

import re
from typing import Dict, Tuple

from .lines import Lines

_MODULE = re.compile(r"\bmodule\s+(?:automatic\s+)?\\?([A-Za-z_][\w$]*)(.*?)\bendmodule\b", re.DOTALL)
_KINDS = r"\b(?:input|output|inout|reg|wire|logic|integer|bit|tri|wand|wor|byte|int|genvar)\b"


class Places:
    """The places of declarations in a preprocessed source."""

    def __init__(self, text: str, top: str):
        self._text, self._top = text, top
        self._modules: Dict[str, Tuple[int, int]] = {it[1]: (it.start(2), it.end(2)) for it in _MODULE.finditer(text)}
        self._lines = Lines(text)

    def of(self, path: str) -> Tuple[str, int]:
        """The file and the line of a declaration; no file if it is not found."""
        *instances, name = [re.sub(r"\[.*", "", word) for word in path.split(".")]
        module = self._top
        for word in instances:
            module = self._inside(module, word)
        begin, end = self._modules.get(module, (0, 0))
        found = re.search(rf"{_KINDS}[^;]*?(\b{re.escape(name)}\b)", self._text[begin:end])
        return self._lines.place(begin + found.start(1)) if found else ("", 0)

    def _inside(self, module: str, instance: str) -> str:
        """The module of an instance. A word that is none, as that of a `generate` block, changes nothing."""
        begin, end = self._modules.get(module, (0, 0))
        pattern = rf"\b([A-Za-z_][\w$]*)\s*(?:#\s*\(.*?\)\s*)?\b{re.escape(instance)}\b\s*(?:\[[^\]]*\]\s*)?\("
        for found in re.finditer(pattern, self._text[begin:end], re.DOTALL):
            if found[1] in self._modules:
                return found[1]
        return module
