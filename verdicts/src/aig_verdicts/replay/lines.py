"""Lines of sources, which a preprocessor moves. A directive `line` says where each comes from."""

from __future__ import annotations

import re
from bisect import bisect_right
from typing import Tuple

_LINE = re.compile(r'^`line (\d+) "([^"\n]*)" \d\n', re.MULTILINE)
_INCLUDE = re.compile(r'(`include\s*"[^"\n]*")')
_QUIET = re.compile(r'//[^\n]*|/\*.*?\*/|"(?:\\.|[^"\\\n])*"', re.DOTALL)


class Lines:
    """The places in a text with directives."""

    def __init__(self, text: str):
        self._text = text
        self._lines = [(it.end(), it[2], int(it[1])) for it in _LINE.finditer(text)]
        self._starts = [start for start, _, _ in self._lines]

    def place(self, offset: int) -> Tuple[str, int]:
        """The file and the line of a byte; no file if it is before the first directive. A macro may have more lines
        than its use: the next directive bounds them."""
        at = bisect_right(self._starts, offset) - 1
        if at < 0:
            return "", 0
        start, file, line = self._lines[at]
        found = line + self._text.count("\n", start, offset)
        if at + 1 < len(self._lines) and self._lines[at + 1][1] == file:
            found = min(found, max(line, self._lines[at + 1][2] - 1))
        return file, found


def numbered(name: str, text: str) -> str:
    """A source with a directive before each line. Lines inside of comments, macros and parentheses have none."""
    quiet = _QUIET.sub(lambda it: re.sub(r"[^\n]", "/" if it[0].startswith("/*") else " ", it[0]), text)
    lines, depth, is_inside = [], 0, False
    for number, (line, plain) in enumerate(zip(text.split("\n"), quiet.split("\n")), 1):
        if depth <= 0 and not is_inside:
            lines.append(f'`line {number} "{name}" 0')
        if re.match(r"\s*(end)?module\b", plain):
            depth = 0
        if not is_inside and not plain.lstrip().startswith("`"):
            depth = max(depth, 0) + sum(map(plain.count, "([{")) - sum(map(plain.count, ")]}"))
        parts = [it for it in _INCLUDE.split(line) if it.strip()] if "`include" in plain else [line]
        lines.append(f'\n`line {number} "{name}" 0\n'.join(parts))  # an `include` is on a line of its own
        is_inside = plain.rstrip().endswith(("\\", "/"))
    return "\n".join(lines)
