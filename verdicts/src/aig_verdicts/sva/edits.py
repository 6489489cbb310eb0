"""Copies of files with changed words. Each line stays where it is."""

from __future__ import annotations

from dataclasses import dataclass
from typing import Dict, List, Mapping, Tuple

from .words import Rejected, Word, text_of


@dataclass
class Edit:
    """New text for the words from the first to the last one; before the first one, if the last one is before it."""

    first: int
    last: int
    text: str

    @property
    def is_insertion(self) -> bool:
        return self.last < self.first


@dataclass
class _Group:
    """Edits of words that belong together: those of the use of a macro change at once."""

    first: int
    last: int
    edits: List[Edit]


# The bytes of a file that are replaced, and what is there instead.
_Pieces = Dict[str, Dict[Tuple[int, int], str]]


class Edited:
    """The texts of files with edits of their words."""

    def __init__(self, texts: Mapping[str, str], words: List[Word], edits: List[Edit]):
        self._texts, self._words = texts, words
        self._uses: Dict[int, Tuple[int, int]] = {}
        for k, it in enumerate(words):
            if it.use:
                self._uses[it.use] = (self._uses.get(it.use, (k, k))[0], k)
        pieces: _Pieces = {}
        for group in self._groups(edits):
            self._take(group, pieces)
        self.texts = {file: self._written(file, found) for file, found in pieces.items()}

    def _groups(self, edits: List[Edit]) -> List[_Group]:
        groups: List[_Group] = []
        for edit in sorted(edits, key=lambda it: (it.first, it.last)):
            first, last = edit.first, edit.last
            if not edit.is_insertion:
                first = min(first, self._uses.get(self._words[first].use, (first, first))[0])
                last = max(last, self._uses.get(self._words[last].use, (last, last))[1])
            if groups and first <= groups[-1].last:
                groups[-1].last = max(last, groups[-1].last)
                groups[-1].edits.append(edit)
            else:
                groups.append(_Group(first, last, [edit]))
        return groups

    def _take(self, group: _Group, pieces: _Pieces) -> None:
        """Adds what a group of edits makes of its bytes."""
        begin = self._words[group.first]
        of_file = pieces.setdefault(begin.file, {})
        if group.last < group.first:
            if begin.use:
                raise Rejected(begin, "the end of a module in a macro")
            key = (begin.start, begin.start)
            of_file[key] = of_file.get(key, "") + group.edits[0].text
            return
        end = self._words[group.last]
        if end.file != begin.file:
            raise Rejected(begin, "an assertion in several files")
        new = self._new_text(group)
        lines = self._texts[begin.file].count("\n", begin.start, end.end) - new.count("\n")
        if lines < 0:
            raise Rejected(begin, "a macro with assertions that is longer than its use")
        key, new = (begin.start, end.end), new + "\n" * lines
        if of_file.setdefault(key, new) != new:
            raise Rejected(begin, "a file that is included twice, with two meanings")

    def _new_text(self, group: _Group) -> str:
        parts, at = [], group.first
        for edit in group.edits:
            if edit.first > at:
                parts.append(text_of(self._words[at:edit.first]) + " ")
            parts.append(edit.text + " ")
            at = max(at, edit.last + 1)
        if at <= group.last:
            parts.append(text_of(self._words[at:group.last + 1]))
        return "".join(parts)

    def _written(self, file: str, pieces: Dict[Tuple[int, int], str]) -> str:
        source, parts, at = self._texts[file], [], 0
        for (start, end), new in sorted(pieces.items()):
            if start < at:
                raise Rejected(None, f"{file}: a part of it is read in two ways")
            parts += [source[at:start], new]
            at = end
        text = "".join(parts) + source[at:]
        if text.count("\n") != source.count("\n"):
            raise Rejected(None, f"{file}: its lines do not stay where they are")
        return text
