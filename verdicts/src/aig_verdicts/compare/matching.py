"""Which assertion of an old version is which one now: by its label, or by its line after a diff of the sources. One
whose text is another one is another assertion, so that no failure hides in the place of an old one."""

from __future__ import annotations

import re
from collections import Counter
from difflib import SequenceMatcher
from functools import cached_property
from typing import Any, Callable, Dict, Hashable, List, Mapping, NamedTuple, Optional, Sequence, Set, Tuple

from ..audit.bundle import Bundle
from .changes import Pairs
from ..audit.row import Row
from .texts import Texts, lines_of

_NUMBER = re.compile(r"(.*?)(#\d+)?")


class Version:
    """A version of a design: its rows, its circuit, its sources by name, and how they are read."""

    def __init__(self, name: str, rows: Sequence[Row], circuit: bytes, sources: Mapping[str, bytes],
                 options: Mapping[str, Any]):
        self.name, self.rows, self.circuit, self.sources, self.options = name, rows, circuit, sources, options

    @staticmethod
    def of(bundle: Bundle) -> Version:
        manifest = bundle.manifest
        sources = {name: bundle.summed(f"sources/{name}") for name in manifest["sources"]}
        return Version(manifest["name"], bundle.rows, bundle.circuit(), sources, manifest["options"])

    @cached_property
    def texts(self) -> Texts:
        return Texts(self.sources, self.options.get("defines", []), self.options.get("parameters", []))

    @property
    def asserted(self) -> List[Row]:
        """The assertions and covers."""
        return [row for row in self.rows if row.kind in ("assert", "cover")]


class Place(NamedTuple):
    """What a name says of a row: its instances with the label, or with nothing but a place; and its number, if several
    rows have one name."""

    before: str
    has_line: bool
    number: str

    @property
    def instance(self) -> str:
        return self.before.rstrip(":") if self.has_line else self.before.rpartition(".")[0]


def place_of(row: Row) -> Place:
    match = _NUMBER.fullmatch(row.name)
    base, number = (match[1], match[2] or "") if match else (row.name, "")
    line = f"{row.file}:{row.last}"
    if row.file and (base == line or base.endswith(f":{line}")):
        return Place(base[: -len(line)], True, number)
    return Place(base, False, number)


class Lines:
    """Where the lines of a text are in a newer one, whatever their comments and spaces: `same` has those that stay,
    `old` and `new` the number of the edit that a line belongs to."""

    def __init__(self, old: bytes, new: bytes):
        one, other = (lines_of(text.decode("latin-1")) for text in (old, new))
        self.same: Dict[int, int] = {}
        self.old: Dict[int, int] = {}
        self.new: Dict[int, int] = {}
        first = next((at for at, (a, b) in enumerate(zip(one, other)) if a != b), min(len(one), len(other)))
        rest = min(len(one), len(other)) - first
        last = next((at for at in range(rest) if one[-1 - at] != other[-1 - at]), rest)
        self.same.update((at + 1, at + 1) for at in range(first))
        self.same.update((len(one) - at, len(other) - at) for at in range(last))
        middle = [each[first : len(each) - last] for each in (one, other)]  # the diff is slow, and most lines stay
        edits = SequenceMatcher(None, middle[0], middle[1], autojunk=False).get_opcodes()
        for number, (kind, begin, end, at, to) in enumerate(edits):
            if kind == "equal":
                self.same.update((first + begin + k + 1, first + at + k + 1) for k in range(end - begin))
            else:
                self.old.update((first + it + 1, number) for it in range(begin, end))
                self.new.update((first + it + 1, number) for it in range(at, to))


class _Matching:
    """The pairs of two versions, found in steps: each step pairs rows that have one key."""

    def __init__(self, old: Version, new: Version):
        self._old, self._new = old, new
        self._lines = {name: Lines(text, new.sources[name]) for name, text in old.sources.items()
                       if name in new.sources}
        self.pairs: Dict[int, int] = {}
        self.edited: Set[int] = set()
        self._left = list(old.asserted)

    def step(self, key_before: Callable[[Row], Optional[Hashable]], key_after: Callable[[Row], Optional[Hashable]],
             is_edited: Callable[[Row, Row], bool]) -> None:
        """Pairs the rows that are left and have the same key, in their order."""
        waiting: Dict[Hashable, List[Row]] = {}
        for row in self._new.asserted:
            key = key_after(row)
            if row.position not in self.pairs and key is not None:
                waiting.setdefault(key, []).append(row)
        rows, self._left = self._left, []
        for was in rows:
            key = key_before(was)
            found = waiting[key].pop(0) if key is not None and waiting.get(key) else None
            if found is None:
                self._left.append(was)
                continue
            self.pairs[found.position] = was.position
            if is_edited(was, found):
                self.edited.add(found.position)

    def by_name(self) -> None:
        """By labels, and by lines that stay."""
        counts = [Counter(_group(row) for row in version.asserted) for version in (self._old, self._new)]

        def moved(row: Row) -> Optional[Hashable]:
            place = place_of(row)
            if not place.has_line:
                return row.kind, place
            lines = self._lines.get(row.file)
            to = lines.same.get(row.last) if lines else None
            return (row.kind, place, row.file, to) if to else None

        def here(row: Row) -> Hashable:
            place = place_of(row)
            return (row.kind, place, row.file, row.last) if place.has_line else (row.kind, place)

        def is_edited(was: Row, now: Row) -> bool:
            """Where rows of one name are more or fewer than they were, nobody knows which is which."""
            return self._text(self._old, was) != self._text(self._new, now) or (
                counts[0][_group(was)] != counts[1][_group(now)])

        self.step(moved, here, is_edited)

    def by_edit(self) -> None:
        """By the edit of the sources that both are in."""
        def before(row: Row) -> Optional[Hashable]:
            lines = self._lines.get(row.file)
            return self._key(row, lines.old.get(row.last) if lines else None)

        def after(row: Row) -> Optional[Hashable]:
            lines = self._lines.get(row.file)
            return self._key(row, lines.new.get(row.last) if lines else None)

        self.step(before, after, lambda *_: True)

    def by_text(self) -> None:
        """By the text alone, if both have moved to another place."""
        def key(version: Version) -> Callable[[Row], Optional[Hashable]]:
            return lambda row: (row.kind, self._text(version, row)) if self._text(version, row) else None

        self.step(key(self._old), key(self._new), lambda *_: True)

    def _key(self, row: Row, edit: Optional[int]) -> Optional[Hashable]:
        return (row.kind, place_of(row).instance, row.file, edit) if edit is not None else None

    @staticmethod
    def _text(version: Version, row: Row) -> Tuple[Tuple[str, ...], ...]:
        return version.texts.of(row.file, row.last)


def _group(row: Row) -> Hashable:
    """What rows of one name have in common."""
    place = place_of(row)
    return row.kind, place.before, place.has_line and (row.file, row.last)


def pairs_of(old: Version, new: Version) -> Pairs:
    """Which row is which."""
    found = _Matching(old, new)
    found.by_name()
    found.by_edit()
    found.by_text()
    return Pairs(found.pairs, frozenset(found.edited))
