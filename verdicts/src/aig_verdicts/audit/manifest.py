"""MANIFEST.json: what a folder of results says. It is written from rows, and read with suspicion."""

from __future__ import annotations

import json
import re
from dataclasses import dataclass, field
from typing import Any, Callable, Dict, List, Optional, Tuple

from aig.tools import ToolFailed

from ..options import Unusable, look_at_words, values_of
from . import needed, simulated, timing, unread
from .checked import ALIVE, CIRCUIT, CONSTRAINTS, CUT, WAYS, Claim, Command, Wrong, expect
from .decisions import Asked, judge
from .row import KINDS, LEFT_OUT, MOST_FRAMES, ORIGINS, UNDECIDED, Row, name_of

__all__ = ["Wrong", "expect"]

MANIFEST = "MANIFEST.json"
SCRIPT_OF_YOSYS = "yosys.ys"
FORMAT = "aig-verdicts 2"
# That of bundles in which the proofs of some row are about less than the whole circuit.
WITH_CUTS = "aig-verdicts 3"
# That of bundles in which nothing shows that some run keeps the constraints.
OLDER = "aig-verdicts 1"
FORMATS = (FORMAT, WITH_CUTS, OLDER)
# What the versions of a bundle say of its formulas. The number goes up where `aig cnf` makes others, which old proofs do
# not fit. Bundles of formulas of the whole circuit do not say it.
FORMULAS = "aig cnf: formulas 2"
# A plain name, or one in a folder.
PLAIN = re.compile(r"[A-Za-z0-9_+-][A-Za-z0-9._+-]*(/[A-Za-z0-9_+-][A-Za-z0-9._+-]*)?")
MOST_LINES = 1 << 31
MOST_DIGITS = 15


# -- writing


def as_json(manifest: Dict[str, Any]) -> bytes:
    return (json.dumps(manifest, indent=1, sort_keys=True, ensure_ascii=True) + "\n").encode()


def rows_as_json(rows: List[Row]) -> List[Dict[str, Any]]:
    """The rows, without their empty parts. The commands are for readers, and nothing runs them."""
    words = results(rows)
    made = []
    for row in rows:
        kept = {key: value for key, value in _parts_of(row).items() if value not in ("", None, [], {})}
        kept = {key: value for key, value in kept.items() if value != 0 or key in ("position", "of")}
        kept["commands"] = [{"makes": CUT, "words": ["aig", *row.cut]}] * bool(row.cut)
        kept["commands"] += [{"prints": line, "words": ["aig", *command]} for line, command in row.commands()]
        if row.needs is not None:
            kept["needs"] = row.needs.facts()
        if row.runs:
            kept["needed"] = needed.as_json(row.runs)
        if row.position in words:
            kept["result"] = words[row.position]
        made.append(kept)
    return made


def format_of(rows: List[Row]) -> str:
    """The format of a bundle of these rows."""
    return WITH_CUTS if any(row.cut for row in rows) else FORMAT


def results(rows: List[Row]) -> Dict[int, str]:
    """The words of each assertion and cover, by position."""
    return {it.row.position: it.words for it in judge(rows, len(rows) - 1)}


def asked_of(manifest: Dict[str, Any]) -> Asked:
    """What was asked of the design."""
    has_conditions = manifest["options"].get("conditions") is not False
    return Asked(int(manifest["bounds"].get("frames", 0)), has_conditions)


def is_of_older_formulas(manifest: Dict[str, Any]) -> bool:
    """Whether proofs of a bundle may be about formulas that `aig` does not make any more."""
    return bool(manifest["versions"].get("formulas") != FORMULAS)


def _parts_of(row: Row) -> Dict[str, Any]:
    """What is written of a row. That there are no constraints is what it claims, as nothing has to show it."""
    parts = {name: getattr(row, name) for name in _TYPES}
    if row.checked is None and row.claim is not None and row.claim.by == "":
        parts.update(verdict=ALIVE, frames=row.claim.frames)
    return parts


# -- reading


def _pairs(pairs: List[Tuple[str, Any]]) -> Dict[str, Any]:
    made = dict(pairs)
    expect(len(made) == len(pairs), "MANIFEST.json has a key twice")
    return made


def _whole_number(digits: str) -> int:
    expect(len(digits) <= MOST_DIGITS, "MANIFEST.json has a huge number")
    return int(digits)


def _number(digits: str) -> float:
    expect(len(digits) <= MOST_DIGITS and "e" not in digits.lower(), "MANIFEST.json has a huge number")
    return float(digits)


def _no_number(text: str) -> float:
    raise Wrong(f"MANIFEST.json has the number {text}")


def parsed(data: bytes) -> Dict[str, Any]:
    """The manifest: JSON that has one meaning, and parts of the right types."""
    try:
        made = json.loads(data.decode("utf-8"), object_pairs_hook=_pairs, parse_int=_whole_number,
                          parse_float=_number, parse_constant=_no_number)
    except ValueError as error:
        raise Wrong(f"MANIFEST.json is no JSON: {error}") from None
    except RecursionError:
        raise Wrong("MANIFEST.json is too deep") from None
    expect(type(made) is dict and made.get("format") in FORMATS, f"MANIFEST.json is not of {FORMAT!r}")
    for name in ("timing", "simulated"):  # an older version did not write them
        made.setdefault(name, {})
    for name in ("translated", "unread"):  # where Yosys read the sources themselves, and all of them
        made.setdefault(name, [])
    expect(set(made) == set(_PARTS), "MANIFEST.json has other parts")
    for name, is_right in _PARTS.items():
        expect(is_right(made[name]), f"{name} of MANIFEST.json")
    expect(bool(made["options"]) == bool(made["sources"]), "options of MANIFEST.json")
    expect(set(made["translated"]) <= set(made["sources"]), "translated of MANIFEST.json")
    expect({it["file"] for it in made["unread"]} <= {"", *made["sources"]}, "unread of MANIFEST.json")
    _names(made)
    manifest: Dict[str, Any] = made
    return manifest


def is_name(value: object) -> bool:
    """Whether it has the form of a name of the sources, perhaps with instances before it: no blank, and nothing that a
    terminal obeys."""
    return type(value) is str and value.isprintable() and re.fullmatch(r"\S+", value) is not None


def _names(made: Dict[str, Any]) -> None:
    """That what is printed of the options has the form of a name, a definition or a value: nothing there is a sentence."""
    options = made["options"]
    expect(not options or is_name(made["name"]), "name of MANIFEST.json")
    for name in ("defines", "free", "parameters", "asserts"):
        expect(_texts(options.get(name, [])), "options of MANIFEST.json")
    try:
        values_of(options.get("parameters", []))
        look_at_words(None, options.get("defines", []))
    except Unusable as error:
        raise Wrong(str(error)) from None
    except ToolFailed:
        raise Wrong("options of MANIFEST.json") from None
    named = [options.get("top") or "top", options.get("module") or "module", *options.get("free", [])]
    expect(all(map(is_name, named)), "options of MANIFEST.json")
    expect(set(options.get("asserts", [])) <= set(made["sources"]), "options of MANIFEST.json")


def _texts(value: Any) -> bool:
    return type(value) is list and all(type(it) is str for it in value)


def _table(value: Any, *kinds: type) -> bool:
    return type(value) is dict and all(type(it) in kinds for it in value.values())


def _sources(value: Any) -> bool:
    """Plain names, each once."""
    if not _texts(value) or len(set(value)) < len(value):
        return False
    return all("/" not in name and PLAIN.fullmatch(name) is not None for name in value)


def _options(value: Any) -> bool:
    """Of a circuit that Yosys made; else empty."""
    return type(value) is dict and all(type(it) in (str, bool) or _texts(it) for it in value.values())


_PARTS: Dict[str, Callable[[Any], bool]] = {
    "format": lambda value: type(value) is str,
    "name": lambda value: type(value) is str,
    "bounds": lambda value: _table(value, int, float),
    "options": _options,
    "sources": _sources,
    "translated": _sources,
    "notes": _texts,
    "versions": lambda value: _table(value, str),
    "sums": lambda value: _table(value, str) and all(PLAIN.fullmatch(it) for it in value),
    "timing": timing.are_facts,
    "simulated": simulated.are_facts,
    "rows": lambda value: type(value) is list,
    "unread": unread.are_facts,
}
_TYPES = {
    "position": int, "kind": str, "name": str, "file": str, "first": int, "last": int, "of": int, "verdict": str,
    "by": str, "frames": int, "files": dict, "notes": list, "origin": str,
}


@dataclass
class Said:
    """A row as MANIFEST.json has it. Nothing of it is believed."""

    position: int = -2
    kind: str = ""
    name: str = ""
    file: str = ""
    first: int = 0
    last: int = 0
    of: Optional[int] = None
    verdict: str = UNDECIDED
    by: str = ""
    frames: int = 0
    files: Dict[str, str] = field(default_factory=dict)
    notes: List[str] = field(default_factory=list)
    origin: str = ""
    needed: List[Claim] = field(default_factory=list)

    @property
    def label(self) -> str:
        return self.kind if self.position == CONSTRAINTS else f"b{self.position}"

    def claim(self) -> Claim:
        return Claim(self.position, self.by, self.frames, tuple(self.files.items()))

    def commands(self) -> List[Command]:
        return self.claim().commands()

    def row(self) -> Row:
        """The row, which has no verdict before its claim is checked."""
        claim = self.claim() if self.by or self.verdict == ALIVE else None
        return Row(self.position, self.kind, self.name, self.file, self.first, self.last, self.of,
                   self.verdict == LEFT_OUT, claim, self.notes, self.origin, needed=self.needed)


def row_of(value: Any) -> Row:
    """The row, if each part of it has its type and each file its one possible name."""
    expect(type(value) is dict, "a row is no object")
    expect(set(value) <= set(_TYPES) | {"commands", "result", "needs", "needed"}, "a row has an unknown part")
    row = Said()
    for key, kind in _TYPES.items():
        if key in value:
            expect(type(value[key]) is kind, f"{key} of a row is no {kind.__name__}")
            setattr(row, key, value[key])
    expect(row.kind in KINDS and row.by in WAYS and row.position >= CONSTRAINTS, "a row of an unknown kind")
    expect((row.position == CONSTRAINTS) == (row.kind == "constraints"), f"kind of {row.label}")
    expect(_texts(row.notes), f"notes of {row.label}")
    expect(row.origin in ("", *ORIGINS), f"origin of {row.label}")
    _numbers(row)
    _files(row)
    _verdict(row)
    row.needed = needed.read(row.position, value.get("needed", []))
    expect("cuts" in row.files or not row.needed, f"needed of {row.label}")
    return row.row()


def _numbers(row: Said) -> None:
    expect(0 <= row.first <= row.last <= MOST_LINES, f"place of {row.label}")
    expect(row.file != "" or row.last == 0, f"place of {row.label}")
    least = 0 if row.by in ("", "certificate") else 1
    most = 0 if row.by == "certificate" or row.by == "" and row.verdict != ALIVE else MOST_FRAMES
    expect(least <= row.frames <= most, f"frames of {row.label}")
    expect((row.of is not None) == (row.kind == "condition"), f"{row.label} is of no row")


def _files(row: Said) -> None:
    shown = WAYS[row.by]
    expect(set(shown.needed) <= set(row.files) <= {*shown.needed, *shown.possible}, f"files of {row.label}")
    for role, name in row.files.items():
        possible = [name_of(row.position, role, has_hints) for has_hints in (False, True)]
        expect(type(name) is str and name in possible, f"file {name!r} of {row.label}")
    expect("shorter" not in row.files or row.frames > 1, f"files of {row.label}")


def _verdict(row: Said) -> None:
    lines = [line for line, _ in row.commands()]
    if row.kind == "constraints":
        expect(row.by in ("", "alive", "kept") and not row.name, f"kind of {row.label}")
        expect(row.verdict in (lines[:1] or [ALIVE, UNDECIDED]), f"verdict of {row.label}")
    else:
        expect(row.by not in ("alive", "kept"), f"kind of {row.label}")
        expect(row.verdict in (lines[:1] or [UNDECIDED, LEFT_OUT]), f"verdict of {row.label}")


def check_results(manifest: Dict[str, Any], rows: List[Row]) -> None:
    """That the words of the table in the manifest, and what rows need, are those of its rows, which are checked."""
    words = results(rows)
    for value, row in zip(manifest["rows"], rows):
        expect(value.get("result") == words.get(row.position), f"result of {row.label}")
        needs = row.needs.facts() if row.needs is not None else None
        expect(value.get("needs") == needs, f"needs of {row.label}")


def files_of(manifest: Dict[str, Any], rows: List[Row]) -> List[str]:
    """The files that a bundle has to have, in a fixed order."""
    claims = [claim for row in rows for claim in [row.claim, *row.needed] if claim is not None]
    named = [name for claim in claims for name in claim.files.values()]
    sources = [f"sources/{name}" for name in manifest["sources"]]
    sources += [f"translated/{name}" for name in manifest["translated"]]
    return [CIRCUIT, *named, *sources, *[SCRIPT_OF_YOSYS] * bool(sources)]
