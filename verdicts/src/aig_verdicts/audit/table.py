"""The table: what all rows of a circuit mean together, and what of the input has no verdict. Its text, JUnit, JSON, counts,
exit status and last lines are made here, and nowhere else. Who audits a `recheck` reads this file, too."""

from __future__ import annotations

import re
import shlex
from pathlib import Path
from typing import TYPE_CHECKING, Any, Collection, Dict, Iterable, Iterator, List, NamedTuple, Optional, Sequence, Tuple

from . import sentences
from .checked import CIRCUIT
from .cycles import cycles_of
from .decisions import OPEN, UNREAD, Asked, Judged, judge
from .row import Row
from .sentences import DISAGREES, IN_DOUBT, NOT_COMPARED, NOT_LOOKED_AT, of_needs
from aig.letters import escape, visible
from .unread import Unread, of_circuit, properties_of

if TYPE_CHECKING:
    from .simulated import Simulated

# The widest column; a longer name moves the rest of its own line alone.
MOST_WIDE = 120
# The column of needs.
NEEDS = 6
# Of a property without a verdict: it is no row of the circuit.
NO_POSITION = -2
# A note is printed with the names of so many of its rows.
MOST_NAMED = 3
_NO_XML = re.compile("[^\t\n\x20-\ud7ff\ue000-\ufffd\U00010000-\U0010ffff]")


class Table:
    """The assertions and covers of a circuit, judged beside all other rows of it, and the properties of the input without a
    verdict. `of` makes it whole; `only` then chooses rows of it."""

    def __init__(self, judged: Sequence[Judged], unread: Sequence[Unread] = ()):
        self.judged, self.unread = list(judged), list(unread)

    @classmethod
    def of(cls, rows: Sequence[Row], circuit: bytes, asked: Asked, unread: Sequence[Unread] = (),
           simulated: Optional[Simulated] = None) -> Table:
        """The table of all rows of this circuit, and of these properties of its sources that have no row. The circuit says how
        many rows there are, and which of its properties nobody looks at."""
        has_runs = any(row.by == "run" for row in rows)
        moments = [cycles_of(circuit).at] if has_runs else []
        judged = judge(rows, properties_of(circuit), asked, *moments)
        return cls(simulated.beside(judged) if simulated is not None else judged, [*of_circuit(circuit), *unread])

    def only(self, positions: Optional[Collection[int]]) -> Table:
        """The rows at these positions, as they were judged beside all others; the whole table, if none are chosen."""
        return self if positions is None else Table([it for it in self.judged if it.row.position in positions])

    def __iter__(self) -> Iterator[Judged]:
        return iter(self.judged)

    # -- what all rows mean together

    @property
    def status(self) -> int:
        """0 if all hold, all covers are reached and nothing was left unread, 5 if one fails or is never reached, else 4: also
        if there is no row."""
        is_open = not self.judged or bool(self.unread)
        return max([OPEN] * is_open + [it.status for it in self.judged])

    @property
    def summary(self) -> str:
        """One sentence: how many rows have each result."""
        parts = []
        for kind, (noun, words) in sentences.COUNTED.items():
            found = [it.result for it in self.judged if it.row.kind == kind]
            if found:
                counts = [f"{found.count(result)} {word}" for result, word in words.items() if result in found]
                parts.append(f"{sentences.counted(len(found), noun)}: {', '.join(counts)}")
        doubted = sum(bool(it.doubt) for it in self.judged)
        parts += [f"{doubted} {IN_DOUBT}"] * bool(doubted) + [f"{len(self.unread)} {NOT_LOOKED_AT}"] * bool(self.unread)
        return "; ".join(parts)

    @property
    def checked(self) -> str:
        """How many verdicts `aig` checked: a row without a verdict has nothing to check."""
        done, count = sum(it.row.checked is not None for it in self.judged), len(self.judged) + len(self.unread)
        return "all checked by aig" if done == count > 0 else f"{done} of {count} checked by aig"

    @property
    def doubts(self) -> List[str]:
        """What rows are in doubt of, each once, with their names, and each property without a verdict."""
        found = _by_names((it.row.name, it.doubt) for it in self.judged if it.doubt)
        return [f"{names}: {IN_DOUBT}: {doubt}" for doubt, names in found.items()] + [it.said for it in self.unread]

    # -- what is written

    def text(self) -> str:
        """The table, and a line for each property without a verdict. A column of needs is there if some row has one."""
        shown = [[plain(cell) for cell in cells(it)] for it in self.judged]
        rows = shown if any(row[NEEDS] for row in shown) else [row[:NEEDS] + row[NEEDS + 1 :] for row in shown]
        widths = [min(max(map(len, column)), MOST_WIDE) for column in zip(*rows)]
        lines = ["  ".join(cell.ljust(width) for cell, width in zip(row, widths)).rstrip() for row in rows]
        lines += [f"-   {plain(it.said)}" for it in self.unread]
        return "".join(f"{line}\n" for line in lines)

    def junit(self, name: str, seconds: Dict[int, float]) -> str:
        """A failing, vacuous or never reached row is a failure; one that is in doubt, known for some frames alone or left out
        is skipped; one that is undecided or was not looked at is an error."""
        cases = [_case(name, it, seconds.get(it.row.position, 0.0)) for it in self.judged]
        return suite(name, [*cases, *(_case_of_unread(name, it) for it in self.unread)], seconds)

    def json(self, manifest: Dict[str, Any]) -> Dict[str, Any]:
        """A manifest whose rows say of what they are in doubt, and the exit status."""
        doubts = {it.row.position: "; ".join(filter(None, (it.doubt, it.denied))) for it in self.judged}
        rows = [{**row, "doubt": doubts[row["position"]]} if doubts.get(row["position"]) else row for row in manifest["rows"]]
        return {**manifest, "rows": rows, "unread": [it.facts() for it in self.unread], "status": self.status}

    def line_of_recheck(self, of_sources: str, are_own: bool) -> str:
        """The last line of `recheck`."""
        own = "; the sources are your files" if are_own else ""
        return f"{self.summary}; {self.checked}{of_sources}{own}"

    def line_of_run(self, has_sources: bool, said: Simulated) -> str:
        """The last line of `run`, without the page."""
        return self.summary + (f"; {_inside(said.silence)}" if has_sources and said.agrees is None else "")


def compared(has_sources: bool, made: str, said: Simulated) -> str:
    """What the last line of `recheck` says of the sources, where `made` is what Yosys makes of them, if it was asked."""
    if not has_sources:
        return ""
    yosys = f", and {made}" if made else ""
    if not said.by:
        return yosys or f"; {_inside(NOT_COMPARED)}"
    if said.agrees is False or DISAGREES in (it.word for it in said.rows.values()):
        return f"{yosys}; ALARM: {said.by} disagrees, so the circuit may not be that of the sources"
    means = "which is no proof" if said.as_in else "so nothing is said of the sources"
    return f"{yosys}; {said.circuit}, {means}"


def _inside(sentence: str) -> str:
    """A sentence that goes on another one."""
    return sentence[0].lower() + sentence[1:]


def plain(text: str) -> str:
    """Text that no terminal obeys."""
    if text.isascii() and text.isprintable():
        return text
    is_seen = (letter.isprintable() and visible(letter) == letter for letter in text)
    return "".join(letter if seen else "\\x%02x" % ord(letter) for letter, seen in zip(text, is_seen))


def cells(it: Judged) -> List[str]:
    """The columns: position, place, kind, name, verdict, what it was found by, what that needs, files."""
    row = it.row
    place = f"{row.file}:{row.last}" if row.file else ""
    denial = it.simulated if it.result == DISAGREES else it.denied
    origin = f"by the {row.origin}" if row.origin else ""
    shown = "; ".join(part for part in (it.by or it.why, it.doubt, denial) if part)
    shown = ", ".join(part for part in (shown, origin) if part)
    needs = f"needs {of_needs(it.needs)}" if it.needs is not None else ""
    return [row.label, place, row.kind, row.name, it.words, shown, needs, " ".join(_showing(row))]


def _showing(row: Row) -> List[str]:
    """The files that show a verdict. The values that a run does not need show nothing more."""
    return [name for role, name in row.files.items() if role != "concrete"]


def open_notes(table: Iterable[Judged]) -> List[str]:
    """The notes of rows that are not good, each once, with the names of its rows."""
    found = _by_names((it.row.name, note) for it in table if it.status for note in it.row.notes)
    return [f"{names}: {note}" for note, names in found.items()]


def _by_names(said: Iterable[Tuple[str, str]]) -> Dict[str, str]:
    """Of each thing that is said of names, once, these names: the first ones of many."""
    names: Dict[str, List[str]] = {}
    for name, what in said:
        names.setdefault(what, []).append(name)
    return {what: ", ".join(of[:MOST_NAMED]) + f" and {len(of) - MOST_NAMED} more" * (len(of) > MOST_NAMED)
            for what, of in names.items()}


def next_command(table: Iterable[Judged], folder: Path) -> str:
    """What shows the first run that fails, at a prompt; nothing if none fails."""
    row = next((it.row for it in table if it.row.by == "run" and it.result in ("fails", DISAGREES)), None)
    if row is None:
        return ""
    words = ("aig", "shell", "--witness", str(folder / CIRCUIT), str(folder / row.files["witness"]))
    return f"the run of {row.label}: {' '.join(map(shlex.quote, words))}"


class Case(NamedTuple):
    """A row as JUnit has it.

    tag     what a CI server takes it for: an element of JUnit, or nothing if it passes
    words   the verdict
    detail  what shows it
    """

    row: Row
    tag: str
    words: str
    detail: str
    seconds: float


def suite(name: str, cases: Sequence[Tuple[str, str]], seconds: Dict[int, float]) -> str:
    """The cases with their counts, as one file."""
    counts = {tag: sum(found == tag for found, _ in cases) for tag in ("failure", "error", "skipped")}
    heading = (f'tests="{len(cases)}" failures="{counts["failure"]}" errors="{counts["error"]}" '
               f'skipped="{counts["skipped"]}" time="{sum(seconds.values()):.1f}"')
    body = "".join(case for _, case in cases)
    return (f'<?xml version="1.0" encoding="UTF-8"?>\n<testsuites><testsuite name="{_xml(name)}" {heading}>\n{body}'
            "</testsuite></testsuites>\n")


def _case(name: str, it: Judged, seconds: float) -> Tuple[str, str]:
    row = it.row
    needs = f"needs {of_needs(it.needs)}" if it.needs is not None else ""
    parts = [it.by, needs, it.why, it.doubt, it.denied, it.simulated, *row.notes, *_showing(row)]
    said = f"{it.words}: {it.doubt}" if it.doubt and it.junit == "skipped" else it.words
    return element(name, Case(row, it.junit, said, "\n".join(part for part in parts if part), seconds))


def _case_of_unread(name: str, it: Unread) -> Tuple[str, str]:
    row = Row(NO_POSITION, "property", it.place, it.file, it.line, it.line)
    return element(name, Case(row, UNREAD.junit, it.said, it.said, 0.0))


def element(name: str, it: Case) -> Tuple[str, str]:
    """What a CI server takes the row for, and its element."""
    row, tag, detail, seconds = it.row, it.tag, it.detail, it.seconds
    attributes = f'classname="{_xml(name)}.{row.kind}" name="{_xml(row.name)}" time="{seconds:.1f}"'
    if row.file:
        attributes += f' file="{_xml(row.file)}" line="{row.last}"'
    if tag:
        inner = f'<{tag} message="{_xml(it.words)}">{_xml(detail)}</{tag}>'
    else:
        inner = f"<system-out>{_xml(detail)}</system-out>"
    return tag, f"  <testcase {attributes}>{inner}</testcase>\n"


def _xml(words: str) -> str:
    return _NO_XML.sub("?", "\n".join(map(escape, words.split("\n"))))
