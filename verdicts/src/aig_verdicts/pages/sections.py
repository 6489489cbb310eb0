"""The parts of a page that are about one assertion or cover."""

from __future__ import annotations

import re
from typing import Callable, Dict, Hashable, List, NamedTuple, Optional, Sequence

import aig

from . import needs as needs_page
from ..audit.checked import CUT
from ..audit.decisions import MEANINGS, Judged
from aig.waves.explained import Line
from ..audit.row import Row
from aig.waves.runs import Story, Told, story
from ..audit.sentences import Remark, counted, fact, how, mark
from aig.letters import escape, marked
from aig.waves.svg import MOST_COLUMNS, Scene, parts, sheets, shortened

# Pictures have so many bytes of a page, and none is made of a run with more letters. The lines of `why` below those
# that are seen at once are so many, and have so many causes.
MOST_PICTURES, MOST_LETTERS = 1_500_000, 50_000_000
# Of a long run a paper has all frames if these and its lanes make so many values.
MOST_PRINTED = 4000
MOST_LINES, SEEN_LINES, MOST_CAUSES = 200, 8, 100
# Bits of a value that a line does not give, too many to show.
_LONG = re.compile(r"\?{9,}")
# The bytes of a source that is shown, the letters of a line, the lines of an assertion, and the letters of all of them.
MOST_SOURCE, MOST_LINE, MOST_TEXT, MOST_SNIPPETS = 1 << 26, 1000, 200, 10_000_000


def size(count: int) -> str:
    """A number of bytes, short."""
    if count < 1000:
        return f"{count} B"
    return f"{count / 1000:.1f} kB" if count < 10**6 else f"{count / 10**6:.1f} MB"


def paragraph(remark: Remark) -> str:
    head = f"<b>{remark.head}:</b> " if remark.head else ""
    return f"<p{' class=warn' * remark.is_warning}>{head}{escape(remark.text)}.</p>"


def verdict(it: Judged, more: str = "") -> str:
    said = f"{it.words} {more}" if more else it.words
    return f'<span class="v {it.look}"><i aria-hidden="true">{MEANINGS[it.result].mark}</i>{escape(said)}</span>'


def anchor(row: Row) -> str:
    """The place of a row on the page: no name is in it."""
    return f"b{row.position}"


def place(row: Row) -> str:
    """The file and the line, where the name does not say them."""
    found = f"{row.file}:{row.last}" if row.file else ""
    return "" if found == row.name else found


class Sources:
    """The sources of the design, as lines."""

    def __init__(self, read: Callable[[str], bytes]):
        self._read = read
        self._lines: Dict[str, List[str]] = {}
        self._room = MOST_SNIPPETS

    def lines(self, name: str) -> List[str]:
        if name and name not in self._lines:
            try:
                text = self._read(f"sources/{name}")
                lines = text.decode("utf-8", "replace").split("\n") if len(text) <= MOST_SOURCE else []
                self._lines[name] = [line[:MOST_LINE] for line in lines]
            except Exception:  # a page without sources is better than none
                self._lines[name] = []
        return self._lines.get(name, [])

    def text(self, row: Row) -> str:
        """The lines of the assertion. Yosys' first line may be that of the text before it."""
        lines = self.lines(row.file)
        if not 1 <= row.first <= row.last <= len(lines):
            return ""
        first, least = row.last, max(row.first, row.last - MOST_TEXT)
        while first > least and not re.search(r"\b(assert|cover)\b", lines[first - 1]):
            first -= 1
        return "\n".join(lines[first - 1 : row.last])

    def snippet(self, row: Row, around: int = 2) -> str:
        """The lines of the assertion, marked, and those around it."""
        lines, text = self.lines(row.file), self.text(row)
        if not text or self._room <= 0:
            return ""
        hit = row.last - text.count("\n")
        first, last = max(1, hit - around), min(len(lines), row.last + around)
        wide = len(str(last))
        out = []
        for number in range(first, last + 1):
            css, mark = (' class="hit"', "▸") if hit <= number <= row.last else ("", " ")
            line = escape(lines[number - 1].rstrip("\r")[:200].expandtabs(4)) or " "
            out.append(f"<span{css}><s>{mark}{number:>{wide}}  </s>{line}</span>")
        self._room -= sum(map(len, out))
        return f'<pre class="src" aria-label="source">{"".join(out)}</pre>'


class Drawn(NamedTuple):
    """The picture of a run with its lines of `why`, and how much of a page's room it takes."""

    html: str
    room: int


# Pictures by what they are of, for the next page of the same circuit: while a search goes on, its page is written
# often.
Pictures = Dict[Hashable, Drawn]


class Sections:
    """Makes the section of each row. Pictures that are there already are not drawn again."""

    def __init__(self, circuit: aig.Circuit, sources: Sources, read: Callable[[str], bytes],
                 pictures: Optional[Pictures] = None):
        self._told, self._sources, self._read = Told(circuit), sources, read
        self._pictures: Pictures = {} if pictures is None else pictures
        self._constrained = bool(circuit.info()["constraints"])
        self._room = MOST_PICTURES

    def section(self, it: Judged) -> str:
        row = it.row
        found = [
            f'<header><h3 class=name>{escape(row.name)}</h3>{verdict(it, it.at)}<span class=sub>{escape(row.kind)} '
            f'<code>b{row.position}</code></span><span class="sub name">{escape(place(row))}</span></header>',
            self._sources.snippet(row),
        ]
        found += map(paragraph, it.remarks)
        if row.by == "run":
            found.append(f"{self._picture(it)}<p>{marked(it.statement(self._constrained))}</p>")
        elif row.by:
            found.append(f"<p>{marked(it.statement(self._constrained))}</p><p>{marked(how(row, self._sizes(row)))}</p>")
        found.append(needs_page.of_row(it.needs) if it.needs is not None else "")
        if row.origin:
            found.append(f"<p class=sub>Found by an {escape(row.origin)}, which <code>aig</code> checked here.</p>")
        if row.notes:
            found.append(f"<p>Notes: {'; '.join(escape(note) for note in row.notes)}.</p>")
        if row.by == "run":
            found.append(f"<details><summary>Open it</summary>{_openers(row)}</details>")
        again = _commands(row) + (_commands(it.proof) if it.proof else "")
        if again:
            found.append(f"<details><summary>Check it again</summary>{again}</details>")
        return f'<section id="{anchor(row)}" class="{it.look}">{"".join(found)}</section>'

    # -- a run

    def _picture(self, it: Judged) -> str:
        row = it.row
        file = escape(row.files["witness"])
        letters = row.frames * len(self._told.circuit.entries)
        if self._room > 0 and letters <= MOST_LETTERS:
            key = (row.label, row.name, row.kind, self._sources.text(row), self._read(row.files["witness"]),
                   self._concrete(row))
            drawn = self._pictures.get(key) or self._drawn(it, file, letters)
            if drawn is not None:
                self._pictures[key] = drawn
                self._room -= drawn.room
                return drawn.html
        return ("<p>The page has no picture of this run: "
                f"<code>aig wave --witness circuit.aig {file}</code> makes a waveform, and "
                f"<code>aig why --witness circuit.aig {file}</code> says why.</p>")

    def _drawn(self, it: Judged, file: str, letters: int) -> Optional[Drawn]:
        row = it.row
        told = self._story(row)
        if told is None:
            return None
        frame = told.run.frames - 1 if it.moment is None else it.moment.number
        scene = Scene(told.lanes, frame, f"run of {counted(row.frames, 'frame')} to {row.name}", mark(row))
        why = because(it, told.why)
        more = ""
        if told.left:
            more = (f"<p class=sub>{counted(told.left, 'more signal')}: "
                    f"<code>aig why --witness circuit.aig {file}</code></p>")
        found = (f'<div class="two"><div>{_waves(scene, told.run.frames, file)}{more}</div>'
                 f"<div><p><b>Why</b>, from the last frame back:</p>{_why(why)}</div></div>")
        return Drawn(found, len(found) + letters // 1000 + sum(map(len, why)) // 100)

    def _story(self, row: Row) -> Optional[Story]:
        try:
            return story(self._told, self._read(row.files["witness"]), self._sources.text(row), self._concrete(row))
        except (aig.OutOfMemory, aig.Crashed):
            self._room -= MOST_PICTURES // 4  # it took a while
            return None

    def _concrete(self, row: Row) -> Optional[bytes]:
        """The solver's values of a run, if the folder has them."""
        return self._read(row.files["concrete"]) if "concrete" in row.files else None

    # -- a proof

    def _sizes(self, row: Row) -> Dict[str, str]:
        """How large each file of a proof is. Of a certificate, how many parts it has."""
        return {role: self._parts(self._read(name)) if role == "certificate" else size(len(self._read(name)))
                for role, name in row.files.items()}

    def _parts(self, certificate: bytes) -> str:
        facts = aig.Circuit(certificate).info()
        return (f"{counted(facts['bad'], 'claim')} over {counted(facts['inputs'], 'latch')} "
                f"({counted(facts['gates'], 'gate')})")


def _waves(scene: Scene, frames: int, file: str) -> str:
    """The picture of a run. Of a long one a screen has the first frames and the last ones, and a paper all."""
    names, waves = parts(scene.lanes, frames, *scene[1:])
    wave = f'{names}<div class="scroll">{waves}</div>'
    if frames <= MOST_COLUMNS:
        return f'<div class="wave">{wave}</div>'
    dump = f"<code>aig wave --witness circuit.aig {file}</code> has all frames"
    if frames * len(scene.lanes) > MOST_PRINTED:
        return f'<div class="wave">{wave}</div><p class=sub>{dump}.</p>'
    return (f'<div class="wave screen">{wave}</div><p class="sub screen">{dump}, and so has a print of this page.</p>'
            f'<div class="paper">{"".join(sheets(scene, frames))}</div>')


def because(it: Judged, lines: Sequence[Line]) -> List[str]:
    """The lines of `why`. The first one says which way: that a property is 1 means that its assertion fails."""
    asked = [line for line in lines[:1] if line.is_asked]
    causes = asked[0].because if asked else " ".join(map(str, lines[0].kept))
    return [f"{fact(it.row, it.moment)}: {causes}", *(line.text for line in lines[len(asked):])]


def _why(lines: Sequence[str]) -> str:
    """The lines of `why`: the first ones, and the others folded."""
    rest = lines[SEEN_LINES:MOST_LINES]
    found = _lines(lines[:SEEN_LINES])
    if rest:
        back = "back to frame 0" if len(lines) <= MOST_LINES else f"of {len(lines) - SEEN_LINES}"
        more = f"<summary>{counted(len(rest), 'more line')}, {back}</summary>"
        found += f"<details class=rest>{more}{_lines(rest)}</details>"
    return found


def _lines(lines: Sequence[str]) -> str:
    def words(line: str) -> str:
        named = _LONG.sub("?…?", line).split(" ")
        left = [f"… {len(named) - MOST_CAUSES} more"] if len(named) > MOST_CAUSES else []
        return " ".join(f"<i>{escape(shortened(word, MOST_LINE))}</i>" for word in named[:MOST_CAUSES] + left)

    return f'<pre class="why">{"".join(f"<span>{words(line)}</span>" for line in lines)}</pre>'


def _openers(row: Row) -> str:
    """The commands that show a run: as a dump for a waveform viewer, and at a prompt."""
    file, dump = row.files["witness"], f"{row.position}.vcd"
    lines = [f"$ aig shell --witness circuit.aig {file}", f"$ aig wave --witness circuit.aig {file} > {dump}"]
    if "concrete" in row.files:
        valued = row.files["concrete"]
        lines.append(f"$ aig wave --witness circuit.aig {valued} > {dump}  # with the solver's values for x")
    return f"<pre>{chr(10).join(map(escape, lines))}</pre>"


def _commands(row: Row) -> str:
    """The commands that check a row and its runs without a piece, each with the line that it prints."""
    lines: List[str] = []
    for claim in [it.claim for it in [row.checked, *row.runs] if it is not None]:
        lines += [f"$ aig {' '.join(claim.cut)} > {CUT}"] * bool(claim.cut)
        lines += [text for line, words in claim.commands() for text in (f"$ aig {' '.join(words)}", line)]
    return f"<pre>{chr(10).join(map(escape, lines))}</pre>" if lines else ""
