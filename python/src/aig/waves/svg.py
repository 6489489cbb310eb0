"""Waveforms as SVG. Tested, not proved: the values are those that `aig` printed, the picture is Python's.

All names are text of others: each goes through `escape`."""

from __future__ import annotations

import enum
import hashlib
from dataclasses import dataclass, field
from itertools import groupby
from typing import FrozenSet, Iterator, List, NamedTuple, Optional, Sequence, Tuple

from ..letters import escape, quoted, visible

# The least width of a frame, the height of a lane and the gap below it, the width of a letter, what is above and below.
CELL, LANE, GAP, LETTER, TOP, BOTTOM = 30, 22, 8, 7.3, 26, 20
# The columns of a picture on a screen, how many of them are the first frames of a longer run, and the width of a paper.
MOST_COLUMNS, FIRST_COLUMNS, PAPER = 40, 8, 660
# How many bits of a value its title shows, and how many letters of a name.
MOST_BITS, MOST_NAME = 1024, 200
STYLE = """\
.w{font:12px ui-monospace,"DejaVu Sans Mono",Menlo,Consolas,monospace;color:var(--ink);--paper:#fff;--ink:#1b1f24;
--pale:#6e7781;--grid:#e4e7eb;--band:#fde8e6;--edge:#b42318;--fill:#f4f6f8;--key:#0b57d0}
@media screen and (prefers-color-scheme:dark){
.w{--paper:#14171b;--ink:#e6e8eb;--pale:#9aa4ae;--grid:#30363d;--band:#4a1f1c;--edge:#ff8a80;
--fill:#22272e;--key:#8ab4f8}}
@media print{.w{--paper:#fff;--ink:#000;--pale:#666;--grid:#ddd;--band:#eee;--edge:#000;--fill:#fff;--key:#000}}
.w text{fill:var(--ink)}.w .n{fill:var(--pale);font-size:11px}.w .g{stroke:var(--grid)}.w .p{fill:var(--paper)}
.w .l{stroke:var(--pale);stroke-width:1.2;fill:none}.w .k{stroke:var(--key);stroke-width:2.8;fill:none}
.w .b{fill:var(--fill);stroke:var(--pale);stroke-width:1.1}.w .b.k{stroke:var(--key);stroke-width:2.4}
.w .pale{fill:var(--pale)}.w .v{font-weight:bold}.w .band{fill:var(--band)}
.w .edge{stroke:var(--edge);stroke-width:1.6;stroke-dasharray:4 2;fill:none}
.w .mark{fill:var(--edge);font-weight:bold}.w .h{stroke:var(--pale);stroke-width:1}
.w .xb{stroke:var(--pale);stroke-width:.8}.w .xb.k{stroke:var(--key);stroke-width:2.4}.w .s{font-weight:bold}
.w .f{fill:var(--pale);font-style:italic;font-weight:normal;stroke:var(--paper);stroke-width:3px;paint-order:stroke}
"""


@dataclass(frozen=True)
class Lane:
    """A signal: its name, and a text of bits per frame, the most significant first, each 0, 1 or x.

    keys    frames whose value is a cause
    strong  whether the name stands out
    filled  the values of a run that has one for each x of this one, or nothing
    """

    name: str
    values: Sequence[str]
    keys: FrozenSet[int] = field(default_factory=frozenset)
    strong: bool = False
    filled: Sequence[str] = ()


class Scene(NamedTuple):
    """What pictures are of: lanes, the frame that is marked, a title, and what happens in that frame."""

    lanes: Sequence[Lane]
    failing: Optional[int]
    title: str
    mark: str


class Columns(NamedTuple):
    """The frames of a picture, None for those that are left out, and the width of each."""

    frames: Sequence[Optional[int]]
    cell: int


class Kind(enum.Enum):
    """What a picture holds beside its waves: its names and its style, nothing, or its names."""

    ALONE = "alone"
    WAVES = "waves"
    SHEET = "sheet"


def hexadecimal(bits: str) -> str:
    """As hex digits; a digit with an x in it is x, and all x is nothing."""
    if set(bits) == {"x"}:
        return ""
    padded = "0" * (-len(bits) % 4) + bits
    digits = [padded[at : at + 4] for at in range(0, len(padded), 4)]
    return "".join("x" if "x" in digit else f"{int(digit, 2):x}" for digit in digits)


class Digits(NamedTuple):
    """Hex digits next to each other, and whether each has an x in it."""

    text: str
    are_free: bool


def digits(bits: str, filled: str) -> List[Digits]:
    """The hex digits of a value. One that has an x is that of the other value, where there is one."""
    known = hexadecimal(bits) or "x" * -(-len(bits) // 4)
    if not filled:
        return [Digits(hexadecimal(bits), False)]
    pairs = zip(hexadecimal(filled), known)
    return [Digits("".join(digit for digit, _ in group), are_free)
            for are_free, group in groupby(pairs, lambda pair: pair[1] == "x")]


def shortened(name: str, most: int = 26) -> str:
    """The name, with its middle left out if it is too long."""
    return name if len(name) <= most else f"{name[: most // 2 - 1]}…{name[-(most - most // 2):]}"


def columns(frames: int, most: int = MOST_COLUMNS) -> List[Optional[int]]:
    """The frames to show, None for those that are left out: the first ones, and the last ones."""
    if frames <= most:
        return list(range(frames))
    return [*range(FIRST_COLUMNS), None, *range(frames - most + FIRST_COLUMNS + 1, frames)]


def waveform(lanes: Sequence[Lane], frames: int, failing: Optional[int] = None, title: str = "",
             mark: str = "fails") -> str:
    """The picture of a run. The frames are the ticks of the clock; a hatched box is x, any value."""
    return _Picture(Scene(lanes, failing, title, mark), _shown(lanes, columns(frames)), Kind.ALONE).svg()


def parts(lanes: Sequence[Lane], frames: int, failing: Optional[int] = None, title: str = "",
          mark: str = "fails") -> Tuple[str, str]:
    """The names and the waves as two pictures, for a page where the names stay while the waves scroll."""
    picture = _Picture(Scene(lanes, failing, title, mark), _shown(lanes, columns(frames)), Kind.WAVES)
    return picture.names_alone(), picture.svg()


def sheets(scene: Scene, frames: int) -> Iterator[str]:
    """Pictures of all frames of a run for a paper, each with so many frames as it is wide."""
    cell = _shown(scene.lanes, range(frames)).cell
    count = max(1, (PAPER - _room(scene.lanes)) // cell)
    for first in range(0, frames, count):
        yield _Picture(scene, Columns(range(first, min(first + count, frames)), cell), Kind.SHEET).svg()


def _room(lanes: Sequence[Lane]) -> int:
    """The width of the names."""
    return int(max([len(shortened(visible(lane.name))) for lane in lanes] + [5]) * LETTER) + 14


def _shown(lanes: Sequence[Lane], frames: Sequence[Optional[int]]) -> Columns:
    """These frames, as wide as their values need."""
    wide = max((len(hexadecimal(value)) for lane in lanes for frame in frames if frame is not None
                for value in (lane.values[frame], *lane.filled[frame : frame + 1]) if len(value) > 1), default=0)
    return Columns(frames, max(CELL, min(84, int(wide * LETTER + 14))))


def _opened(width: int, height: int, more: str) -> str:
    return (f'<svg xmlns="http://www.w3.org/2000/svg" class="w" {more} width="{width}" height="{height}" '
            f'viewBox="0 0 {width} {height}">')


class _Picture:
    """A picture of lanes."""

    def __init__(self, scene: Scene, shown: Columns, kind: Kind):
        self.scene, self.lanes, self.kind = scene, scene.lanes, kind
        self.shown, self.cell = shown
        is_seen = scene.failing is not None and scene.failing in self.shown
        self.failing = list(self.shown).index(scene.failing) if is_seen else None
        self.room = _room(self.lanes)
        self.left = 0 if kind is Kind.WAVES else self.room
        self.width = max(self.left + self.cell * len(self.shown) + 6, self.left + 74)
        self.height = TOP + len(self.lanes) * (LANE + GAP) + BOTTOM
        # Each picture of a page has a pattern of its own: the pattern of a hidden picture is not drawn.
        said = repr((tuple(scene), list(self.shown), kind)).encode("utf-8", "replace")
        self.ident = "x" + hashlib.sha256(said).hexdigest()[:12]

    def x(self, column: int) -> int:
        return self.left + column * self.cell

    def svg(self) -> str:
        return "".join(self._elements())

    def _elements(self) -> Iterator[str]:
        yield _opened(self.width, self.height, 'role="img"')
        yield f"<title>{escape(shortened(self.scene.title, MOST_NAME))}</title>"
        if self.kind is Kind.ALONE:
            yield f'<style>{STYLE}</style><rect class="p" width="{self.width}" height="{self.height}"/>'
        yield (f'<defs><pattern id="{self.ident}" width="6" height="6" patternUnits="userSpaceOnUse" '
               'patternTransform="rotate(45)"><line class="h" x1="0" y1="0" x2="0" y2="6"/></pattern></defs>')
        yield self._frame("band")
        yield from self._grid()
        if self.kind is not Kind.WAVES:
            yield from self._names()
        for number, lane in enumerate(self.lanes):
            yield from self._lane(lane, TOP + number * (LANE + GAP))
        yield self._frame("edge")
        yield from self._mark()
        yield "</svg>"

    def names_alone(self) -> str:
        return "".join([_opened(self.room, self.height, 'aria-hidden="true"'), *self._names(), "</svg>"])

    def _names(self) -> Iterator[str]:
        end = f'x="{self.room - 8}" text-anchor="end"'
        yield f'<text class="n" {end} y="{TOP - 13}">frame</text>'
        for number, lane in enumerate(self.lanes):
            strong = ' class="s"' if lane.strong else ""
            y = TOP + number * (LANE + GAP) + LANE - 6
            short = quoted(shortened(visible(lane.name)))
            known = escape(shortened(lane.name, MOST_NAME))
            yield f'<text{strong} {end} y="{y}"><title>{known}</title>{short}</text>'

    def _frame(self, kind: str) -> str:
        """The box around the failing frame."""
        if self.failing is None:
            return ""
        return (f'<rect class="{kind}" x="{self.x(self.failing)}" y="{TOP - 8}" width="{self.cell}" '
                f'height="{self.height - TOP - 8}"/>')

    def _grid(self) -> Iterator[str]:
        for column, frame in enumerate(self.shown):
            x = self.x(column)
            yield f'<line class="g" x1="{x}" y1="{TOP - 8}" x2="{x}" y2="{self.height - 16}"/>'
            label = "⋯" if frame is None else str(frame)
            yield f'<text class="n" x="{x + self.cell / 2:g}" y="{TOP - 13}" text-anchor="middle">{label}</text>'

    def _mark(self) -> Iterator[str]:
        if self.failing is not None:
            anchor, x = ("end", self.x(self.failing + 1)) if self.failing > 1 else ("start", self.x(self.failing))
            yield (f'<text class="mark" x="{x}" y="{self.height - 3}" text-anchor="{anchor}">'
                   f"▲ {escape(self.scene.mark)}</text>")

    def _lane(self, lane: Lane, y: int) -> Iterator[str]:
        before: Optional[Tuple[int, str]] = None
        edges = () if self.failing is None else (self.failing, self.failing + 1)
        for begin, end, value, filled, key in _spans(lane, self.shown, edges):
            box = Box(self.x(begin), self.x(end), y, key)
            if set(value) == {"x"}:
                yield self._unknown(box, len(value))
            elif len(value) == 1:
                turns = before is not None and before[0] == begin and before[1] not in ("x", value)
                yield _level(box, value, turns)
            else:
                yield _vector(box, value)
            if len(value) > 1 or filled:
                yield _number_of(box, digits(value, filled))
            before = end, value

    def _unknown(self, box: Box, bits: int) -> str:
        x, width = box.x + 1, box.to - box.x - 2
        return (f'<rect class="xb{" k" if box.key else ""}" x="{x}" y="{box.y + 2}" width="{width}" '
                f'height="{LANE - 4}" fill="url(#{self.ident})"><title>{_start("x" * bits)}: any value</title></rect>')


def _spans(lane: Lane, shown: Sequence[Optional[int]], edges: Sequence[int]) -> List[Tuple[int, int, str, str, bool]]:
    """Columns from and to with the same value and the same filled one, and whether it is a cause. Frames that are left
    out begin a new one, and so do edges in what is all x: they would cross its pale digits."""
    spans: List[Tuple[int, int, str, str, bool]] = []
    goes_on = False
    for column, frame in enumerate(shown):
        if frame is not None:
            value, key = lane.values[frame], frame in lane.keys
            filled = lane.filled[frame] if lane.filled and "x" in value else ""
            is_cut = filled != "" and set(value) == {"x"} and column in edges
            if goes_on and not is_cut and spans[-1][2:] == (value, filled, key):
                spans[-1] = (spans[-1][0], column + 1, value, filled, key)
            else:
                spans.append((column, column + 1, value, filled, key))
        goes_on = frame is not None
    return spans


def _start(bits: str) -> str:
    return bits if len(bits) <= MOST_BITS else f"{bits[:MOST_BITS]}…"


@dataclass(frozen=True)
class Box:
    """Where a value is drawn.

    x, to  where it begins and ends
    y      the top of its lane
    key    whether it is a cause
    """

    x: int
    to: int
    y: int
    key: bool

    @property
    def high(self) -> int:
        return self.y + 2

    @property
    def low(self) -> int:
        return self.y + LANE - 2


def _level(box: Box, value: str, turns: bool) -> str:
    """The line of a bit, which begins at its other level if it turns."""
    level, other = (box.high, box.low) if value == "1" else (box.low, box.high)
    step = f"M{box.x} {other}V{level}" if turns else f"M{box.x} {level}"
    return f'<path class="{"k" if box.key else "l"}" d="{step}H{box.to}"/>'


def _vector(box: Box, value: str) -> str:
    """The outline of a value of several bits."""
    x, to, high, low, middle = box.x, box.to, box.high, box.low, box.y + LANE // 2
    outline = f"M{x + 1} {middle}L{x + 5} {high}H{to - 5}L{to - 1} {middle}L{to - 5} {low}H{x + 5}Z"
    title = f"<title>{len(value)}&#39;b{_start(value)}</title>"
    return f'<path class="b{" k" if box.key else ""}" d="{outline}">{title}</path>'


def _number_of(box: Box, parts_of_it: Sequence[Digits]) -> str:
    """The digits of a value, as many as there is room for."""
    room = int((box.to - box.x - 8) / LETTER)
    is_cut = sum(len(it.text) for it in parts_of_it) > room
    left = max(room - 1, 0) if is_cut else room
    shown = []
    for text, are_free in parts_of_it:
        text, left = text[:left], left - len(text[:left])
        shown.append(f'<tspan class="f">{text}</tspan>' if are_free and text else text)
    said = "".join(shown) + "…" * is_cut
    kind, middle = "v" if box.key else "pale", (box.x + box.to) / 2
    return (f'<text class="{kind}" x="{middle:g}" y="{box.y + LANE - 6}" text-anchor="middle">{said}</text>'
            if said else "")
