"""Draws docs/floors.svg for tools/edges.py: the floors of crates.txt with their crates, which crate is built on which,
and the longest chain of crates.

The lowest floor is at the bottom. A curve on the right joins a crate with one above that is built on it; those that
begin at one crate have one colour. The thick curves on the left are the chain. The picture counts lines in thousands:
most changes of a proof leave it as it is. It has a background of its own: light, or dark on a screen whose reader
prefers that."""

from __future__ import annotations

import html
import textwrap
from typing import Dict, List, NamedTuple

WIDTH = 960
LEFT = 16
COLOURS = 5
# how far the ends of a curve's tangents may be from the boxes: the curve stays on the page
LONGEST_REACH = 420
BOX_LEFT, BOX_WIDTH, BOX_HEIGHT = 420, 196, 20
ROW, GAP, PADDING = 25, 6, 8
HEAD = 74
TITLE_LETTERS, TEXT_LETTERS, TEXT_LINE = 40, 48, 15

STYLE = """\
text { font: 12px sans-serif; fill: #1f2328 }
.title { font-weight: bold; font-size: 13px }
.page { fill: #ffffff }
.floor { fill: #eef1f4 }
.crate { fill: #ffffff; stroke: #7d8793 }
.edge { fill: none; stroke-width: 1.2 }
.of0 { stroke: #2166a8 }
.of1 { stroke: #2a7a3b }
.of2 { stroke: #7a45c4 }
.of3 { stroke: #8a5d00 }
.of4 { stroke: #5c6773 }
.tests { stroke-dasharray: 2 3 }
.chain { fill: none; stroke: #b5371f; stroke-width: 3 }
.long { fill: #fbe2db; stroke: #b5371f; stroke-width: 2 }
.count { font-weight: bold; fill: #b5371f }
@media screen and (prefers-color-scheme: dark) {
text { fill: #e6edf3 }
.page { fill: #0d1117 }
.floor { fill: #1b222b }
.crate { fill: #0d1117; stroke: #8b949e }
.of0 { stroke: #79b8ff }
.of1 { stroke: #7ed492 }
.of2 { stroke: #c8a6ff }
.of3 { stroke: #e0b44c }
.of4 { stroke: #a5afba }
.chain { stroke: #ff8d75 }
.long { fill: #4a221a; stroke: #ff8d75 }
.count { fill: #ff8d75 }
}"""


class Floor(NamedTuple):
    """The title of a floor, what it does not know, and the names of its crates, the lowest first."""

    title: str
    unknown: str
    crates: List[str]


class Chain(NamedTuple):
    """The crates of a chain, the lowest first, and the lines of all of them."""

    crates: List[str]
    lines: int


def longest(below: Dict[str, List[str]], lines: Dict[str, int]) -> Chain:
    """Returns the chain with the most lines. The crates come in the order of crates.txt, the lowest first."""
    chains: Dict[str, Chain] = {}
    for name, of in below.items():
        under = max((chains[it] for it in of), key=lambda it: it.lines, default=Chain([], 0))
        chains[name] = Chain([*under.crates, name], under.lines + lines[name])
    return max(chains.values(), key=lambda it: it.lines)


def thousands(lines: int) -> str:
    """Returns a number of lines, to the next thousand."""
    return f"{max(1, round(lines / 1000))},000"


def text(x: int, y: int, said: str, kind: str = "", end: bool = False) -> str:
    """Returns a line of text that begins or ends at a place."""
    words = (f' class="{kind}"' if kind else "") + (' text-anchor="end"' if end else "")
    return f'<text x="{x}" y="{y}"{words}>{html.escape(said, quote=False)}</text>'


def box(x: int, y: int, width: int, height: int, kind: str) -> str:
    """Returns a box by its upper left corner."""
    return f'<rect x="{x}" y="{y}" width="{width}" height="{height}" rx="3" class="{kind}"/>'


def curve(x: int, low: int, high: int, reach: int, kind: str) -> str:
    """Returns a curve from a low place to a high one, at the side of the boxes."""
    return f'<path d="M{x} {low}C{x + reach} {low} {x + reach} {high} {x} {high}" class="{kind}"/>'


def said_of(floor: Floor) -> List[str]:
    """Returns the lines that say what a floor does not know."""
    return textwrap.wrap(floor.unknown.rstrip(".").replace("`", ""), TEXT_LETTERS)


def height_of(floor: Floor) -> int:
    """Returns how high a floor is: it has room for its crates and for its text."""
    titles = textwrap.wrap(floor.title, TITLE_LETTERS)
    return 2 * PADDING + max(ROW * len(floor.crates), TEXT_LINE * (len(titles) + len(said_of(floor))))


def draw(floors: List[Floor], below: Dict[str, List[str]], lines: Dict[str, int]) -> str:
    """Returns the picture. `below` has the crates on which each crate is built, `lines` its lines of src and proofs."""
    chain = longest(below, lines)
    bands: List[str] = []
    boxes: List[str] = []
    middles: Dict[str, int] = {}
    y = HEAD
    for floor in reversed(floors):
        height = height_of(floor)
        bands.append(box(LEFT - 8, y, WIDTH - 2 * (LEFT - 8), height, "floor"))
        titles = textwrap.wrap(floor.title, TITLE_LETTERS)
        words = [(it, "title") for it in titles] + [(it, "") for it in said_of(floor)]
        top = y + (height - TEXT_LINE * len(words)) // 2
        bands += [text(LEFT, top + 12 + TEXT_LINE * number, said, kind) for number, (said, kind) in enumerate(words)]
        top = y + (height - ROW * len(floor.crates)) // 2
        for number, name in enumerate(reversed(floor.crates)):
            middles[name] = top + ROW * number + ROW // 2
            is_long = name in chain.crates
            kind = "long" if is_long else "crate"
            boxes.append(box(BOX_LEFT, middles[name] - BOX_HEIGHT // 2, BOX_WIDTH, BOX_HEIGHT, kind))
            boxes.append(text(BOX_LEFT + 8, middles[name] + 4, name))
            if is_long:
                count = thousands(lines[name])
                boxes.append(text(BOX_LEFT + BOX_WIDTH - 8, middles[name] + 4, count, "count", end=True))
        y += height + GAP
    places = {name: number for number, name in enumerate(below)}
    tests = {name for floor in floors if not floor.unknown for name in floor.crates}
    joined = list(zip(chain.crates, chain.crates[1:]))
    curves = []
    for low, name in [(low, name) for name, of in below.items() for low in of if (low, name) not in joined]:
        reach = min(LONGEST_REACH, 24 + (middles[low] - middles[name]) * 2 // 5)
        kind = f"edge of{places[low] % COLOURS}" + (" tests" if name in tests else "")
        curves.append(curve(BOX_LEFT + BOX_WIDTH, middles[low] - 4, middles[name] + 4, reach, kind))
    curves += [curve(BOX_LEFT, middles[low], middles[name], -16 - (middles[low] - middles[name]) // 5, "chain")
               for low, name in joined]
    head = [f'<rect width="{WIDTH}" height="{y}" class="page"/>',
            text(LEFT, 24, "A line joins a crate with one above that is built on it", "title"),
            text(LEFT, 42, "Each floor says what its crates do not know. Lines that follow from others are left out; "
                           "those of tests are dotted."),
            text(LEFT, 60, f"Thick: the longest chain of crates, with the lines of src + proofs of each and of all: "
                           f"{thousands(chain.lines)}.", "count")]
    size = f'viewBox="0 0 {WIDTH} {y}" width="{WIDTH}" height="{y}"'
    opened = [f'<svg xmlns="http://www.w3.org/2000/svg" {size} role="img">', "<title>The floors of crates.txt</title>",
              f"<style>\n{STYLE}\n</style>"]
    return "\n".join([*opened, *head, *bands, *curves, *boxes, "</svg>\n"])
