"""Draws verdicts/docs/verdict.svg for tools/pictures.py: what a page of `aig-verdicts` shows of an assertion that fails. The
texts and the waveform are those of the page. The colours are its light ones, and the picture has a paper of its own, so
it looks the same on a dark screen."""

import html
import re
import typing

WIDTH, MARGIN, LINE, LETTER = 1012, 22, 19.5, 7.83
MORE_STYLE = """\
.d{font:15px system-ui,"Segoe UI","DejaVu Sans",sans-serif;fill:#1b1f24}.d .c{font:13px ui-monospace,"DejaVu Sans Mono",
Menlo,Consolas,monospace}.d .t{font-weight:bold}.d .bad{fill:#b42318;font-weight:bold}.d .sub{fill:#57606a}
.d .box{fill:#f6f8fa;stroke:#d8dee4}.d .hit{fill:#fff8e6;stroke:#7a4b00}.d .more{fill:#0b57d0}
.d .paper{fill:#fff;stroke:#d8dee4}.d .side{fill:#b42318}"""


class Shown(typing.NamedTuple):
    """What a section of the page shows. `sources` has lines with their numbers, and `waves` the pictures of the names
    and of the waves, each with its width and height."""

    name: str
    verdict: str
    kind: str
    sources: typing.List[typing.Tuple[str, str, bool]]
    waves: typing.List[typing.Tuple[str, int, int]]
    why: typing.List[str]
    more: str
    end: str


def plain(text):
    """The text of a piece of the page, without its tags."""
    return html.unescape(re.sub("<[^>]*>", "", text))


def inside(text, begin, end):
    """The first piece of a text between two others."""
    return text.partition(begin)[2].partition(end)[0]


def shown(page, property):
    """What a page shows of a property."""
    section = inside(page, f'<section id="{property}"', "</section>")
    header = inside(section, "<header>", "</header>")
    sources = inside(section, '<pre class="src"', "</pre>")
    lines = re.findall(r'<span( class="hit")?><s>(.*?)</s>(.*?)</span>', sources)
    waves = [(picture, *map(int, re.search(r'width="(\d+)" height="(\d+)"', picture).groups()))
             for picture in re.findall(r"<svg.*?</svg>", section)]
    why = re.findall(r"<span>(.*?)</span>", inside(section, '<pre class="why">', "</pre>"))
    return Shown(plain(inside(header, "<h3 class=name>", "</h3>")), plain(inside(header, "</i>", "</span>")),
                 plain(inside(header, "<span class=sub>", "</span>")),
                 [(plain(number), plain(line), bool(hit)) for hit, number, line in lines], waves,
                 [plain(line) for line in why], plain(inside(section, "<summary>", "</summary>")),
                 plain(section.rpartition("<p>")[2].partition("</p>")[0]))


def light(style):
    """The style of a waveform with the colours of a light page in place of their names."""
    usual = style.partition("@media")[0]
    colours = dict(re.findall(r"--(\w+):([^;}]+)", usual))
    rules = style.rpartition("@media")[2].partition("}}\n")[2]
    font = inside(usual, ".w{", ";")
    return re.sub(r"var\(--(\w+)\)", lambda found: colours[found[1]], f".w{{{font}}}\n{rules}")


def text(x, y, said, kind=""):
    named = f' class="{kind}"' if kind else ""
    return f'<text x="{x:g}" y="{y:g}"{named} xml:space="preserve">{html.escape(said, quote=False)}</text>'


def box(place, kind, corner=6):
    """A box with its left upper corner, width and height."""
    x, y, width, height = place
    return f'<rect x="{x:g}" y="{y:g}" width="{width:g}" height="{height:g}" rx="{corner}" class="{kind}"/>'


def header_of(it):
    at = MARGIN + 2
    yield text(at, 36, it.name, "c t")
    at += len(it.name) * LETTER + 14
    yield text(at, 36, f"✗ {it.verdict}", "bad")
    yield text(at + 30 + 7.5 * len(it.verdict), 36, it.kind, "sub")


def drawn(page, property, style):
    """The picture of what a page shows of a property. `style` is that of waveforms."""
    it = shown(page, property)
    elements = [*header_of(it)]
    y, inner = 50, WIDTH - 2 * MARGIN
    elements.append(box((MARGIN, y, inner, LINE * len(it.sources) + 18), "box"))
    y += 22
    for number, line, is_hit in it.sources:
        if is_hit:
            elements.append(box((MARGIN + 8, y - 14, inner - 16, LINE), "hit", 0))
        elements += [text(MARGIN + 12, y, number, "c sub"), text(MARGIN + 46, y, line, "c t" if is_hit else "c")]
        y += LINE
    y += 26
    top, left = y, MARGIN
    for picture, width, height in it.waves:
        elements.append(picture.replace("<svg ", f'<svg x="{left}" y="{top - 10}" ', 1))
        left += width
    bottom = top + max(height for _, _, height in it.waves)
    left += 26
    elements.append(text(left, y, "Why, from the last frame back:"))
    elements.append(box((left, y + 12, WIDTH - MARGIN - left, LINE * len(it.why) + 16), "box"))
    y += 34
    for line in it.why:
        elements.append(text(left + 12, y, line, "c"))
        y += LINE
    elements.append(text(left, y + 16, f"▶ {it.more}", "more"))
    y = max(bottom, y + 16) + 32
    elements.append(text(MARGIN, y, it.end))
    return framed(elements, int(y + 22), light(style))


def framed(elements, height, style):
    opened = (f'<svg xmlns="http://www.w3.org/2000/svg" class="d" role="img" width="{WIDTH}" height="{height}" '
              f'viewBox="0 0 {WIDTH} {height}">')
    return "\n".join([opened, "<title>An assertion that fails, on the page of aig-verdicts</title>",
                      f"<style>\n{MORE_STYLE}\n{style}</style>",
                      box((0.5, 0.5, WIDTH - 1, height - 1), "paper", 10),
                      f'<path class="side" d="M6 0.5H9V{height - 0.5}H6Q0.5 {height - 0.5} 0.5 {height - 6}V6'
                      'Q0.5 0.5 6 0.5Z"/>',
                      *elements, "</svg>", ""])
