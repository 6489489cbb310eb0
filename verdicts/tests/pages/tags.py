"""Pages read by html.parser: a fixed set of tags and attributes, and all else is text."""

import html.parser
import random
import re
import resource
import time
import xml.etree.ElementTree as tree

from aig_verdicts.audit.sentences import DISAGREES, GROUPS
from aig_verdicts.pages.style import STYLE
from aig.letters import visible
from aig.waves.svg import STYLE as WAVE, Lane, hexadecimal, waveform
from pages.bundles import HOSTILE, Bundle
from pages.oracle import ATTRIBUTES as OF_PICTURES, TAGS as PICTURES

VOID = {"meta", "br"}
# Tags that HTML lets end by themselves.
OPEN = {"th"}
TAGS = {
    "html": {"lang"}, "head": set(), "meta": {"charset", "name", "content", "http-equiv"}, "title": set(),
    "style": set(), "body": set(), "h1": set(), "h2": {"id"}, "h3": {"class"}, "p": {"class"}, "ul": {"class"},
    "li": {"class"}, "b": set(), "i": {"aria-hidden"}, "s": set(), "br": set(), "a": {"class", "href"},
    "code": {"class"}, "pre": {"class", "aria-label"}, "span": {"class"}, "table": set(), "thead": set(),
    "tbody": set(), "tr": set(), "th": {"class"}, "td": {"class"}, "section": {"id", "class"}, "header": set(),
    "details": {"class"},
    "summary": set(), "div": {"class"},
}
NAMES = re.compile(r"[a-z0-9 ]+")


class Reader(html.parser.HTMLParser):
    """What is wrong with a page, its texts, and its styles."""

    def __init__(self):
        super().__init__()
        self.wrong, self.text, self.styles = [], [], []
        self.opened, self.ids, self.links = [], [], []

    def handle_starttag(self, tag, attributes):
        allowed = OF_PICTURES if "svg" in self.opened or tag == "svg" else TAGS.get(tag)
        if allowed is None or "svg" in self.opened and tag not in PICTURES:
            self.wrong.append(f"tag {tag}")
            return
        small = {it.lower() for it in allowed} | ({"xmlns"} if tag == "svg" else set())
        self.wrong += [f"attribute {tag} {name}" for name, _ in attributes if name not in small]
        for name, value in attributes:
            self._value(tag, name, value or "")
        if tag not in VOID | OPEN:
            self.opened.append(tag)

    def _value(self, tag, name, value):
        if name == "id":
            self.ids.append(value)
        elif name == "href":
            self.links.append(value)
        if name in ("class", "id") and not NAMES.fullmatch(value):
            self.wrong.append(f"{tag} {name} {value!r}")
        if name == "xmlns" and value != "http://www.w3.org/2000/svg":
            self.wrong.append(value)

    def handle_endtag(self, tag):
        if not self.opened or self.opened.pop() != tag:
            self.wrong.append(f"end of {tag}")

    def handle_data(self, data):
        (self.styles if self.opened[-1:] == ["style"] else self.text).append(data)

    def handle_comment(self, data):
        self.wrong.append(f"comment {data!r}")

    def handle_decl(self, decl):
        if decl != "DOCTYPE html":
            self.wrong.append(decl)

    unknown_decl = handle_pi = handle_comment


def read(tally, name, page):
    """Reads a page, and checks what holds of each. Returns its text."""
    reader = Reader()
    reader.feed(page)
    reader.close()
    tally.compare(f"{name}: tags and attributes", reader.wrong, [])
    tally.compare(f"{name}: tags that are open at the end", reader.opened, [])
    tally.compare(f"{name}: the style", "".join(reader.styles), STYLE + WAVE)
    tally.compare(f"{name}: no id twice", len(reader.ids), len(set(reader.ids)))
    wrong = [it for it in reader.links if not it.startswith("#") or it[1:] not in reader.ids]
    tally.compare(f"{name}: links lead somewhere on the page", wrong, [])
    tally.compare(f"{name}: addresses", set(re.findall(r"[a-z]+://[^\"' <)&]+", page)) - {"http://www.w3.org/2000/svg"},
                  set())
    policy = '<meta http-equiv=Content-Security-Policy content="default-src \'none\'; style-src \'unsafe-inline\''
    tally.check(f"{name}: a policy before all else that could load", 0 < page.find(policy) < page.find("<style>"))
    page.encode("utf-8")
    return "".join(reader.text)


def hostile(_, tally, __):
    """A page with each kind of row, whose names, notes, sources and programs try to leave the text."""
    bundle = Bundle().each_kind()
    bundle.manifest["sources"] = ["a.v"]
    bundle.manifest["simulated"] = {"by": HOSTILE[0], "circuit": f"circuit {HOSTILE[0]}", "agrees": True,
                                    "rows": {"5": ["disagrees", f"row {HOSTILE[0]}"], "10": ["agrees", HOSTILE[11]]}}
    page = bundle.page()
    text = read(tally, "hostile", page)
    tally.check("the page has what a simulator says", all(it in text for it in (
        f"circuit {HOSTILE[0]}", f"row {HOSTILE[0]}", "≠disagrees")))
    for name in HOSTILE:
        tally.check(f"the page shows {name[:20]!r}", visible(name) in text)
    for word in ("Unfinished", "Vacuous", "Perhaps vacuous: whether its condition", "that is checked too",
                 "By induction of", "2 claims over 1 latch (0 gates)", "▲ fails", "▲ reached", "more notes",
                 "Longer runs were not"):
        tally.check(f"the page says {word}", word in text)
    order = [page.index(f"<h2 id={key}>") for key in GROUPS if key != DISAGREES]
    tally.compare("failures first", order, sorted(order))
    tally.check("no carriage return", "\r" not in page)
    doubted = page.rindex("<section", 0, page.index("Perhaps vacuous"))
    tally.check("a row in doubt is no good one", page[doubted:].startswith('<section id="b6" class="warn">'))
    tally.check("and is not folded", page.rindex("<details", 0, doubted) < page.rindex("</details>", 0, doubted))
    tally.check("the table says the doubt", "class=warn>whether its condition" in page)
    for version, said in (("proved where rt ci built it", True), ("built by rt try, not proved", False)):
        bundle.manifest["versions"]["aig"] = f"aig 0.3.0 ({version})"
        words = read(tally, version, bundle.page())
        tally.compare(f"{version}: the page says which", ["Checked by a verified program" in words,
                      "Checked by a program that is not proved" in words], [said, not said])


def pictures(_, tally, __):
    """Pictures with hostile and random names are XML of a fixed set of elements, and the same values give the same."""
    chance = random.Random(3)
    for name in HOSTILE:
        lanes = [Lane(name, ["0", "1", "x"]), Lane(name, ["00", "1x", "xx"], frozenset([1]), True)]
        kinds(tally, waveform(lanes, 3, 2, name, name))
    for _ in range(200):
        letters = (chance.choice([chance.randrange(128), chance.randrange(0x11000), chance.choice(b"<>&\"'")])
                   for _ in range(chance.randrange(40)))
        name = "".join(map(chr, letters))
        wide, count = chance.choice([1, 1, 2, 5, 64]), chance.choice([1, 2, 39, 40, 41, 200])
        values = ["".join(chance.choice("01x") for _ in range(wide)) for _ in range(count)]
        lane = Lane(name, values, frozenset(chance.sample(range(count), 1)))
        kinds(tally, waveform([lane], count, count - 1, name))
    kinds(tally, waveform([], 1, 0))
    kinds(tally, waveform([], 0, None))
    tally.compare("hexadecimal", [hexadecimal(it) for it in ("1001", "00001111", "1x", "xxxx", "x00001111", "11")],
                  ["9", "0f", "x", "", "x0f", "3"])
    free = Lane("a", ["x"] * 5, filled=["1"] * 5)
    for failing, boxes in ((None, 1), (4, 2), (2, 3), (0, 2)):
        drawn = waveform([free], 5, failing)
        tally.compare(f"boxes of what is free, with an edge at {failing}",
                      (drawn.count('class="xb"'), drawn.count('class="f">1<')),
                      (boxes, boxes))
    lane = Lane("a", ["0", "1"])
    tally.compare("the same bytes", waveform([lane], 2, 1), waveform([lane], 2, 1))


def kinds(tally, text):
    found = [it for it in tree.fromstring(text.encode("utf-8")).iter()]
    tally.check("elements", {it.tag.split("}")[1] for it in found} <= PICTURES)
    tally.check("attributes", all(key in OF_PICTURES for it in found for key in it.attrib))


def many(_, tally, __):
    """Pages of 1,000 rows: small, and in time that grows as the rows do."""
    took, sizes = [], []
    for count in (250, 1000):
        bundle = Bundle(1)
        for at in range(count):
            if at % 2:
                bundle.add("assert", f"top.u{at}.check", "induction", base=b"0\n", step=b"0\n")
            else:
                bundle.add("assert", f"top.u{at}.check", "run", witness=bundle.witness, shorter=b"0\n")
        began = processor()
        page = bundle.page()
        took.append(processor() - began)
        sizes.append(len(page.encode()))
        read(tally, f"{count} rows", page)
        tally.compare(f"{count} rows: each has its section", page.count("<section "), count)
    tally.check("small", sizes[1] < 4_500_000, sizes)
    tally.check("in linear time", took[1] < 8 * took[0] + 2, took)
    return f"{took[1]:.1f} s and {sizes[1] / 10**6:.1f} MB for 1,000 rows, "


def processor():
    """The seconds of processor time of this process and of those that it ran."""
    return time.process_time() + sum(resource.getrusage(resource.RUSAGE_CHILDREN)[:2])
