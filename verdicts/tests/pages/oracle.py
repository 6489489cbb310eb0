"""Reads a picture back, and says what it has to show: by the plain simulator and the plain explainer of tests/library,
which share nothing with the toolkit or the package."""

import re
import xml.etree.ElementTree as tree
from collections import namedtuple

from library import causes
from library.reference import Parts, literal

SVG = "{http://www.w3.org/2000/svg}"
TAGS = {"svg", "title", "style", "defs", "pattern", "line", "rect", "text", "tspan", "path"}
ATTRIBUTES = {
    "class", "role", "aria-hidden", "width", "height", "viewBox", "id", "patternUnits", "patternTransform", "x", "y",
    "x1", "x2", "y1", "y2", "text-anchor", "d", "fill",
}
# A lane as it is drawn: its name in full, whether it is bold, and by frame the value and whether it is thick. Of a
# vector also its number by frame: the digits, and those of them that are pale.
Drawn = namedtuple("Drawn", "name strong values thick numbers")


class Picture:
    """What a picture shows, read from its elements alone."""

    def __init__(self, names, waves):
        self.root = tree.fromstring(waves)
        named = tree.fromstring(names)
        for element in [*self.root.iter(), *named.iter()]:
            assert element.tag in {SVG + tag for tag in TAGS}, element.tag
            assert set(element.attrib) <= ATTRIBUTES, element.attrib
            assert element.get("fill", "url(#x").startswith("url(#x"), element.attrib
        self.texts = [it for it in self.root.iter(SVG + "text")]
        grid = [float(it.get("x1")) for it in self.root.iter(SVG + "line") if it.get("class") == "g"]
        bands = [float(it.get("width")) for it in self.root.iter(SVG + "rect") if it.get("class") == "band"]
        self.cell = grid[1] - grid[0] if len(grid) > 1 else bands[0]
        self.first = grid[0]
        heads = [it for it in self.texts if it.get("class") == "n" and it.get("text-anchor") == "middle"]
        self.frames = [int(it.text) if it.text.isdigit() else None for it in heads]
        titles = [it for it in named.iter(SVG + "text") if it.find(SVG + "title") is not None]
        self.lanes = [self._lane(it, float(it.get("y"))) for it in titles]

    def _columns(self, begin, end):
        first, last = round((begin - self.first) / self.cell), round((end - self.first) / self.cell)
        return [self.frames[column] for column in range(first, last)]

    def _lane(self, title, y):
        values, thick, shown = {}, set(), {}
        at_centers = {float(it.get("x")): it for it in self.texts if float(it.get("y")) == y and it.get("class") != "n"}

        def put(begin, end, value, is_thick):
            number = at_centers.get((begin + end) / 2)
            for frame in self._columns(begin, end):
                assert frame is not None and frame not in values, frame
                values[frame] = value
                if number is not None:
                    shown[frame] = "".join(number.itertext()), pale_of(number)
                if is_thick:
                    thick.add(frame)

        for element in self.root.iter():
            key = "k" in element.get("class", "").split(" ")
            if element.tag == SVG + "rect" and "xb" in element.get("class").split(" "):
                if abs(float(element.get("y")) + 14 - y) < 1:
                    begin = float(element.get("x")) - 1
                    bits = element.find(SVG + "title").text.partition(":")[0]
                    put(begin, begin + float(element.get("width")) + 2, bits, key)
            elif element.tag == SVG + "path":
                numbers = [float(it) for it in re.findall(r"-?[0-9.]+", element.get("d"))]
                if element.find(SVG + "title") is not None and abs(numbers[1] + 5 - y) < 1:
                    put(numbers[0] - 1, numbers[5] + 1, element.find(SVG + "title").text.partition("'b")[2], key)
                elif element.find(SVG + "title") is None and y - numbers[-2] in (14, -4):
                    put(numbers[0], numbers[-1], "1" if y > numbers[-2] else "0", key)
        return Drawn(title.find(SVG + "title").text, title.get("class") == "s", values, thick, shown)


def pale_of(number):
    """The digits of a number with a blank in place of each one that is not pale."""
    pieces = [(number.text or "", False), *((it.text, True) for it in number)]
    tails = [("", False), *((it.tail or "", False) for it in number)]
    return "".join(text if is_pale else " " * len(text) for pair in zip(pieces, tails) for text, is_pale in pair)


class Marked(causes.Run):
    """A run that keeps what the explainer names at each frame."""

    def __init__(self, parts, start, rows):
        super().__init__(parts, start, rows)
        self.marks = {}

    def causes(self, frame, weights, literals, named):
        found = super().causes(frame, weights, literals, named)
        self.marks.setdefault(frame, set()).update(found)
        return found


def drawn(signals):
    """The signals of a page: those of the explainer, and one vector for single bits `X[n]`, `X[n-1]`, .."""
    found, before, most = [], None, ""
    for it in signals:
        bit = causes.INDEXED.fullmatch(it.name) if len(it.positions) == 1 else None
        if bit and before == (it.letter, bit[1], int(bit[2]) + 1):
            found[-1] = causes.Signal(f"{bit[1]}[{bit[2]}:{most}]", it.letter, [*found[-1].positions, *it.positions])
        else:
            found.append(it)
            most = bit and bit[2]
        before = bit and (it.letter, bit[1], int(bit[2]))
    return found


class Expected:
    """The values of a witness's run, and what is named at each frame: by section and position."""

    def __init__(self, circuit, witness):
        text = circuit.decode("latin-1")
        self.parts = Parts(text)
        self.names = causes.Names(text, self.parts)
        lines = witness.decode().split("\n")
        self.position, self.start, self.rows = int(lines[1][1:]), lines[2], lines[3:-2]
        self.run = Marked(self.parts, self.start, self.rows)
        last, bad = len(self.rows) - 1, self.parts.bad[self.position]
        explanation = causes.Explanation(self.names, self.run)
        latches = explanation.first_line("", [bad], last)
        if not explanation.lines:
            self.run.marks.setdefault(last, set()).update(latches)
        causes.Explanation(self.names, self.run).explain("", [bad], last)

    def value(self, signal, frame):
        literals = {"i": self.parts.inputs, "l": [it[0] for it in self.parts.latches], "o": self.parts.outputs}
        now = self.run.values[frame]
        return "".join(literal(now, literals[signal.letter][at]) for at in reversed(signal.positions))

    def number(self, signal, frame, filled):
        """The number of a vector as it is drawn, and the digits of it that have an x. They are those of another run."""
        bits, others = self.value(signal, frame), filled.value(signal, frame)
        groups = [(others[max(0, end - 4):end], bits[max(0, end - 4):end]) for end in range(len(bits), 0, -4)][::-1]
        digits = [f"{int(other, 2):x}" for other, _ in groups]
        return "".join(digits), "".join(digit if "x" in own else " " for digit, (_, own) in zip(digits, groups))

    def is_named(self, signal, frame):
        return any((signal.letter, at) in self.run.marks.get(frame, ()) for at in signal.positions)
