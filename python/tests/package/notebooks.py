"""What a notebook shows."""

import xml.etree.ElementTree as tree

import aig
from package.common import example


class Printer:
    """What IPython gives to print to."""

    def text(self, said):
        self.said = said


def notebooks(_, tally, __):
    """What a notebook shows, as XML that can be parsed. python/tests/run_pages.py compares pictures with values."""
    wraps = example("wraps.aag")
    witness, trace = wraps.witness(["1"] * 4), wraps.simulate(["1", "x"])
    for name, text in (("a witness", witness._repr_svg_()), ("a witness in HTML", witness._repr_html_()),
                       ("a trace", trace._repr_svg_()), ("a trace in HTML", trace._repr_html_())):
        texts_of = ["".join(it.itertext()) for it in tree.fromstring(text).iter() if it.tag.endswith("text")]
        tally.check(name, "count" in " ".join(texts_of) and "enable" in " ".join(texts_of), texts_of)
    verdicts_of = (wraps.check(witness), aig.Verdict("unreachable", "induction", 3, vacuous="no run of 3 frames"),
                   aig.Verdict("undecided", notes=["<script>"]))
    shown = [tree.fromstring(f"<div>{verdict._repr_html_()}</div>") for verdict in verdicts_of]
    tally.compare("verdicts", ["".join(it.itertext()) for it in shown[1:]],
                  ["unreachable: induction of 3Vacuous: no run of 3 frames keeps the constraints.",
                   "undecided<script>"])
    tally.check("a confirmed one has its picture", any(it.tag.endswith("svg") for it in shown[0].iter()))
    picture = tree.fromstring(witness.svg())
    box, = (it for it in picture.findall(".//{*}rect") if it.get("class") == "edge")
    left, right = float(box.get("x")), float(box.get("x")) + float(box.get("width"))
    inside = [it.text for it in picture.findall(".//{*}text[@class='n']") if left < float(it.get("x")) < right]
    tally.compare("the frame that reaches it is marked", inside, ["3"])
    printer = Printer()
    witness._repr_pretty_(printer, False)
    tally.compare("as text", printer.said, f"{witness!r}\n{witness.text.decode()}")
    tally.compare("a witness, shown", repr(witness), "<Witness of wraps at frame 3>")
    tally.compare("a trace, shown", repr(trace), "<Trace of 2 frames>")
    numbers = [it.text for it in tree.fromstring(wraps.simulate(["1", "1", "0"]).svg()).findall(".//{*}text")]
    tally.compare("the numbers of a vector", numbers[-3:], ["0", "1", "2"])
    wide = aig.Circuit("aag 30 30 0 0 0\n" + "".join(f"{2 * it}\n" for it in range(1, 31)))
    tally.check("signals that are left out", "6 more signals" in wide.simulate(["0" * 30]).svg())
    letters = aig.Circuit("aag 2 1 1 2 0\n2\n4 2\n4\n2\ni0 in\nl0 state\no0 out\n").simulate(["1", "0"]).svg()
    names = [it.text for it in tree.fromstring(letters).findall(".//{*}text/{*}title")]
    tally.compare("inputs, latches and outputs", names, ["in", "state", "out", "o1"])
    ways = {"run": "line: run of 2", "certificate": "line: certificate", "": "line", "bound": "line"}
    said = {way: aig.Verdict("line", way, 2)._repr_html_() for way in ways}
    tally.compare("ways", {way: "".join(tree.fromstring(it).itertext()) for way, it in said.items()}, ways)
