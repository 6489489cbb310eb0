"""When a run violates its assertion: at the cycle whose edge samples the values, which is not always the last frame."""

from aig_verdicts.audit.cycles import cycles_of
from believed import judge_some as judge
from aig_verdicts.pages.page import Page, Results
from aig_verdicts.audit.row import Row
from aig.waves.concrete import comes_back
from aig_verdicts.audit.table import Table
from believed import believed

# The names of an input and of three latches, what the property reads (its own literals, and those of a gate), and the
# moment of a run of five frames. Latch 1 is 4, 2 is 6, 3 is 8; gate 10 is 4 & 6, gate 12 is 10 & 8.
READS = (
    ("a", ("value_6", "when_6", "count"), 10, "cycle 3"),
    ("a", ("value_6", "when_6", "count"), 11, "cycle 3"),
    ("a", ("value_6", "when_6", "count"), 4, "cycle 3"),
    ("a", ("u0.u1.value_6_2", "u0.when_16", "count"), 10, "cycle 3"),
    ("a", ("value_6", "when_6", "count"), 8, "cycle 4"),
    ("a", ("value_6", "when_6", "count"), 2, "cycle 4"),
    ("a", ("value_6", "when_6", "count"), 1, "cycle 4"),
    ("a", ("value_6", "when_6", "count"), 12, None),
    ("a", ("value", "when_x", "count"), 10, "cycle 4"),
    ("value_6", ("b", "c", "count"), 2, "cycle 4"),
    ("a", ("", "", ""), 10, "cycle 4"),
    ("a", ("clk_before", "b", "count"), 10, "frame 4"),
    ("a", ("value_6_next_before", "b", "clk_before[0]"), 10, None),
)


def circuit(an_input, latches, bad):
    names = [f"i0 {an_input}", *(f"l{at} {name}" for at, name in enumerate(latches) if name)]
    return "\n".join(["aag 6 1 3 0 2 1", "2", "4 2", "6 4", "8 6", str(bad), "10 4 6", "12 10 8", *names, ""]).encode()


def run_of(frames, kind="assert"):
    return believed(Row(0, kind, "name", "a.v", 1, 1), "confirmed", "run", frames, {"witness": "0.wit"})


def moments(_, tally, __):
    """Properties that read registers of an assertion at an edge, other values, or both."""
    for an_input, latches, bad, wanted in READS:
        found = cycles_of(circuit(an_input, latches, bad)).at(run_of(5))
        tally.compare(f"moments: {latches}, {bad}", found and str(found), wanted)
    at_edge, at_once = (cycles_of(circuit("a", ("value_6", "when_6", "n"), bad)) for bad in (10, 8))
    tally.compare("moments: no edge before the first frame", (at_edge.at(run_of(1)), str(at_once.at(run_of(1)))),
                  (None, "cycle 0"))
    unordered = b"aag 5 1 2 0 2 1\n2\n4 2\n6 4\n10\n10 8 3\n8 4 6\nl0 value_6\nl1 when_6\n"
    tally.compare("moments: gates in any order", cycles_of(unordered).at(run_of(5)), None)
    tables(tally)
    pages(tally)


def tables(tally):
    rows = [run_of(5), believed(Row(0, "assert", "other"), "unreachable", "induction", 2,
                                {"base": "0.base.drat", "step": "0.step.drat"})]
    for bad, wanted in ((10, "run of 5, at cycle 3"), (8, "run of 5, at cycle 4"), (12, "run of 5  ")):
        table = judge(rows, cycles_of(circuit("a", ("value_6", "when_6", "n"), bad)).at)
        said = Table(table).text().splitlines()
        tally.check(f"moments: the table, {bad}", f"  fails  {wanted}" in said[0] and said[0].endswith("0.wit"), said)
        tally.check(f"moments: the table of another row, {bad}", "  holds  induction of 2 " in said[1], said)
        tally.check(f"moments: JUnit, {bad}", f">{wanted.strip()}\n" in Table(table).junit("d", {}))


# A shift register of one input: the property reads the first latch, or an assertion at an edge samples the input.
SHIFT = b"aag 4 1 2 0 1 1\n2\n4 2\n6 1\n8\n8 4 6\ni0 a\nl0 %s\nl1 %s\nb0 name\n"
WITNESS = b"1\nb0\n00\n1\nx\n.\n"


def pages(tally):
    """The picture, its mark, the first line of `why` and the sentence below it."""
    for names, kind, wanted in (
        ((b"value_6", b"when_6"), "assert",
         ("fails at cycle 0", "name fails at cycle 0, seen at frame 1: value_6=1 when_6=1",
          "at its end samples these values, and the property is 1 at frame 1.", 0)),
        ((b"p", b"q"), "assert", ("fails at cycle 1", "name fails at cycle 1: p=1 q=1",
                                  "The assertion fails at cycle 1, whatever the x are. ", 1)),
        ((b"p", b"q"), "cover", ("reached at cycle 1", "name is reached at cycle 1: p=1 q=1",
                                 "The cover is reached at cycle 1, whatever the x are. ", 1)),
        ((b"value_6", b"q"), "assert", ("fails", "name fails, seen at frame 1: q=1 value_6=1",
                                        "The assertion fails, as frame 1 of the run shows, whatever the x are.", 1)),
    ):
        row = run_of(2, kind)
        files = {"circuit.aig": SHIFT % names, "0.wit": WITNESS}
        table = judge([row], cycles_of(files["circuit.aig"]).at)
        manifest = {"name": "moments", "notes": [], "versions": {}, "sums": {}}
        page = Page(Results(manifest, [row], files.__getitem__), Table(table)).html()
        said, first, sentence, marked = wanted
        title = f"moments: {names}, {kind}"
        tally.compare(f"{title}: the words", page.count(f"</i>{said}</span>"), 2)
        why = page.partition("<pre class=\"why\"><span>")[2].partition("</span>")[0]
        why = why.replace("<i>", "").replace("</i>", "")
        tally.compare(f"{title}: why", sorted(why.split()), sorted(first.split()))
        tally.check(f"{title}: the sentence", sentence in page)
        band = page.partition("<rect class=\"band\" x=\"")[2].partition("\"")[0]
        tally.compare(f"{title}: the mark", band, str(30 * marked))


def for_ever(_, tally, __):
    """A run that keeps the assumptions and comes back to a state has no end. An x of the run is 0."""
    toggle, counts = b"aag 1 0 1 0 0 1\n2 3\n0\n", b"aag 3 0 2 0 1 1\n2 3\n4 6\n0\n6 2 5\n"
    fills = b"aag 3 1 2 0 0 1\n2\n4 1\n6 4\n0\n"
    for name, circuit_of, witness, wanted in (
        ("no latch", b"aag 1 1 0 0 0 1\n2\n0\n", b"1\nb0\n\n1\n1\n.\n", True),
        ("a toggle", toggle, b"1\nb0\n0\n\n\n\n.\n", True),
        ("a toggle, cut off", toggle, b"1\nb0\n0\n\n\n.\n", False), ("one frame", toggle, b"1\nb0\n0\n\n.\n", False),
        ("two latches", counts, b"1\nb0\n00\n\n\n\n.\n", False),
        ("the end of a fill", fills, b"1\nb0\n00\n0\n0\n0\n0\n.\n", True),
        ("a fill", fills, b"1\nb0\n00\n0\n0\n0\n.\n", False),
    ):
        tally.compare(f"for ever: {name}", comes_back(circuit_of, witness), wanted)
    shift = b"aag 3 1 2 0 0 1\n2\n4 2\n6 4\n0\n"
    tally.compare("for ever: x", comes_back(shift, b"1\nb0\n00\nx\n0\n0\n.\n"), True)
    tally.compare("for ever: x once", comes_back(shift, b"1\nb0\n00\n1\nx\nx\n.\n"), False)
