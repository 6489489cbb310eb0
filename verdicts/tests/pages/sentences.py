"""Each sentence, mark and number of a page comes from its row: a page with a row of each kind, beside what it has to
say."""

import html
import re
from dataclasses import replace

from aig_verdicts.audit import checked
from aig_verdicts.audit.cycles import cycles_of
from believed import judge_some as judge
from aig_verdicts.pages.page import Page, Results
from aig_verdicts.audit.row import Row
from aig_verdicts.audit.table import Table
from believed import SUM, believed, check_of

LATCHES = 30
# A certificate of two claims over one latch, without a gate.
CERTIFICATE = b"aag 1 1 0 0 0 2\n2\n2\n3\n"
FRAMES = LATCHES + 1


def circuit(constraints, properties=20):
    """A shift register of 30 latches, and properties that the last one is 1, but for the last: that the input is."""
    lines = [f"aag {LATCHES + 1} 1 {LATCHES} 0 0 {properties} {constraints}", "2"]
    lines += [f"{2 * at + 4} {2 * at + 2}" for at in range(LATCHES)]
    lines += [str(2 * LATCHES + 2)] * (properties - 1) + ["2"] + ["1"] * constraints + ["i0 a"]
    return "\n".join([*lines, *(f"l{at} s{at}" for at in range(LATCHES)), ""]).encode()


def run_of(position, frames):
    rows = ["1", *["x"] * (frames - 1)]
    return "\n".join(["1", f"b{position}", "x" * LATCHES, *rows, ".", ""]).encode()


class Bundle:
    """Rows with their files, and the page of them."""

    def __init__(self, constraints=1):
        self.rows = []
        self.files = {"circuit.aig": circuit(constraints), "sources/a.v": source("a"), "sources/b.v": source("b")}
        self.manifest = {"name": "sentences", "notes": [f"note {at}" for at in range(6)],
                         "versions": {"aig": "aig 9 (proved)", "solver": "solver 8", "yosys": "yosys 7"},
                         "sums": {"alive.wit": "9" * 64, "circuit.aig": "0123456789abcdef" * 4}}

    def add(self, kind, by="", frames=0, notes=(), of=None, **files):
        at = len(self.rows)
        verdict = {"run": "confirmed", "": "undecided", "bound": f"unreachable within {frames}"}.get(by, "unreachable")
        row = Row(at, kind, f"n{at}", "b.v" if at % 2 else "a.v", 2 * at + 1, 2 * at + 2, of, notes=[*notes])
        believed(row, verdict, by, frames, {role: f"{at}.{role}" for role in files})
        self.files.update({f"{at}.{role}": data for role, data in files.items()})
        self.rows.append(row)
        return row

    def page(self, unfinished=False):
        seconds = {0: 1.5, 1: 2.5, 3: 4.5}
        table = Table(judge(self.rows, cycles_of(self.files["circuit.aig"]).at))
        return Page(Results(self.manifest, self.rows, self.files.__getitem__, seconds), table, unfinished).html()


def source(name):
    """Lines of which each second one has an assertion."""
    return "".join(f"{name} line {at} {'assert (x);' if at % 2 == 0 else ''}\n" for at in range(1, 60)).encode()


def each_kind(constraints=1):
    made = Bundle(constraints)
    proof, step = b"0" * 1500, b"0" * 20
    made.add("assert", "run", FRAMES, witness=run_of(0, FRAMES), shorter=proof)
    made.add("assert", "run", FRAMES, notes=["first", "second"], witness=run_of(1, FRAMES))
    made.add("cover", "run", FRAMES, witness=run_of(2, FRAMES), shorter=proof)
    made.add("assert", "induction", 1, base=proof, step=step)
    made.add("assert", "induction", 3, base=proof, step=step)
    made.add("assert", "certificate", certificate=CERTIFICATE, proof=proof)
    made.add("cover", "certificate", certificate=CERTIFICATE, proof=proof)
    made.add("assert", "bound", 3, base=proof)
    made.add("cover", "bound", 1, notes=["it took long"], base=proof)
    made.add("assert", notes=["no answer", "again none"])
    made.add("assert", "induction", 1, base=proof, step=step)
    made.add("condition", "induction", 2, of=10, base=b"", step=step)
    made.add("assert", "induction", 1, base=proof, step=step)
    made.add("condition", of=12)
    for _ in range(5):
        made.add("assert", "induction", 1, base=proof, step=step)
    made.add("assert", "run", 1, witness=run_of(19, 1))
    kept = Row(-1, "constraints", "")
    kept.take(replace(check_of(-1, "kept", 3, {"witness": "alive.wit"}), is_lasting=True, key=checked._KEY), SUM)
    made.files["alive.wit"] = b"1\nb0\n" + b"0" * LATCHES + b"\n0\n0\n0\n.\n"
    made.rows.insert(0, kept)
    return made


def shown(piece):
    """The text of a piece of a page."""
    return html.unescape(re.sub("<[^>]*>", "", re.sub("(?s)<style>.*?</style>", "", piece)))


def sections_of(page):
    return {int(at): text for at, text in re.findall(r'(?s)<section id="b(\d+)"(.*?)</section>', page)}


NO_SHORTER, MAY_BE_SHORTER = "No run of 30 frames does: that is checked too.", "A shorter run may exist."
IN_NO_RUN = ("In no run that begins as the resets allow and keeps all assumptions, of any length, is property b{} of "
             "circuit.aig ever 1.")
VIOLATED, HAPPENS = "It is 1 where the assertion is violated.", "It is 1 where the cover happens."
BY_ONE = ("By induction: it is 1 at no start (proof of 1.5 kB), and after no step from a frame where it was 0 (proof "
          "of 20 B).")
BY_THREE = ("By induction of 3 frames: it is 1 in the first 3 frames of no run (proof of 1.5 kB), and never right "
            "after 3 frames in which it was 0 (proof of 20 B).")
BY_INVARIANT = ("By an invariant: a certificate of 2 claims over 1 latch (0 gates), and a proof of 1.5 kB that it is "
                "right.")
FAILS = "The assertion fails at cycle 30, whatever the x are."
OF_RUN = ("7 more signals: aig why --witness circuit.aig 0.", "23 more lines, back to frame 0",
          "n0 fails at cycle 30: s29=1", "s29=1 at 30, by 29: s28=1", "s20=1 at 21, by 20: s19=1",
          "s0=1 at 1, by 0: a=1", "aig shell --witness circuit.aig 0.witness",
          "$ aig check --property=0 circuit.aig 0.witness", "unreachable within 30")
BOUND = ("In no run that begins as the resets allow and keeps all assumptions is property b7 of circuit.aig 1 within "
         "the first 3 frames. Longer runs were not decided.")
# Of each section its class, its mark with the words, and what it says; and what it does not say.
WANTED = {
    0: ("bad", "✗fails at cycle 30", [FAILS, NO_SHORTER, "▲ fails", *OF_RUN],
        [MAY_BE_SHORTER, "Notes:", "reached", "Vacuous"]),
    1: ("bad", "✗fails at cycle 30",
        [FAILS, MAY_BE_SHORTER, "Notes: first; second.", "--witness circuit.aig 1.witness >"], [NO_SHORTER]),
    2: ("good", "✓reached at cycle 30",
        ["The cover is reached at cycle 30, whatever the x are.", "▲ reached", NO_SHORTER], ["fails"]),
    3: ("good", "✓holds", [IN_NO_RUN.format(3), VIOLATED, BY_ONE], ["Longer runs", "invariant"]),
    4: ("good", "✓holds", [IN_NO_RUN.format(4), BY_THREE], ["at no start"]),
    5: ("good", "✓holds", [IN_NO_RUN.format(5), VIOLATED, BY_INVARIANT], ["induction"]),
    6: ("bad", "✗never reached", [IN_NO_RUN.format(6), HAPPENS, "By an invariant"], [VIOLATED]),
    7: ("warn", "◐holds within 3",
        [BOUND, VIOLATED, "Proof of 1.5 kB. No induction of up to 3 frames and no invariant was found."],
        ["of any length", "The notes"]),
    8: ("warn", "◐not reached within 1",
        ["1 within the first 1 frame. Longer runs were not decided.", HAPPENS, "Notes: it took long.",
         "Proof of 1.5 kB. The notes say what ended the search."], ["no invariant was found", VIOLATED]),
    9: ("warn", "?undecided", ["Notes: no answer; again none."], ["Proof", "Check it again", "Open it"]),
    10: ("warn", "∅vacuous", ["Vacuous: its condition is never true: nothing is asserted in any run.",
                              "--frames=2 --property=11 --step 11.step"], ["Perhaps vacuous"]),
    12: ("warn", "✓holds", ["Perhaps vacuous: whether its condition is ever true is not decided."],
         ["Vacuous: its"]),
    19: ("bad", "✗fails at cycle 0", ["The assertion fails at cycle 0, whatever the x are."],
         [NO_SHORTER, MAY_BE_SHORTER, "seen at", "b19=1 at 0"]),
}
# What the page says above, and of each group.
ABOVE = (
    "15 assertions: 3 fail, 9 hold, 1 hold for the frames searched, 1 vacuous, 1 undecided; 3 covers: 1 reached, "
    "1 never reached, 1 not reached within the bound; 1 in doubt.",
    "Circuit of 1 input, 30 latches and 0 gates, 1 assumption. A run of 31 frames keeps the assumptions: 0.witness. "
    "alive.wit comes back to a state, so they can be kept for ever. SHA-256 0123456789abcdef…",
    "Note: note 0.Note: note 1.Note: note 2.Note: note 3.2 more notesNote: note 4.Note: note 5.",
    "FailsA run of the design violates the assertion. In its waveform a frame is a clock.",
    "Never reachedNo run of any length does what the cover asks for.",
    "VacuousNothing violates the assertion, but only because nothing is asked of any run. Most often an assumption or "
    "a condition is wrong.",
    "UndecidedNo verdict. The notes say what ended the search.",
    "Within a boundNo run of so many frames does it. Of longer runs nothing is known.",
    "HoldsNo run of any length violates the assertion.", "ReachedA run does what the cover asks for.",
    "8 rows", "Programs of this runaig 9 (proved)solver 8yosys 7",
    "What to believe\nChecked by a verified program.",
)
CHIPS = [("bad", "✗ 3fails"), ("bad", "✗ 1never reached"), ("warn", "∅ 1vacuous"), ("warn", "? 1undecided"),
         ("warn", "◐ 2within a bound"), ("good", "✓ 9holds"), ("good", "✓ 1reached")]
# Of lines of the table: the verdict, the way, the sizes and the seconds.
TABLE = {
    0: ("✗fails at cycle 30", "run of 31", "1.6 kB", "1.5 s"), 1: ("✗fails at cycle 30", "run of 31", "100 B", "2.5 s"),
    3: ("✓holds", "induction of 1", "1.5 kB", "4.5 s"), 4: ("✓holds", "induction of 3", "1.5 kB", ""),
    5: ("✓holds", "invariant", "1.5 kB", ""), 7: ("◐holds within 3", "", "1.5 kB", ""),
    9: ("?undecided", "", "", ""),
}
GROUPS = {"fails": [0, 1, 19], "never": [6], "vacuous": [10], "undecided": [9], "bounded": [7, 8],
          "holds": [12, 3, 4, 5, 14, 15, 16, 17, 18], "reached": [2]}


def sentences(_, tally, __):
    """A page with a row of each kind, one of a run that goes on, one without assumptions, and one of 50 rows."""
    page = each_kind().page()
    sections = sections_of(page)
    for at, (look, words, said, not_said) in WANTED.items():
        text = shown(sections[at])
        tally.check(f"sentences: b{at}: its look", sections[at].startswith(f' class="{look}"'), sections[at][:30])
        header = sections[at].partition("</header>")[0]
        tally.check(f"sentences: b{at}: its words", f"n{at}{words}" in shown(header), shown(header))
        tally.check(f"sentences: b{at}: its mark", f'class="v {look}"' in header, header)
        file, last = "ab"[at % 2], 2 * at + 2
        tally.check(f"sentences: b{at}: its place", f"{file}.v:{last}" in shown(header), shown(header))
        hit = re.findall(r'<span class="hit"><s>(.*?)</s>(.*?)</span>', sections[at])
        tally.compare(f"sentences: b{at}: its source", [(number.replace(" ", ""), line) for number, line in hit],
                      [(f"▸{last}", f"{file} line {last} assert (x);")])
        number = re.search(rf"<s>([^<]*)</s>{file} line {last - 1} ", sections[at])
        tally.compare(f"sentences: b{at}: the line before", number and number[1].strip(), str(last - 1))
        for piece in said:
            tally.check(f"sentences: b{at}: {piece[:40]}", piece in text, text)
        for piece in not_said:
            tally.check(f"sentences: b{at}: not {piece[:40]}", piece not in text, text)
    whole(tally, page)
    groups(tally, page)
    others(tally)


def whole(tally, page):
    text = shown(page)
    for piece in ABOVE:
        tally.check(f"sentences: {piece[:50]}", piece in text, text[:1500])
    found = re.findall(r'<li class="(\w+)">(.*?)</li>', page)
    tally.compare("sentences: numbers of groups", [(look, shown(piece)) for look, piece in found], CHIPS)
    lines = {int(at): line for line, at in re.findall(r'(<tr><td>.*?href="#b(\d+)".*?</tr>)', page)}
    tally.compare("sentences: lines of the table", list(lines), [at for rows in GROUPS.values() for at in rows])
    for at, (words, way, size, seconds) in TABLE.items():
        cells = [shown(cell) for cell in re.findall(r"<td.*?>(.*?)</td>", lines[at])]
        tally.compare(f"sentences: the table, b{at}", (cells[0], *cells[2:]), (words, way, size, seconds))
        said = f"{'ab'[at % 2]} line {2 * at + 2} assert (x);"
        tally.check(f"sentences: the text in the table, b{at}", said in cells[1], cells[1])


def rows_in(piece):
    """The positions of the sections in a piece of a page."""
    return [int(it) for it in re.findall(r'<section id="b(\d+)"', piece)]


def groups(tally, page):
    """Each row is in its group, and those that nobody has to look at are folded."""
    pieces = re.split("<h2 id=", page)[1:]
    found = {piece.partition(">")[0]: rows_in(piece) for piece in pieces}
    tally.compare("sentences: groups", {key: it for key, it in found.items() if it}, GROUPS)
    holds = next(piece for piece in pieces if piece.startswith("holds"))
    folded = holds.partition("<details><summary>8 rows</summary>")[2]
    tally.compare("sentences: folded", rows_in(folded), GROUPS["holds"][1:])
    fails = next(piece for piece in pieces if piece.startswith("fails"))
    tally.check("sentences: not folded", "rows</summary>" not in fails)


def denied(tally):
    """What a simulator denies is no verdict, and a circuit that it denies is in doubt."""
    made = each_kind()
    table = judge(made.rows, cycles_of(made.files["circuit.aig"]).at)
    table[0] = table[0].denied_by("at 30 the simulator has another value")
    table[3] = replace(table[3], denied="the circuit is not as in a simulator")
    page = Page(Results(made.manifest, made.rows, made.files.__getitem__), Table(table)).html()
    sections = sections_of(page)
    for at, look, words, said in ((0, "warn", "≠disagrees", "at 30 the simulator has another value."),
                                  (3, "warn", "✓holds", "")):
        tally.check(f"sentences: denied: b{at}", sections[at].startswith(f' class="{look}"') and said in
                    shown(sections[at]) and words in shown(sections[at].partition("</header>")[0]), sections[at][:300])
    line, = re.findall(r'(<tr><td>(?:(?!<tr>).)*?href="#b3".*?</tr>)', page)
    tally.check("sentences: denied: the table", "the circuit is not as in a simulator" in shown(line), line)
    tally.check("sentences: denied: the group", "<h2 id=disagrees>Denied</h2>" in page)


def long_runs(tally):
    """A run that is longer than a screen: a paper has all of its frames, if they are not too many."""
    for frames, on_paper in ((40, []), (60, list(range(60))), (5000, [])):
        made = Bundle()
        witness = b"1\nb0\n" + b"x" * LATCHES + b"\nx" * (frames - 1) + b"\n1\n.\n"
        row = made.add("assert", "run", frames, witness=witness)
        made.files["circuit.aig"] = circuit(0, 1)
        section = sections_of(made.page())[row.position]
        screen, _, paper = section.partition('<div class="paper">')
        paper = paper.partition("</div>")[0]
        found = [int(it) for it in re.findall(r">(\d+)</text>", paper)]
        tally.compare(f"sentences: {frames} frames: paper", found, on_paper)
        tally.compare(f"sentences: {frames} frames: a screen alone", screen.count(" screen"), 2 * bool(on_paper))
        said = re.findall(r"has all frames.*?\.", shown(section))
        tally.compare(f"sentences: {frames} frames: what has all", said, {
            40: [], 60: ["has all frames, and so has a print of this page."], 5000: ["has all frames."]}[frames])


def others(tally):
    denied(tally)
    long_runs(tally)
    made = each_kind()
    made.add("assert").is_left_out = True
    for said in ("aig 9 (built by somebody, not proved)", "aig ?", "aig 9"):
        made.manifest["versions"]["aig"] = said
        page = made.page()
        tally.check(f"sentences: {said}: a program without proofs", "Checked by a program that is not proved." in
                    shown(page) and "Checked by a verified program." not in shown(page))
    tally.check("sentences: a row that was left out", 'id="b20"' not in page and "1 left out; 3 covers:" in shown(page))
    tally.check("sentences: a run that ended", "Unfinished" not in each_kind().page())
    tally.check("sentences: a run that goes on", "Unfinished: the run was stopped, or it goes on; rows that are open "
                "were not searched to the end." in shown(each_kind().page(True)))
    free = shown(sections_of(each_kind(0).page())[3])
    tally.check("sentences: no assumption", "In no run that begins as the resets allow, of any length," in free, free)
    for kind, ways, count in (("assert", ("", "induction"), 50), ("cover", ("",), 45)):
        made = Bundle()
        for at in range(count):
            made.add(kind, ways[at % len(ways)], 1, base=b"", step=b"")
        page = made.page()
        tally.compare(f"sentences: {count} rows", (page.count("<section id="), page.count("<tr><td>")), (count, count))
    many = [believed(Row(at, "assert", f"n{at}", "a.v", 1, 2), "confirmed", "run", 1, {"witness": f"{at}.wit"})
            for at in range(4)]
    made = Bundle()
    made.rows, made.files = many, {**made.files, **{f"{at}.wit": run_of(at, 1) for at in range(4)}}
    tally.check("sentences: failures are not folded", "rows</summary>" not in made.page())
