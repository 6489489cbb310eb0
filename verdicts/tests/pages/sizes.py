"""Small bundles that ask for large pages: each page stays small, and says what it leaves out."""

import re

import aig
from aig_verdicts.pages import sections
from believed import judge_some as judge
from aig_verdicts.pages.page import Page, Results
from aig_verdicts.audit.row import Row
from aig.waves.svg import Lane, waveform
from aig_verdicts.audit.table import Table
from believed import believed
from pages.tags import read

NO_ROOM = "The page has no picture of this run"


def page_of(circuit, rows, files):
    held = {"circuit.aig": aig.Circuit(circuit).file, **files}
    manifest = {"name": "sizes", "notes": [], "versions": {}, "sums": {}}
    return Page(Results(manifest, rows, held.__getitem__), Table(judge(rows))).html()


def of_run(position, frames):
    row = Row(position, "assert", f"n{position}", "a.v", 1, 10**5)
    return believed(row, "confirmed", "run", frames, {"witness": f"{position}.wit"})


def all_of_all(count):
    """Latches, each of which is next the `and` of all of them: each line of `why` names all."""
    latches = [4 + 2 * at for at in range(count)]
    gates = [4 + 2 * (count + at) for at in range(count)]
    lines = [f"aag {1 + 2 * count} 1 {count} 0 {count} 1", "2", *(f"{it} {gates[-1]} 1" for it in latches)]
    lines += [str(gates[-1]), *(f"{gate} {max(two)} {min(two)}" for gate, *two in zip(gates, [2, *gates], latches))]
    return "\n".join([*lines, ""]).encode()


def sizes(_, tally, __):
    """A run whose explanation is of gigabytes or whose trace is, one of 60,000 frames, a vector of 20,000 bits, lines
    with 1,000 causes, and rows that all show the same long source."""
    count = 600
    witness = f"1\nb0\n{'1' * count}\n1\n".encode() + b"1\n" * 399 + b".\n"
    page = page_of(all_of_all(count), [of_run(0, 400)], {"0.wit": witness, "sources/a.v": b""})
    tally.check("sizes: why", NO_ROOM in page and len(page) < 50_000, len(page))
    short = f"1\nb0\n{'1' * count}\n".encode() + b"1\n" * 3 + b".\n"
    page = page_of(all_of_all(count), [of_run(0, 3)], {"0.wit": short, "sources/a.v": b""})
    longest = max(line.count("<i>") for line in page.split("<span>"))
    tally.compare("sizes: causes", (longest, NO_ROOM in page), (sections.MOST_CAUSES + 1, False))
    tally.check("sizes: more causes", re.search(r"<i>… 5[0-9]{2} more</i>", page) is not None)
    read(tally, "sizes: causes", page)
    outputs = "\n".join(["aag 1 1 0 2000 0 1", "2", *["0"] * 2000, "2", ""]).encode()
    long_run = b"1\nb0\n\n" + b"0\n" * 59_999 + b"1\n.\n"
    page = page_of(outputs, [of_run(0, 60_000)], {"0.wit": long_run, "sources/a.v": b""})
    tally.check("sizes: trace", NO_ROOM in page)
    wide = waveform([Lane("wide", ["01" * 10_000, "10" * 10_000] * 20)], 40, 39)
    tally.check("sizes: a vector", len(wide) < 100_000, len(wide))
    many = 1000
    rows = [believed(Row(at, "assert", f"n{at}", "a.v", 1, 10**5), "unreachable within 1", "bound", 1,
                     {"base": f"{at}.base.drat"}) for at in range(many)]
    files = {f"{at}.base.drat": b"0\n" for at in range(many)}
    text = "\n".join(["aag 1 1 0 0 0 %d" % many, "2", *["2"] * many, ""]).encode()
    page = page_of(text, rows, {**files, "sources/a.v": b"x" * 5000 + b"\n" + (b"x" * 150 + b"\n") * 10**5})
    tally.check("sizes: sources", sections.MOST_SNIPPETS < len(page) < 2 * sections.MOST_SNIPPETS, len(page))
