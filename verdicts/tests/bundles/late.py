"""Rows whose meaning another row changes: bounds under conditions that are never true, and assumptions that contradict
each other after some frames."""

from __future__ import annotations

import re
import xml.etree.ElementTree as tree
from pathlib import Path

import aig
from aig_verdicts import prove
from aig_verdicts.audit.decisions import LEAST_KEPT
from aig_verdicts.audit.table import Table
from bundles.common import SMALL_SOLVER, called, manifest_of, row, why_rejected, write_manifest
from bundles.many import AT_1, AT_2, AT_3, AT_6, LATCHES, NEVER

AT_5 = 14
FRAMES = 3
# By their symbols: assertions that are reached at frame 6, of which a bound alone is known, each with its condition.
BOUNDED = {"dead": AT_6, "if:dead": NEVER, "open": AT_6, "if:open": AT_6, "met": AT_6, "if:met": AT_1, "free": AT_6}
# For each its words, and its tag of JUnit.
WORDS = {"dead": ("vacuous", "failure"), "open": ("holds within 3", "skipped"), "met": ("holds within 3", "skipped"),
         "free": ("holds within 3", "skipped")}
# More latches after latch 16, which is 1 from frame 6 on. The last one has to be 0: no run has 22 frames. Of fewer than 20
# frames nothing is asked.
MORE = 15
ENDS = 2 * (9 + MORE) + 1
LAST = 6 + MORE
PROPERTIES = {"third": AT_3, "fifth": AT_5, "never": NEVER, "cover:second": AT_2, "cover:never": NEVER}
# The words of each before the contradiction, and with it: what a run shows stays.
BEFORE = {"third": "fails", "fifth": "fails", "never": "holds", "cover:second": "reached",
          "cover:never": "never reached"}
WITH_IT = {**BEFORE, "never": "vacuous", "cover:never": "vacuous"}


def circuit(properties, *constraints):
    """The latches of many.py with these properties, and more if a constraint is about the last one."""
    more = MORE if ENDS in constraints else 0
    counts = f"aag {9 + more} 1 {7 + more} 0 1 {len(properties)} {len(constraints)}"
    after = [f"{20 + 2 * at} {18 + 2 * at if at else 16}" for at in range(more)]
    symbols = [f"b{at} {name}" for at, name in enumerate(properties)]
    lines = [counts, "2", *LATCHES, *after, *map(str, properties.values()), *map(str, constraints), "18 4 2", *symbols, ""]
    return "\n".join(lines)


def run(name, frames, *words):
    return called("run", f"{name}.aag", "--abc", "", "--solver", SMALL_SOLVER, "--frames", frames, "-j", 2, *words)


def words_of(path):
    """The words of assertions and covers, by their symbols."""
    return {"cover:" * (it["kind"] == "cover") + it["name"]: it["result"] for it in manifest_of(path)["rows"]
            if "result" in it}


def dead(_, tally, __):
    """A bound under a condition that is never true is vacuous: in the table, in JUnit, on the page, and for `recheck`,
    which rejects another word."""
    Path("dead.aag").write_text(circuit(BOUNDED))
    status, out, _ = run("dead", FRAMES, "--junit", "j.xml")
    rows = {it["name"]: it for it in manifest_of("dead.verdicts")["rows"] if it["kind"] == "assert"}
    tally.compare("dead: bounds", {it["by"] for it in rows.values()}, {"bound"})
    wanted = {name: words for name, (words, _) in WORDS.items()}
    tally.compare("dead: words", (status, words_of("dead.verdicts")), (4, wanted))
    table = [re.split("  +", line)[2:4] for line in out.splitlines()]
    tally.compare("dead: the table", dict(table), wanted)
    tags = {case.get("name"): case[0].tag for case in tree.parse("j.xml").iter("testcase")}
    tally.compare("dead: JUnit", tags, {name: tag for name, (_, tag) in WORDS.items()})
    times = [tree.fromstring(Table([]).junit("d", seconds)).find("testsuite").get("time") for seconds in ({}, {1: 1.5, 7: 2})]
    tally.compare("dead: the time of all", times, ["0.0", "3.5"])
    page = Path("dead.verdicts/index.html").read_text()
    tally.compare("dead: the page", [page.count(it) for it in (">Vacuous:</b> its condition is never true",
                                                              ">Perhaps vacuous:</b> whether its condition")], [1, 1])
    status, _, err = called("recheck", "dead.verdicts")
    tally.check("dead: re-checked", status == 4 and "3 hold for the frames searched, 1 vacuous; 1 in doubt; all" in err, err)
    assumed(tally)
    for name, word in (("dead", "holds within 3"), ("open", "vacuous"), ("met", "vacuous"), ("free", "holds")):
        manifest = manifest_of("dead.verdicts")
        row(manifest, name)["result"] = word
        write_manifest(Path("dead.verdicts"), manifest)
        tally.compare(f"dead: {name} as {word}", why_rejected("dead.verdicts"), f"result of b{rows[name]['position']}")
        row(manifest, name)["result"] = wanted[name]
        write_manifest(Path("dead.verdicts"), manifest)


def late(_, tally, __):
    """Assumptions that can be kept for 21 frames, and not for 22: with 21 frames all is as it seems, and each last line
    says that more is not known. With 22, all that no run shows is vacuous. A contradiction is not told before its
    frame."""
    Path("late.aag").write_text(circuit(PROPERTIES, ENDS))
    path = Path("late.verdicts")
    for frames, said, wanted in ((LAST, "alive", BEFORE), (LAST + 1, f"no run of {LAST + 1} frames", WITH_IT),
                                 (LAST, f"no run of {LAST + 1} frames", WITH_IT)):
        status, _, err = run("late", frames)
        tally.compare(f"late: {frames} frames", (status, manifest_of(path)["rows"][0]["verdict"], words_of(path)),
                      (5, said, wanted))
        again, _, err_again = called("recheck", path)
        tally.compare(f"late: {frames} frames: re-checked", (again, "; all checked by aig" in err_again), (5, True))
        is_told = [f"kept for {LAST} frames; whether for more" in it for it in (err, err_again)]
        tally.compare(f"late: {frames} frames: that more is not known", is_told, [said == "alive"] * 2)
        is_shown = f"no run keeps the assumptions for {LAST + 1} frames" in (path / "index.html").read_text()
        tally.compare(f"late: {frames} frames: the page", is_shown, said != "alive")
    for name, change in {
        "told a frame before": lambda rows: rows[0].update(frames=LAST, verdict=f"no run of {LAST} frames"),
        "no contradiction": lambda rows: rows[3].update(result="holds"),
    }.items():
        manifest = manifest_of(path)
        change(manifest["rows"])
        write_manifest(path, manifest)
        wanted = "constraints: aig refute: proof" if "before" in name else "result of b2"
        tally.check(f"late: {name}", (why_rejected(path) or "").startswith(wanted), why_rejected(path))
        run("late", LAST + 1)
        tally.check(f"late: {name}, mended", why_rejected(path) is None and words_of(path) == WITH_IT)
    proved = aig.Circuit(circuit(PROPERTIES, ENDS))
    found = [prove(proved, 2, frames=it, solver=SMALL_SOLVER).vacuous for it in (LAST, LAST + 1)]
    tally.compare("late: prove", found, ["", f"no run of {LAST + 1} frames"])


def assumed(tally):
    """A bound under assumptions that no run keeps."""
    Path("assumed.aag").write_text(circuit({"late": AT_6, "cover:late": AT_6}, NEVER))
    status, _, _ = run("assumed", FRAMES)
    rows = manifest_of("assumed.verdicts")["rows"]
    tally.compare("dead: assumptions", [it["verdict"] for it in rows],
                  [f"no run of {LEAST_KEPT} frames", *[f"unreachable within {FRAMES}"] * 2])
    tally.compare("dead: assumptions: words", (status, words_of("assumed.verdicts")),
                  (4, {"late": "vacuous", "cover:late": "vacuous"}))
    status, _, err = called("recheck", "assumed.verdicts")
    tally.check("dead: assumptions: re-checked", status == 4 and "all checked by aig" in err, (status, err))
    found = prove(aig.Circuit(circuit({"late": AT_6}, NEVER)), frames=FRAMES, solver=SMALL_SOLVER)
    tally.compare("dead: assumptions: prove", (found.line, found.vacuous),
                  (f"unreachable within {FRAMES}", f"no run of {FRAMES} frames"))
