"""What of the input has no verdict: each property that nobody looks at is in the table, in JUnit, on the page, in MANIFEST.json
and in the status. And a design whose top module has the name of another one is not taken for a new version of that."""

from __future__ import annotations

import json
import shutil
import xml.etree.ElementTree as tree
from pathlib import Path

from bundles.common import called, manifest_of, write_manifest

HEAD = "module m(input clk, input a, output reg q = 0);\nalways @(posedge clk) q <= a;\nalways @* x: assert (q <= 1);\n"
ELSEWHERE = "it is in no instance below the top module, or under an `if` or `ifdef` that is constant"
LIVE = "it asks for liveness"
# Of each design what comes after the head, and where and why nobody looks at a property of it.
DESIGNS = {
    "in a procedure": ("always @(posedge clk) assert property (s_eventually q);\nendmodule\n", [(LIVE, "m.sv:4")]),
    "at a clock": ("y: assert property (@(posedge clk) a |=> q);\nassert property (@(posedge clk)\n s_eventually q); cover property "
                   "(@(posedge clk) s_always q);\nendmodule\n", [(LIVE, "m.sv:5"), (LIVE, "m.sv:6")]),
    "in another module": ("beside u(q);\nwire unused;\nendmodule\nmodule beside(input b);\nif (0) always @* assert (b);\nendmodule\n",
                          [(ELSEWHERE, "m.sv:8")]),
    "under a constant": ("parameter W = 0;\nif (W) always @* assert (a);\n`ifdef NEVER\nalways @* cover (a);\n`endif\nendmodule\n",
                         [(ELSEWHERE, "m.sv:5"), (ELSEWHERE, "m.sv:7")]),
    "in a macro": ("`define CHECK(c) assert (c)\nif (0) always @* begin `CHECK(a); `CHECK(!a); end\nendmodule\n",
                   [(ELSEWHERE, "m.sv:5"), (ELSEWHERE, "m.sv:5")]),
    "in a task": ("task t; assert (a); endtask\nendmodule\n", [(ELSEWHERE, "m.sv:4")]),
    "none": ("endmodule\n", []),
}
# A latch follows the input. One property is never reached, and the justice properties are about the latch.
JUSTICE = "aag 2 1 1 0 0 1 0 2\n2\n4 2\n0\n1\n1\n4\n5\nb0 safe\n"
OF_M = ("m.sv", "--top", "m", "--no-simulator")
SHORT = ("--abc", "", "--seconds", "5", "-j", "1")


def lines(wanted):
    return [f"not looked at: {why}, {place}" for why, place in wanted]


def said_by(tally, name, words, ends, wanted):
    """What a run writes of the properties that nobody looks at."""
    status, text, err = called("run", *words, *SHORT, "-o", "out", "--junit", "j.xml")
    tally.compare(f"unread: {name}: status", status, ends)
    tally.compare(f"unread: {name}: the table", [line[1:].strip() for line in text.splitlines() if line.startswith("-")], lines(wanted))
    tally.check(f"unread: {name}: the last line", (f"; {len(wanted)} not looked at" in err) == bool(wanted), err)
    suite = tree.parse("j.xml").getroot().find("testsuite")
    errors = [it.get("message") for it in suite.iter("error")]
    tally.compare(f"unread: {name}: JUnit", (errors, suite.get("errors")), (lines(wanted), str(len(wanted))))
    page = Path("out/index.html").read_text()
    tally.compare(f"unread: {name}: the page", page.count("<li>not looked at: "), len(wanted))
    unread = manifest_of("out").get("unread", [])
    tally.compare(f"unread: {name}: MANIFEST.json", len(unread), len(wanted))
    made = json.loads(called("run", *words, *SHORT, "-o", "out", "--json", "-q")[1])
    tally.compare(f"unread: {name}: --json", (made["status"], len(made["unread"])), (ends, len(unread)))


def unread(_, tally, __):
    """Each design, its bundle, a bundle that does not say it, and what `compare` says."""
    for name, (text, wanted) in DESIGNS.items():
        Path("m.sv").write_text(HEAD + text)
        shutil.rmtree("out", ignore_errors=True)
        status = 4 if wanted else 0
        said_by(tally, name, OF_M, status, wanted)
        rechecked(tally, name, status, wanted, "--yosys")
    chosen(tally)
    Path("just.aag").write_text(JUSTICE)
    shutil.rmtree("out", ignore_errors=True)
    wanted = [("a justice property asks for liveness", it) for it in ("j0", "j1")]
    said_by(tally, "justice", ["just.aag"], 4, wanted)
    rechecked(tally, "justice", 4, wanted)
    Path("m.sv").write_text((HEAD + DESIGNS["in another module"][0]).replace("q <= 1", "q <= 0"))
    tally.compare("unread: beside one that fails", called("run", *OF_M, *SHORT, "-o", "fails")[0], 5)
    status, text, _ = called("run", *OF_M, *SHORT, "-o", "only", "--only", "x")
    tally.compare("unread: `--only` names others", (status, "not looked" in text), (5, False))
    compared(tally)
    forms(tally)


def chosen(tally):
    """Assertions of modules that are not below the one that `--top` names are not asked for. Those below it are, and all of them
    if Yosys finds the top module."""
    Path("m.sv").write_text(HEAD + "low u(a);\nendmodule\nmodule low(input c);\nendmodule\nmodule beside(input b);\n"
                            "always @* assert (b);\nendmodule\n")
    for words, status in (((), 4), (("--top", "m"), 0)):
        found, _, err = called("run", "m.sv", "--no-simulator", *words, *SHORT, "-o", "chosen", "--fresh")
        tally.compare(f"unread: beside {words or 'the top module'}", (found, "m.sv:9: no row" in err), (status, True))
    Path("m.sv").write_text(HEAD + "if (0) always @* assert (a); endmodule module beside(input b); always @* assert (b); endmodule\n")
    found, _, err = called("run", *OF_M, *SHORT, "-o", "chosen")
    tally.check("unread: two modules on a line", found == 4 and "; 2 not looked at" in err, (found, err))


def rechecked(tally, name, status, wanted, *words):
    """The bundle says it again, also where the sender does not."""
    for sender in ("", "silent "):
        manifest = manifest_of("out")
        if sender:
            manifest.pop("unread", None)
            write_manifest(Path("out"), manifest)
        found, _, err = called("recheck", "out", *words, "--junit", "k.xml")
        tally.check(f"unread: {name}: a {sender}bundle", found == status and all(it in err for it in lines(wanted)), (found, err))
        tally.check(f"unread: {name}: a {sender}bundle: checked", ("; all checked by aig" in err) == (not wanted), err)
        tally.compare(f"unread: {name}: a {sender}bundle: JUnit", Path("k.xml").read_text().count("<error"), len(wanted))


def compared(tally):
    """One more is a change for the worse, and one that was there before is none."""
    for name in ("none", "under a constant"):
        Path("m.sv").write_text(HEAD + DESIGNS[name][0])
        called("run", *OF_M, *SHORT, "-o", name.split()[0])
    for words, status in ((("none", "under"), 4), (("under", "none"), 0), (("under", "under"), 0)):
        found, _, err = called("compare", *words)
        tally.compare(f"unread: compare {words}", (found, "m.sv:5 is not looked at, and 1 more" in err), (status, status == 4))
    status, _, err = called("run", *OF_M, *SHORT, "-o", "since", "--since", "none")
    tally.check("unread: --since", status == 4 and "not looked at" in err, (status, err))


def forms(tally):
    """A manifest in which they have another form is rejected."""
    called("run", *OF_M, *SHORT, "-o", "forms")
    one = {"why": "elsewhere", "file": "m.sv", "line": 5}
    for name, found in {"another file": {**one, "file": "n.sv"}, "a sentence": {**one, "why": "all is well"}, "no file": {**one, "file": ""},
                        "more": {**one, "said": "all is well"}, "less": {"why": "elsewhere"}, "a line that is none": {**one, "line": -1},
                        "another type": {**one, "line": "5"}, "justice in a file": {**one, "why": "justice"}}.items():
        manifest = manifest_of("forms")
        manifest["unread"] = [found]
        write_manifest(Path("forms"), manifest)
        tally.compare(f"unread: {name}", called("recheck", "forms", "-q")[0], 1)


def same_top(_, tally, __):
    """Results of other files with the same top module stay as they are, if no folder is named."""
    for folder, text in (("one", HEAD), ("two", HEAD.replace("q <= 1", "q <= 0"))):
        Path(folder).mkdir()
        Path(folder, "m.v").write_text(text + "endmodule\n")
        Path(folder, "more.v").write_text("module more; endmodule\n")

    def run(*words):
        status, _, err = called("run", *words, "--top", "m", "--no-simulator", *SHORT)
        return status, err

    tally.compare("same top: the first", run("one/m.v")[0], 0)
    before = Path("m.verdicts/MANIFEST.json").read_bytes()
    status, err = run("two/m.v")
    tally.check("same top: another one", status == 1 and "m.verdicts has the results of other files" in err, (status, err))
    tally.check("same top: nothing was written", Path("m.verdicts/MANIFEST.json").read_bytes() == before)
    tally.compare("same top: in a folder of its own", run("two/m.v", "-o", "two.verdicts")[0], 5)
    tally.compare("same top: with one more file", run("one/m.v", "one/more.v")[0], 0)
    tally.compare("same top: one file and another one", run("one/m.v", "two/more.v")[0], 1)
    Path("one/m.v").write_text(HEAD + "// edited\nendmodule\n")
    tally.compare("same top: edited", run("one/m.v")[0], 0)
    Path("m.verdicts/files.json").write_text('"a forged list')
    tally.compare("same top: a list that is none", run("two/m.v")[0], 5)
    tally.compare("same top: the folder that is named", run("one/m.v", "-o", "m.verdicts")[0], 0)
    tally.compare("same top: is that of its files from now on", run("two/m.v")[0], 1)
    stub = HEAD + "endmodule\n" + HEAD.replace("module m(", "module stub(").replace("q <= a", "q <= 0") + "endmodule\n"
    Path("stub.v").write_text(stub)
    called("run", "stub.v", "--top", "stub", "--no-simulator", *SHORT, "-o", "stub")
    tally.compare("same top: a stub", called("recheck", "stub", "--yosys")[0], 0)
    manifest = manifest_of("stub")
    manifest["name"] = "m"
    write_manifest(Path("stub"), manifest)
    status, _, err = called("recheck", "stub", "--yosys")
    tally.check("same top: a stub as the module", status == 1 and "the top module of the sources is stub" in err, (status, err))
