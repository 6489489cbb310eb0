"""What proofs need (`--cores`): a circuit whose truth is known, and circuits that are garbled where no proof looks.
Hints are made by tests/hints/drat2lrat.cpp, where there is a compiler of C++."""

from __future__ import annotations

import functools
import os
import shutil
import tempfile
import xml.etree.ElementTree as tree
from pathlib import Path
from types import SimpleNamespace

from aig_verdicts.pages import needs as needs_page
from aig_verdicts.audit import pieces
from bundles.common import (
    HERE, SMALL_SOLVER, called, kept, manifest_of, of_script, rows_of, same_manifests, tool, why_rejected,
    write_manifest,
)
from hints.programs import built
from library.runs import contents

# `state` has two bits that always differ, `late` follows `delay`, and that follows `go`, which stays 1. Two assumptions
# each forbid what `either` asserts, and `data` is in no proof. Whatever `go` is at first, `late` follows it.
CIRCUIT = HERE / "needs.aag"
# Of each row: registers, those whose resets matter, and the least number of assumptions.
NEEDS = {
    "trivial": ((), (), 0), "toggles": (("state",), ("state",), 0),
    "chain": (("delay", "go", "late"), ("delay", "late"), 0), "either": ((), (), 1), "assumed": ((), (), 1),
}
WORDS = {
    "trivial": "nothing: trivial", "toggles": "1 register, no assumption", "chain": "3 registers, no assumption",
    "either": "no register, 1 assumption", "assumed": "no register, 1 assumption",
}
_folder = tempfile.TemporaryDirectory()


def run(*words, out="out", circuit=CIRCUIT, frames=2):
    return called("run", circuit, "--out", out, "--abc", "", "--solver", SMALL_SOLVER, "--frames", frames, *words)


@functools.lru_cache(maxsize=None)
def made(*words):
    """A folder of results, made once for all parts."""
    path = Path(_folder.name, "_".join(["of", *words]).replace("-", ""))
    run("--drat2lrat", built("drat2lrat"), *words, out=path)
    return path


def copied(*words, to="copy"):
    shutil.rmtree(to, ignore_errors=True)
    return Path(shutil.copytree(made(*words), to))


def needs_of(path):
    """What MANIFEST.json has of each row that needs something known."""
    return {name: (tuple(it["needs"]["registers"]), tuple(it["needs"]["resets"]), len(it["needs"]["assumptions"]))
            for name, it in rows_of(path).items() if "needs" in it}


def cut_of(path, name):
    """The lines of the cuts of a row."""
    return contents(str(Path(path, rows_of(path)[name]["files"]["cuts"]))).decode().splitlines()


def needs(_, tally, __):
    """Each row needs what it is known to need, in the manifest, the table, `recheck`, the page, and JUnit. Its proofs
    are those of the smaller circuit, and no others are in the folder."""
    path = made("--cores")
    tally.compare("needs: of each row", needs_of(path), NEEDS)
    tally.compare("needs: which assumption", rows_of(path)["assumed"]["needs"]["assumptions"], ["no_c"])
    tally.compare("needs: format", manifest_of(path)["format"], "aig-verdicts 3")
    tally.compare("needs: one without", manifest_of(made())["format"], "aig-verdicts 2")
    status, out, err = called("recheck", path, "--page", "page.html", "--junit", "junit.xml")
    lines = {line.split("  ")[2]: line.split("  ")[3:] for line in out.splitlines() if line.startswith("b")}
    tally.compare("needs: recheck", (status, lines),
                  (5, {**{name: [f"needs {word}"] for name, word in WORDS.items()}, "fails": []}))
    tally.check("needs: which assumption no proof needs", "no proof needs" in err and "no_c" not in err, err)
    page = contents("page.html").decode()
    tally.check("needs: page", all(f"<td>{word}</td>" in page for word in WORDS.values()), page.count("<td>n"))
    cases = {case.get("name"): "".join(case.itertext())
             for case in tree.fromstring(contents("junit.xml")).iter("testcase")}
    tally.check("needs: JUnit", all(f"needs {word}" in cases[name] for name, word in WORDS.items()), cases)
    files = {it.name for it in path.iterdir() if it.suffix in (".drat", ".lrat", ".cuts", ".wit")}
    tally.compare("needs: files", files, {it for it in manifest_of(path)["sums"] if not it.endswith(".aig")})
    done = of_script(path)
    tally.compare("needs: recheck.sh", (done.returncode, done.stderr, done.stdout.count("unreachable: cut --cuts")),
                  (0, "", 5))
    tally.compare("needs: commands", [it.get("makes") for it in rows_of(path)["chain"]["commands"]], ["cut.aag", None])


def unneeded(_, tally, __):
    """What no proof needs: `data`, and one of the two assumptions of which each is enough."""
    path = copied("--cores")
    section = section_of(called("recheck", path, "--page", "page.html") and contents("page.html").decode())
    tally.check("unneeded: data alone", ">data</span>" in section and not any(
        f">{name}</span>" in section for name in ("state", "go", "delay", "late")), section)
    tally.compare("unneeded: one of two",
                  [f">{name}</span>" in section for name in ("not_both", "no_b", "no_c")].count(True), 1)
    tally.check("unneeded: no_c is needed", ">no_c</span>" not in section, section)
    tally.check("unneeded: it is about five rows", "5 rows" in section and "more" not in section, section)
    manifest = manifest_of(path)
    row = next(it for it in manifest["rows"] if it.get("name") == "toggles")
    old = copied(to="whole")
    for name in row["files"].values():
        (path / name).unlink()
        manifest["sums"].pop(name)
    row.update(next(it for it in manifest_of(old)["rows"] if it.get("name") == "toggles"))
    row.pop("needs")
    for name in row["files"].values():
        shutil.copy(old / name, path / name)
        manifest["sums"][name] = ""
    write_manifest(path, manifest)
    called("recheck", path, "--page", "page.html")
    section = section_of(contents("page.html").decode())
    tally.check("unneeded: one row is not known", "4 rows" in section and "Of 1 more" in section,
                section or why_rejected(path))


def section_of(page):
    return page.partition("What no proof needs</h2>")[2].partition("<h2")[0]


def afterwards(_, tally, __):
    """`cores` of a folder that is there does the same, asks nothing twice, and keeps all else of the folder."""
    path = copied(to="later")
    before = manifest_of(path)
    words = ("--solver", SMALL_SOLVER, "--abc", "", "--drat2lrat", built("drat2lrat"), "-q")
    status, out, err = called("cores", path, *words)
    tally.compare("afterwards: status", (status, err), (5, ""))
    tally.compare("afterwards: needs", needs_of(path), NEEDS)
    tally.check("afterwards: the table", all(f"  needs {word}  " in out for word in WORDS.values()), out)
    same = ("bounds", "name", "notes", "options", "simulated", "sources", "timing", "versions")
    tally.compare("afterwards: the rest stays", {it: manifest_of(path)[it] for it in same},
                  {it: before[it] for it in same})
    tally.check("afterwards: re-checked", why_rejected(path) is None, why_rejected(path))
    manifest = contents("later/MANIFEST.json")
    tally.compare("afterwards: again", called("cores", path, *words[2:], "--solver", tool("none", "exit 9"))[1], out)
    tally.check("afterwards: the same again", contents("later/MANIFEST.json") == manifest)
    tally.compare("afterwards: a run keeps them", run("-q", out=path)[1], out)
    tally.compare("afterwards: no folder", called("cores", "nowhere", *words)[0], 3)
    run("--drat2lrat", built("drat2lrat"), "--cores", "-j", "1", out="one")
    tally.check("afterwards: the same from one worker", same_manifests("one", made("--cores")))


def minimal(_, tally, __):
    """With --minimal each piece that is left is tried: the initial value of `go` never matters, whatever the first
    proof used."""
    path = copied(to="minimal")
    called("cores", path, "--solver", SMALL_SOLVER, "--abc", "", "--drat2lrat", built("drat2lrat"), "--minimal", "-q")
    tally.compare("minimal: needs", needs_of(path), NEEDS)
    tally.check("minimal: re-checked", why_rejected(path) is None)


def contradictions(_, tally, __):
    """Assumptions that contradict each other: the row of all assumptions needs both, and the register that one reads. A
    vacuous row says so, whatever its own proof needs."""
    path = kept("contradiction")
    words = ("--solver", SMALL_SOLVER, "--abc", "", "--drat2lrat", built("drat2lrat"))
    _, out, _ = called("cores", path, *words)
    row = manifest_of(path)["rows"][0]
    tally.check("contradictions: some are needed", row.get("needs", {}).get("assumptions"), row)
    tally.check("contradictions: re-checked", why_rejected(path) is None, why_rejected(path))
    rows = [line for line in out.splitlines() if "vacuous" in line]
    tally.check("contradictions: vacuous", rows and all("needs 1 register, 2 assumptions" in line for line in rows),
                out)


def counting(_, tally, __):
    """The number of a line is how many rows need a register that it declares or writes, or an assumption that it
    makes."""
    def row(position, registers, assumptions):
        return SimpleNamespace(row=SimpleNamespace(position=position),
                               needs=pieces.Needs(registers, (), assumptions, True))

    known = [row(0, ("top.count", "q"), ("polite",)), row(1, ("top.count",), ("t.v:7",)), row(2, ("mem[3]",), ())]
    found = pieces.Needs(("idle", "u.timer"), (), ("other",), True)
    counts = needs_page.Counts(needs_page.Proofs(known, 0), found, {"q": ["q", "top.also_q"]})
    for number, text, wanted in (
            (1, "reg [3:0] count, q;", 2), (2, "  q <= count + 1;", 1), (3, "count <= 0; timer <= 1;", 2),
            (4, "timer <= q;", 0), (5, "reg [7:0] mem [0:3];", 1), (6, "polite: assume (q <= 3);", 1),
            (7, "assume (count);", 1), (8, "assume (q);", -1),
            (9, "other: assume (1);", 0), (10, "wire a = q;", -1), (11, "assert (q <= 3);", -1), (12, "// q <= 1;", -1),
            (13, "if (rst) begin idle <= 0; end", 0), (14, "", -1), (15, "also_q <= 1;", 1)):
        tally.compare(f"counting: {text!r}", counts.of("t.v", number, text), wanted)
    line = counts.line("t.v", 4, "timer <= q;")
    tally.check("counting: none", 'class="idle"' in line and ">none<" in line, line)
    tally.check("counting: needed", 'class="need"' in counts.line("t.v", 2, "q <= 1;"))


# -- garbled circuits


def garbled(_, tally, __):
    """What no proof needs is garbled: next states, resets, assumptions. The same rows hold, by another search. What a
    row needs is garbled, and it fails."""
    lines = CIRCUIT.read_text().splitlines()
    holds = {name: "holds" for name in NEEDS}
    cut = {name: set(cut_of(made("--cores"), name)) for name in NEEDS}
    every = set.intersection(*cut.values())
    tally.check("garbled: something is in no proof", {"f 18", "f 20", "r 18", "r 20"} < every, every)
    for name, edits in (
            ("data", {"18 4 18": "18 9 0", "20 18": "20 13 1"}),
            ("data late", {"18 4 18": "18 16 1", "20 18": "20 11 20"}),
            ("go at first", {"12 31": "12 31 1"}), ("go at any", {"12 31": "12 31 12"})):
        _, out, _ = run("-q", out=f"of {name}", circuit=garbling(lines, edits, set()))
        rows = {it: words["result"] for it, words in rows_of(f"of {name}").items() if it in holds}
        tally.compare(f"garbled: {name}", rows, holds)
    dropped = {line for line in every if line.startswith("c ")}
    run("-q", out="dropped", circuit=garbling(lines, {}, {int(line[2:]) for line in dropped}))
    tally.compare("garbled: assumptions",
                  {it: words["result"] for it, words in rows_of("dropped").items() if it in holds}, holds)
    for name, edits in (("toggles", {"10 8 1": "10 9 1"}), ("toggles", {"10 8 1": "10 8"}),
                        ("chain", {"16 14": "16 3"}), ("chain", {"14 12": "14 12 1"})):
        run("-q", out="needed", circuit=garbling(lines, edits, set()))
        tally.compare(f"garbled: {name} needs {edits}", rows_of("needed")[name]["result"], "fails")


def since(_, tally, __):
    """A later version that differs in what no proof needs: its rows hold by the old proofs, and need the same. Where
    they do not fit, the search finds others, about the whole circuit."""
    lines = CIRCUIT.read_text().splitlines()
    for name, edits, wanted in (("data", {"18 4 18": "18 9 0"}, set(NEEDS)),
                                ("state", {"10 8 1": "10 8"}, set(NEEDS) - {"toggles"})):
        run("-q", "--since", made("--cores"), out=name, circuit=garbling(lines, edits, set()))
        old = {it for it, row in rows_of(name).items() if row.get("origin") == "old proof"}
        tally.compare(f"since: {name}", old, wanted)
        tally.compare(f"since: {name}: needs", needs_of(name), {it: NEEDS[it] for it in wanted})
        tally.check(f"since: {name}: re-checked", why_rejected(name) is None, why_rejected(name))


def garbling(lines, edits, dropped):
    """The circuit with other lines, and without some constraints."""
    first = 1 + 3 + 7 + 6
    found = [edits.get(line, line) for line in lines]
    for at in dropped:
        found[first + at] = "1"
    path = Path("garbled.aag")
    path.write_text("\n".join([*found, ""]))
    return path


# -- programs that fail


LAST = 'for last; do :; done; '


def failing(_, tally, __):
    """A program for hints that crashes or lies: rows keep the proofs of the whole circuit, and a note says why. Without
    any, the same is found by trying."""
    program = built("drat2lrat")
    for name, body in (("crash", "kill -SEGV $$"), ("nothing", "exit 0"), ("noise", f'{LAST}echo "5 5 5" > "$last"'),
                       ("cut off", f'{LAST}{program} "$@" && head -c 40 "$last" > cut && mv cut "$last"'),
                       ("others", f'{LAST}echo "999 0 1 2 3 0" > "$last"')):
        path = copied(to=f"of {name}")
        called("cores", path, "--solver", SMALL_SOLVER, "--abc", "", "--drat2lrat", tool(f"{name}.sh", body), "-q")
        tally.check(f"failing: {name}: re-checked", why_rejected(path) is None, why_rejected(path))
        row = rows_of(path)["chain"]
        tally.check(f"failing: {name}: a note, or a core", row.get("notes") or "needs" in row, row)
    before = os.environ["PATH"]
    try:
        os.environ["PATH"] = "/nowhere"
        status, _, err = run("--cores", out="none")
    finally:
        os.environ["PATH"] = before
    tally.check("failing: none", status == 5 and "found by trying" in err, (status, err))
    tally.compare("failing: none: needs", needs_of("none"), NEEDS)
    tally.compare("failing: one that is named", run("--cores", "--drat2lrat", "./nowhere", out="nowhere")[0], 1)
    path = copied(to="by_a_liar")
    lying = tool("lying", f'case "$*" in *version*) exit;; esac; {LAST}echo "0" > "$last"; exit 20')
    called("cores", path, "--solver", lying, "--abc", "", "--drat2lrat", program, "-q")
    tally.check("failing: a solver that lies", why_rejected(path) is None, why_rejected(path))
    rows = rows_of(path)  # propagation alone shows the core of `chain`, so there the solver is right
    tally.check("failing: a solver that lies has no core",
                all("needs" not in rows[it] for it in ("toggles", "assumed")), rows)
