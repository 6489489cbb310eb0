"""More of each thing than any number in the code: assertions, options, frames, sources, files of a .zip."""

from __future__ import annotations

import re
from pathlib import Path

import aig
from aig_verdicts.audit.bundle import Bundle
from aig_verdicts.audit.folder import pack
from aig_verdicts.audit.manifest import FORMAT
from aig_verdicts.compare.again import same_sources
from aig_verdicts.audit.row import name_of
from bundles.common import called, judged, kept, manifest_of, tool, why_rejected, write_manifest
from bundles.late import circuit
from bundles.many import AT_6, KINDS, NEVER, files_of, made

ROWS, OPTIONS = 150, 110
FRAMES = 2000
SOURCES = 130


def lots(_, tally, __):
    """The last of many is not forgotten."""
    options(tally)
    frames(tally)
    sources(tally)
    path = made("zipped")
    pack(path, Path("zipped.zip"))
    tally.compare("lots: a .zip of 150 files", judged("zipped.zip"), judged(path))
    pack(made("lie", "bound"), Path("lie.zip"))
    tally.check("lots: its last row is a lie", (why_rejected("lie.zip") or "").startswith("b59: "))


def options(tally):
    """150 assertions, of which 110 options name all but one of the first 111: each has one answer, and no other row."""
    Path("lots.aag").write_text(circuit({f"p{at}": AT_6 for at in range(ROWS)}))
    log = Path("log").resolve()
    solver = tool("none", f'case "$*" in *cnf*) echo x >> {log} ;; esac; exit 0')
    names = [f"p{at}" for at in range(OPTIONS + 1) if at != 7]
    status, out, err = called("run", "lots.aag", "--abc", "", "--solver", solver, "--frames", 1, "-j", 2,
                              *(word for name in names for word in ("--only", name)))
    rows = manifest_of("lots.verdicts")["rows"][1:]
    found = [it["name"] for it in rows if it["verdict"] == "undecided" and it["notes"]]
    left = [it["name"] for it in rows if it["verdict"] == "left out"]
    tally.compare("lots: assertions", (status, len(rows), found), (4, ROWS, names))
    tally.compare("lots: left out", left, [f"p{at}" for at in (7, *range(OPTIONS + 1, ROWS))])
    tally.compare("lots: questions", len(log.read_text().splitlines()), OPTIONS)
    tally.compare("lots: lines", [re.split("  +", line)[2] for line in out.splitlines()], names)
    tally.check("lots: the terminal", f"p0, p1, p2 and {OPTIONS - 3} more: " in err
                and f"{OPTIONS} assertions: {OPTIONS} undecided" in err, err)
    page = Path("lots.verdicts/index.html").read_text()
    tally.compare("lots: sections", [name for name in names if f"<h3 class=name>{name}</h3>" not in page], [])
    status, out, err = called("recheck", "lots.verdicts")
    tally.check("lots: re-checked", status == 4 and out.splitlines()[1:] == [] and f"0 of {ROWS} checked by aig" in err,
                err)
    manifest = manifest_of("lots.verdicts")
    manifest["rows"][-1]["name"] = "p0"
    write_manifest(Path("lots.verdicts"), manifest)
    tally.check("lots: the last name", "b149 has another kind or name" in (why_rejected("lots.verdicts") or ""))


def written(run, bound):
    """A bundle of a run, a bound and an induction of so many frames. A lie is about another literal."""
    path = Path("deep")
    path.mkdir(exist_ok=True)
    (path / "circuit.aig").write_text(circuit({"run": run, "bound": bound, "step": NEVER}, 2))
    rows = [{"position": -1, "kind": "constraints", "name": "", "verdict": "alive", "by": "kept", "frames": FRAMES,
             "files": {"witness": "alive.wit"}}]
    for at, (name, by, verdict, result) in enumerate((
            ("run", "run", "confirmed", "fails"),
            ("bound", "bound", f"unreachable within {FRAMES}", f"holds within {FRAMES}"),
            ("step", "induction", "unreachable", "holds"))):
        files = files_of(KINDS[by]._replace(frames=FRAMES), at)
        files.pop("shorter", None)
        rows.append({"position": at, "kind": "assert", "name": name, "verdict": verdict, "by": by, "frames": FRAMES,
                     "result": result, "files": {role: name_of(at, role) for role in files}})
        for role, data in files.items():
            (path / name_of(at, role)).write_bytes(data)
    (path / "alive.wit").write_bytes((path / "0.wit").read_bytes())
    sums = {name: "" for name in ("circuit.aig", *(file for it in rows for file in it["files"].values()))}
    write_manifest(path, {"format": FORMAT, "name": "deep", "notes": [], "bounds": {}, "options": {}, "sources": [],
                          "versions": {"aig": "aig"}, "rows": rows, "sums": sums})


def frames(tally):
    """A run, a bound and an induction of 2,000 frames, and a run of so many that keeps the constraints."""
    written(AT_6, NEVER)
    status, out, err = called("recheck", "deep", "--page", "page.html")
    tally.compare("lots: frames", (status, out.splitlines()),
                  (5, ["constraints  alive", "b0  confirmed  run", f"b1  unreachable within {FRAMES}  bound",
                       "b2  unreachable  step"]))
    tally.check("lots: frames: the page", f"fails at cycle {FRAMES - 1}" in Path("page.html").read_text())
    for lie, words in (("run", (NEVER, NEVER)), ("bound", (AT_6, AT_6))):
        written(*words)
        at = ("run", "bound").index(lie)
        tally.check(f"lots: frames: {lie}", (why_rejected("deep") or "").startswith(f"b{at}: "), why_rejected("deep"))
    written(AT_6, NEVER)
    witness = Path("deep/alive.wit")
    witness.write_bytes(witness.read_bytes()[:-4] + b"0\n.\n")
    write_manifest(Path("deep"), manifest_of("deep"))
    why = why_rejected("deep") or ""
    tally.check("lots: frames: the last breaks a constraint", f"prints 'constraint {FRAMES - 1} 0'" in why, why)
    late = aig.Circuit(circuit({"late": AT_6}))
    trace = late.witness(["1"] * FRAMES, "late")
    tally.compare("lots: frames: the first that is bad", len(trace.rows), 7)


def sources(tally):
    """130 sources beside those of the auditor: all the same, one that differs, one more, one less."""
    path = kept("every")
    manifest = manifest_of(path)
    names = [f"f{at:03}.v" for at in range(SOURCES)]
    for name in names:
        (path / "sources" / name).write_text(f"// {name}\n")
        Path(name).write_text(f"// {name}\n")
        manifest["sums"][f"sources/{name}"] = ""
    manifest["sources"] += names
    write_manifest(path, manifest)
    Path("every.v").write_bytes((path / "sources/every.v").read_bytes())
    files = [Path("every.v"), *map(Path, names)]

    def why():
        try:
            same_sources(Bundle(path), files, [])
        except Exception as error:
            return str(error)
        return ""

    tally.compare("lots: sources", (why_rejected(path), why()), (None, ""))
    last = files[-1]
    last.write_text("// another\n")
    tally.check("lots: sources: the last differs", f"{last}: the bundle has another text" in why(), why())
    files.pop()
    tally.check("lots: sources: the last is missing", f"{last}: none of your files" in why(), why())
    files.append(last)
    last.write_text(f"// {last}\n")
    files.append(Path("more.v"))
    files[-1].write_text("// more\n")
    tally.check("lots: sources: one more", "more.v: not in the bundle" in why(), why())
    (path / "sources" / last).write_text("// another\n")
    tally.check("lots: sources: the last in the bundle", f"sources/{last} has another sum" in (why_rejected(path) or ""))
