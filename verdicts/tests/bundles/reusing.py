"""What is known of an earlier version decides the rows of a new one, and nothing of it is believed. The circuit of the
new version is the old one with its latches in another order and under other names, so a solver is needed for nothing."""

from __future__ import annotations

import json
import re
import signal
from pathlib import Path

import aig
from aig.program import run as call
from aig_verdicts.audit.bundle import Bundle
from aig_verdicts.search.renamed import Renamed

from .common import SMALL_SOLVER, called, ended, kept, manifest_of, rows_of, started, tool, write_manifest
from .ends import wait_for


def renamed(circuit, is_turned):
    """The same circuit with new names for the latches whose names end in 0, and with all latches in the other order if
    it is turned."""
    lines = call("toaig", "--to", "aag", files=[circuit]).decode().split("\n")
    counts = [int(word) for word in lines[0].split()[1:]]
    first, count = 1 + counts[1], counts[2]
    if is_turned:
        lines[first : first + count] = reversed(lines[first : first + count])

    def moved(match):
        name = match[2] if "[" in match[2] else re.sub(r"0$", "0_new", match[2])
        return f"l{count - 1 - int(match[1]) if is_turned else match[1]} {name}"

    return "\n".join(re.sub(r"^l(\d+) (.*)$", moved, line) for line in lines).encode()


def without_sources(path):
    """The bundle as one of a circuit alone."""
    manifest = manifest_of(path)
    for name in [it for it in manifest["sums"] if it.startswith("sources/") or it == "yosys.ys"]:
        del manifest["sums"][name]
    manifest.update(sources=[], options={}, timing={}, simulated={})
    write_manifest(path, manifest)
    return path


def run(path, *words, solver=""):
    """A run without ABC, and with a solver that finds nothing, or another one."""
    return called("run", path, "--abc", "", "--solver", solver or tool("none", "exit 0"), "-j", "2", *words)


def reusing(_, tally, __):
    """A circuit whose latches have new names: old runs, proofs and certificates decide each row, without a solver. If
    their order is another one, the formulas are, too: then old certificates and depths do, with a solver."""
    old = without_sources(kept("every"))
    circuit = Bundle(old).circuit()
    for name, is_turned in (("renamed", False), ("turned", True)):
        Path(f"{name}.aag").write_bytes(renamed(circuit, is_turned))
        mapping = Renamed(circuit, Path(f"{name}.aag").read_bytes())
        entries = [it for it in aig.Circuit(circuit).entries if it.letter in "il"]
        tally.compare(f"reusing: {name}: all inputs and latches are found", len(mapping.to), len(entries))
        status, out, err = run(f"{name}.aag", "--since", old, "-o", name, "--frames", "8",
                               solver=SMALL_SOLVER if is_turned else "")
        was, now = rows_of(old), rows_of(name)
        for label, row in was.items():
            if row.get("by") in ("induction", "certificate", "run"):
                wanted = (row["verdict"], row.get("by"), row.get("frames"))
                tally.compare(f"reusing: {name}: {label}", tuple(now[label].get(it) for it in ("verdict", "by", "frames")),
                              wanted)
                tally.check(f"reusing: {name}: {label} says what it came from", now[label].get("origin"))
        tally.check(f"reusing: {name}: nothing is worse", status == 0 and "broken" not in out, (status, out))
        tally.check(f"reusing: {name}: the last line", re.search(r"\nsince every\.verdicts: .*; found \d+ by an old", err), err)
        tally.check(f"reusing: {name}: the page", Path(name, "changes.html").read_text().startswith("<!DOCTYPE"))
        status, _, err = called("recheck", name, "-q", "-j", "2")
        tally.check(f"reusing: {name}: all of it is checked", status in (0, 4, 5), err)
    origins = {row.get("origin") for row in rows_of("turned").values()}
    tally.check("reusing: each kind", {"old run", "old certificate"} <= origins, origins)
    kept_in_its_folder(tally, old)


def kept_in_its_folder(tally, old):
    """In the folder of the old results: they decide the rows, one line says what changed, and they are gone at the end.
    A run that is stopped leaves them."""
    folder = Path(old)
    _, out, err = run("renamed.aag", "-o", folder, "--frames", "8")
    tally.check("reusing: one line", err.count("since the sources before: ") == 1 and "\n\n" not in out, err)
    tally.check("reusing: in its folder", any(row.get("origin") for row in rows_of(folder).values()))
    tally.check("reusing: nothing is left behind", not (folder / "before").exists())
    sums = manifest_of(folder)["sums"]
    tally.check("reusing: all files are there", all((folder / name).is_file() for name in sums))
    _, _, err = run("renamed.aag", "-o", folder, "--frames", "8")
    tally.check("reusing: the same again has no line", "since" not in err, err)


def stopped_in_its_folder(program, tally, _):
    """A run in the folder of old results that is stopped leaves them, and the next one begins with them."""
    old = without_sources(kept("every"))
    circuit, hangs = Bundle(old).circuit(), Path("hangs").resolve()
    Path("turned.aag").write_bytes(renamed(circuit, True))
    solver = tool("hangs.sh", f'case $1 in --*) exec {SMALL_SOLVER} "$@";; esac; : > {hangs}; exec sleep 1000')
    process = started(program, "run", "turned.aag", "-o", old, "--abc", "", "--solver", solver, "-j", "1")
    wait_for(process, hangs.exists)
    process.send_signal(signal.SIGINT)
    status, _, err = ended(process)
    tally.compare("reusing: stopped", (status, Bundle(old / "before").circuit()), (130, circuit))
    status, out, err = run("turned.aag", "-o", old, "--frames", "8", solver=SMALL_SOLVER)
    tally.check("reusing: the next run", "since the sources before: " in err and status == 5, (status, err))
    origins = {row.get("origin") for row in rows_of(old).values()}
    tally.check("reusing: what it came from", {"old run", "old certificate"} <= origins, origins)
    tally.check("reusing: nothing is left of the old ones", not (old / "before").exists())


def open_rows(_, tally, __):
    """An open row is searched again, but for one whose bound is enough: with --keep-open, if the solver and the bounds are
    those of the old run."""
    log = Path("log").resolve()
    solver = tool("log.sh", f'case $1 in --*) ;; *) echo x >> {log};; esac; exec {SMALL_SOLVER} "$@"')
    Path("open.aag").write_bytes(OPEN)
    Path("renamed.aag").write_bytes(OPEN.replace(b"l0 a", b"l0 first"))
    words = ("--frames", "3", "--only", "far")
    run("open.aag", "-o", "old", *words, solver=solver)
    tally.compare("reusing: an open row", rows_of("old")["far"]["verdict"], "unreachable within 3")
    for name, more, is_kept in (("again", (), False), ("kept", ("--keep-open",), True),
                                ("farther", ("--keep-open", "--frames", "4"), False)):
        log.write_text("")
        run("renamed.aag", "--since", "old", "-o", name, *words, *more, solver=solver)
        found = rows_of(name)["far"]["verdict"], log.read_text() == ""
        tally.compare(f"reusing: an open row: {name}", found, (f"unreachable within {4 if name == 'farther' else 3}", is_kept))


# A counter of three bits, whose property fails at 7. Three frames do not see it, and no induction of three holds.
OPEN = b"""aag 10 0 3 0 7 1
2 3
4 10
6 21
14
8 2 4
12 3 5
10 9 13
14 8 6
16 8 7
18 9 6
20 17 19
l0 a
l1 b
l2 c
b0 far
"""


def lying_baselines(_, tally, __):
    """A baseline whose files are wrong. Of a failure it says so; all else is only a first try."""
    old = without_sources(kept("every"))
    Path("renamed.aag").write_bytes(renamed(Bundle(old).circuit(), False))
    manifest = manifest_of(old)
    runs = [it["files"]["witness"] for it in manifest["rows"] if it.get("by") == "run"]
    for name in runs:
        text = (old / name).read_bytes()
        (old / name).write_bytes(text.replace(b"\n1", b"\n0"))
    write_manifest(old, manifest)
    status, _, err = run("renamed.aag", "--since", old, "-o", "new")
    tally.check("lying baselines: a failure", status == 1 and "aig check" in err, (status, err))
    old = without_sources(kept("every"))
    manifest = manifest_of(old)
    for row in (it for it in manifest["rows"] if it.get("result") != "never reached"):
        for role, name in row.get("files", {}).items():
            if role not in ("witness", "certificate"):
                (old / name).write_bytes(b"1 0\n")
            if role == "certificate":
                (old / name).write_bytes(b"aag 1 1 0 0 0 1\n2\n2\ni0 = 4\n")
    (old / manifest["rows"][3]["files"]["witness"]).write_bytes(b"1")  # of a cover that is reached
    write_manifest(old, manifest)
    status, out, err = run("renamed.aag", "--since", old, "-o", "new")
    tally.check("lying baselines: proofs", status == 4 and all(
        row.get("by") in (None, "run", "kept", "bound") or row.get("result") == "never reached"
        for row in manifest_of("new")["rows"]), (status, err))
    manifest = manifest_of(old)
    row = next(it for it in manifest["rows"] if it.get("result") == "fails")
    row["result"] = "undecided"
    write_manifest(old, manifest)
    status, out, _ = run("renamed.aag", "--since", old, "-o", "new")
    tally.compare("lying baselines: that it did not fail", (status, out.count("\nbroken")), (5, 1))
    manifest["rows"][-1]["origin"] = "old wives"
    write_manifest(old, manifest)
    status, _, err = run("renamed.aag", "--since", old, "-o", "new")
    tally.check("lying baselines: another origin", status == 1 and "origin of" in err, err)


def refused(_, tally, __):
    """What `--since` cannot be."""
    old = kept("every")
    Path("renamed.aag").write_bytes(renamed(Bundle(old).circuit(), False))
    status, _, err = run("renamed.aag", "--since", "nothing", "-o", "new")
    tally.compare("since: no bundle", (status, err.splitlines()[-1]), (3, "aig-verdicts: there is no bundle nothing"))
    status, _, err = run("renamed.aag", "--since", old, "-o", old)
    tally.check("since: its own folder", status == 1 and "this run writes that folder" in err, err)
    tally.compare("since: that folder stays", json.loads((old / "MANIFEST.json").read_text())["name"],
                  manifest_of(kept("every"))["name"])
    status, out, err = called("recheck", old, "--since", old, "-j", "2", "--page", "page.html", "--junit", "junit.xml")
    tally.check("since: recheck", status == 0 and f"since {old}: " in err and "still fails" in out, (status, err))
    tally.check("since: its page", "what changed" in Path("page.html").read_text() and
                "still fails" in Path("junit.xml").read_text())
