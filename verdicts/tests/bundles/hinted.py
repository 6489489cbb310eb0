"""Proofs with hints (`--hints`), made by tests/hints/drat2lrat.cpp, where there is a compiler of C++."""

from __future__ import annotations

import os
from pathlib import Path

from aig_verdicts.audit.hints import has_hints
from bundles.common import (
    FEW, SMALL_SOLVER, by_symbol, called, judged, kept, manifest_of, rows_of, same_manifests, tool,
)
from bundles.searches import KNOWN, run
from hints.programs import built
from library.runs import contents, contents_of

# Texts in LRAT, and others.
IN_LRAT = (b"5 1 0 2 0\n", b"5 0 1 2 0\n", b"\n\nc 1 0\n \t5\t1 0 2 0", b"5 d 1 0\n", b"0 d 0\n", b"5 d1\n")
IN_DRAT = (b"", b"\n", b"c 5 1 0 2 0\n", b"5 1 0\n2 0\n", b"5 1\n0 2 0\n", b"-5 1 0 2 0\n", b"d 1 0\n", b"a\x04\x00",
           b"d\x04\x00", b"0\n", b"5 10 20\n")


def proofs_of(path):
    """The endings of the proofs of a folder."""
    return {file.suffix for file in Path(path).iterdir() if file.suffix in (".drat", ".lrat")}


def notes_of(path):
    return [note for row in manifest_of(path)["rows"] for note in row.get("notes", [])]


def form(_, tally, __):
    """A proof shows by its first line whether it has hints."""
    for proofs, wanted in ((IN_LRAT, True), (IN_DRAT, False)):
        for proof in proofs:
            tally.compare(f"form: {proof!r}", has_hints(proof), wanted)


def hints(_, tally, __):
    """Each proof has hints, with the same verdicts and the same bytes from one worker and from three. The folder and a
    .zip of it re-check."""
    program = built("drat2lrat")
    status, out, err = run("--drat2lrat", program, "-j", "1", "--zip", "out.zip")
    tally.compare("hints: status", status, 5)
    tally.compare("hints: verdicts", {name: row["verdict"] for name, row in by_symbol("out").items()}, KNOWN)
    tally.compare("hints: proofs", proofs_of("out"), {".lrat"})
    tally.check("hints: each has some", all(map(has_hints, contents_of("out", ".lrat"))))
    tally.compare("hints: the table", (".lrat" in out, ".drat" in out, err.count("\n")), (True, False, 2))
    tally.compare("hints: no notes", notes_of("out"), [])
    tally.compare("hints: its version", manifest_of("out")["versions"]["drat2lrat"], "drat2lrat 1")
    for bundle in ("out", "out.zip"):
        tally.check(f"hints: {bundle} re-checks", judged(bundle) is not None)
        tally.compare(f"hints: recheck {bundle}", called("recheck", bundle, "-q")[0], 5)
    run("--drat2lrat", program, "-j", "3", out="three")
    tally.check("hints: the same bytes", same_manifests("out", "three"))
    on_the_path(tally, program)
    by_the_solver(tally, program)


def on_the_path(tally, program):
    os.mkdir("path")
    os.symlink(program, "path/drat2lrat")
    before = os.environ["PATH"]
    try:
        os.environ["PATH"] = os.path.abspath("path")
        status, _, err = run("--hints", "-q", out="by_path", solver=SMALL_SOLVER)
        tally.compare("hints: on the path", (status, err, proofs_of("by_path")), (5, "", {".lrat"}))
        os.remove("path/drat2lrat")
        status, _, err = run("--hints", out="by_no_path")
        tally.check("hints: not on the path", status == 1 and "no program drat2lrat on the path" in err, (status, err))
        tally.check("hints: not on the path: nothing is made", not Path("by_no_path").exists())
    finally:
        os.environ["PATH"] = before
    tally.compare("hints: another program is missing", run("--drat2lrat", "./nowhere", out="nowhere")[0], 1)


def by_the_solver(tally, program):
    """A solver whose help has the option of cadical writes hints itself: they stay, and nothing is asked to add them.
    One that is called kissat gets the options of kissat."""
    body = (f'case "$*" in --help) echo "  --lrat=bool  use it"; exit;; --version|*" --lrat --no-binary "*) ;; '
            f'*) exit 8;; esac; {SMALL_SOLVER} "$@" > said; status=$?; cat said; [ $status = 20 ] || exit $status; '
            f'while [ $# -gt 2 ]; do shift; done; {program} "$1" "$2" lrat && mv lrat "$2"; exit 20')
    for name, words in (("alone", ()), ("hints", ("--hints",)), ("asked", ("--drat2lrat", tool("unused", "exit 9")))):
        status, _, _ = run(*words, solver=tool("with_hints", body), out=f"solver_{name}")
        path, title = f"solver_{name}", f"hints: a solver that writes them, {name}"
        tally.compare(title, (status, proofs_of(path), notes_of(path)), (5, {".lrat"}, []))
        tally.check(f"{title}: re-checked", judged(path) is not None)
    body = f'case "$*" in --version|"-q --time=9 --conflicts=999 cnf proof") exec {SMALL_SOLVER} "$@";; esac; exit 8'
    status, _, _ = run("--seconds", "9", "--conflicts", "999", solver=tool("kissat_of_tests", body), out="kissat")
    tally.compare("hints: kissat", (status, proofs_of("kissat"), notes_of("kissat")), (5, {".drat"}, []))


def later(_, tally, __):
    """A folder without hints gets them from a later run, which asks the solver nothing. A run without --hints leaves
    them."""
    program, log = built("drat2lrat"), Path("log").resolve()
    run(out="later")
    run("--drat2lrat", program, out="fresh")
    tally.compare("later: before", proofs_of("later"), {".drat"})
    os.mkdir("same")
    body = f'[ "$1" = --version ] || echo x >> {log}; exec {SMALL_SOLVER} "$@"'
    solver = tool("small_solver", body, "same")
    for words in (("--drat2lrat", program), ()):
        status, _, err = run(*words, solver=solver, out="later")
        tally.compare(f"later: {words[:1]}", (status, proofs_of("later"), err.count("\n")), (5, {".lrat"}, 2))
        tally.check(f"later: {words[:1]}: re-checked", judged("later") is not None)
        same = {name: data for name, data in files_of("later").items() if data != files_of("fresh").get(name)}
        tally.compare(f"later: {words[:1]}: the same proofs", sorted(same), [])
    tally.check("later: nothing is searched", not log.exists())
    for name in ("every", "contradiction"):
        path = kept(name)
        before = judged(path)
        files = [it.suffix for it in path.iterdir() if it.suffix in (".wit", ".aag", ".drat")]
        called("run", path / "circuit.aig", "--out", path, "--abc", "", "--solver", tool("none", "exit 0"), "--frames",
               "1", "--drat2lrat", program)
        rows = [file for row in manifest_of(path)["rows"] for file in row.get("files", {}).values()]
        tally.compare(f"later: {name}", proofs_of(path), {".lrat"})
        tally.check(f"later: {name}: the same files", len(rows) <= len(files) and rows, rows)
        tally.compare(f"later: {name}: re-checked", [it[:4] for it in judged(path) or []], [it[:4] for it in before])


def files_of(path):
    return {file.name: contents(str(file)) for file in Path(path).iterdir() if file.suffix in (".lrat", ".wit")}


LAST = 'for last; do :; done; '


def failures(_, tally, __):
    """A program for hints that crashes, hangs, floods the disk, writes nothing, or lies: the verdicts are as without
    hints, the proofs are in DRAT, and a note says why."""
    program = built("drat2lrat")
    for name, body, word, more in (
            ("crash", "kill -SEGV $$", "ended by signal 11", ()),
            ("status", "echo help me >&2; exit 1", "help me", ()),
            ("hang", "sleep 1000", "did not end", ("--seconds", "3")),
            ("full", f'{LAST}exec cat /dev/zero > "$last"', "larger than --proof-megabytes",
             ("--proof-megabytes", "1")),
            ("nothing", "exit 0", "wrote none", ()), ("empty", f'{LAST}: > "$last"', "wrote none", ()),
            ("noise", f'{LAST}head -c 9999 /dev/zero > "$last"', "wrote none", ()),
            ("no_hints", f'{LAST}cp drat "$last"', "wrote none", ()),
            ("wrong", f'{LAST}echo "999999 0 1 0" > "$last"', "hints that are wrong: proof: step 1", ()),
            ("cut_off", f'{LAST}{program} "$@" && head -c 100 "$last" > cut && mv cut "$last"', "hints that are wrong",
             ()),
            ("folder", f'{LAST}mkdir "$last"', "wrote none", ())):
        status, _, _ = called("run", FEW, "--out", f"of_{name}", "--abc", "", "--solver", SMALL_SOLVER, "--frames", "3",
                              "--only", "two", "--only", "three", "--drat2lrat", tool(f"{name}.sh", body), *more)
        rows = rows_of(f"of_{name}")
        tally.compare(f"failures: {name}", (status, rows["two"]["verdict"], rows["three"]["verdict"]),
                      (5, "confirmed", "unreachable"))
        tally.compare(f"failures: {name}: proofs", proofs_of(f"of_{name}"), {".drat"})
        missing = [it for it in (rows["two"], rows["three"]) if word not in " ".join(it.get("notes", []))]
        tally.check(f"failures: {name}: a note", not missing, missing[:1])
        tally.check(f"failures: {name}: re-checked", judged(f"of_{name}") is not None)
