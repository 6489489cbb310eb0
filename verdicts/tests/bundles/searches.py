"""Searches in an AIGER circuit, with a small solver of these tests and with programs that fail or lie."""

from __future__ import annotations

import json
import os
import shutil
import time
import xml.etree.ElementTree as tree
from pathlib import Path

from bundles.common import (
    FEW, HERE, SMALL_SOLVER, by_symbol, called, judged, manifest_of, rows_of, same_manifests, tool, write_manifest,
)
from library.runs import EXAMPLES

CIRCUIT = HERE / "every.verdicts" / "circuit.aig"
# What is known of each property, by its symbol, which says its kind.
KNOWN = {
    "a_nothing": "unreachable", "if:a_nothing": "unreachable", "cover:back": "confirmed",
    "later": "unreachable within 4",
    "cover:never": "unreachable", "same": "unreachable", "stops": "unreachable", "if:stops": "confirmed",
    "three": "unreachable", "two": "confirmed",
}
LENGTHS = {"cover:back": 2, "if:stops": 3, "two": 3}


def run(*words, out="out", solver=SMALL_SOLVER, frames=4, circuit=CIRCUIT):
    return called("run", circuit, "--out", out, "--abc", "", "--solver", solver, "--frames", frames, *words)


def found(_, tally, __):
    """Each property has its known verdict, runs have their known length with a proof that there is no shorter one, and
    the folder re-checks. The same bytes come from one worker and from three."""
    status, out, err = run("-j", "1")
    tally.compare("found: status", status, 5)
    rows = by_symbol("out")
    tally.compare("found: verdicts", {name: row["verdict"] for name, row in rows.items()}, KNOWN)
    tally.compare("found: lengths", {name: row["frames"] for name, row in rows.items() if row["by"] == "run"}, LENGTHS)
    tally.check("found: shortest", all("shorter" in rows[name]["files"] for name in LENGTHS))
    tally.check("found: re-checked", judged("out") is not None)
    tally.check("found: the table has each row",
                all(any(f"  {name}  " in line for line in out.splitlines()) for name in rows_of("out")), out)
    tally.compare("found: kinds and conditions", [(it["kind"], it["name"], it.get("of")) for it in rows.values()],
                  [(it["kind"], it["name"], it.get("of")) for it in by_symbol(CIRCUIT.parent).values()])
    tally.check("found: the page is named", err.endswith("out/index.html\n") and Path("out/index.html").exists(), err)
    run("-j", "3", out="three")
    tally.check("found: the same bytes", same_manifests("out", "three"))
    before = Path("out/MANIFEST.json").read_bytes()
    log = Path("log").resolve()
    os.mkdir("same")
    body = f'[ "$1" = --version ] || echo x >> {log}; exec {SMALL_SOLVER} "$@"'
    status, again, _ = run(solver=tool("small_solver", body, "same"))
    tally.check("found: what is done is not done again", not log.exists())
    tally.compare("found: the same table", (status, again), (5, out))
    tally.check("found: the same manifest", Path("out/MANIFEST.json").read_bytes() == before)
    run(solver=tool("another", body))
    tally.compare("found: another solver is asked what is open", len(log.read_text().splitlines()) > 0, True)
    log.unlink()
    run("--seconds", "70", solver=tool("another", body))
    tally.check("found: with more time, too", log.exists())
    log.unlink()
    run("--seconds", "10", solver=tool("another", body))
    tally.check("found: but not with less", not log.exists())
    manifest = manifest_of("out")
    manifest["versions"]["search"] = "aig-verdicts: search 1"
    write_manifest(Path("out"), manifest)
    run(solver=tool("another", body))
    tally.check("found: another search is made again", log.exists())


def undecided(tally, name, solver, word, *more, verdict="undecided"):
    """Both rows have this verdict with a note, standard error has the note alone, and the folder re-checks. Returns the
    seconds that it took."""
    begin = time.monotonic()
    status, _, err = run(*more, "--only", "two", "--only", "three", solver=solver, out=f"of_{name}", frames=3,
                         circuit=FEW)
    rows = [it for it in manifest_of(f"of_{name}")["rows"] if it.get("name") in ("two", "three")]
    tally.compare(f"tools: {name}: status", status, 4)
    *notes, _ = err.splitlines()
    tally.check(f"tools: {name}: the terminal", len(notes) == 1 and word in notes[0], err)
    said = [it["verdict"] for it in rows]
    tally.compare(f"tools: {name}: no verdict", said, [verdict] * 2)
    missing = [it for it in rows if word not in " ".join(it.get("notes", []))]
    tally.check(f"tools: {name}: a note", not missing, missing[:1])
    tally.check(f"tools: {name}: re-checked", judged(f"of_{name}") is not None)
    return time.monotonic() - begin


PROOF = 'for last; do :; done; '


def tools(_, tally, __):
    """A solver that is missing, is no program, crashes, ends with another status, hangs, goes on in the background,
    floods its output or the disk, or lies: with no proof, an empty one, a wrong one, no model, a wrong model, both.
    Each row has a note, and no verdict but the bound of one frame, which any proof shows. All that is started ends."""
    undecided(tally, "missing", "no-such-solver", "there is no program no-such-solver")
    Path("no_program").write_text("x")
    undecided(tally, "no_program", "./no_program", "there is no program")
    undecided(tally, "crash", tool("crash", "kill -SEGV $$"), "ended by signal 11")
    undecided(tally, "status", tool("status", "echo help me >&2; exit 3"), "help me")
    undecided(tally, "silent", tool("silent", "exit 0"), "no answer within its bounds")
    undecided(tally, "no_proof", tool("no_proof", "exit 20"), "status 20")
    for name, body in (("empty_proof", ': > "$last"'), ("wrong_proof", 'printf "1 0\\n-1 0\\n0\\n" > "$last"'),
                       ("noise", 'head -c 9999 /dev/zero > "$last"'), ("link", 'ln -s /etc/passwd "$last"')):
        undecided(tally, name, tool(name, f"{PROOF}{body}; exit 20"), "AigError", verdict="unreachable within 1")
    undecided(tally, "folder", tool("folder", f'{PROOF}mkdir "$last"; exit 20'), "status 20")
    undecided(tally, "no_model", tool("no_model", "exit 10"), "AigError")
    undecided(tally, "wrong_model", tool("wrong_model", 'echo "s SATISFIABLE"; echo "v 1 2 3 0"; exit 10'), "AigError")
    took = undecided(tally, "hang", tool("hang", "sleep 1000"), "did not end", "--seconds", "1", "-j", "8")
    tally.check("tools: hang: its time", took < 60, took)
    asleep = Path("asleep").resolve()
    undecided(tally, "background", tool("background", f"sleep 1000 & echo $! >> {asleep}; exit 3"), "status 3")
    undecided(tally, "full", tool("full", f'{PROOF}exec cat /dev/zero > "$last"'), "larger than --proof-megabytes",
              "--seconds", "30", "--proof-megabytes", "1")
    undecided(tally, "loud", tool("loud", "exec cat /dev/zero"), "--proof-megabytes", "--seconds", "30",
              "--proof-megabytes", "1")
    left = [it for it in asleep.read_text().split() if Path(f"/proc/{it}").exists() and is_running(it)]
    tally.check("tools: nothing goes on", not left, left)
    two_faces(tally)


def is_running(process):
    try:
        return Path(f"/proc/{process}/stat").read_text().rpartition(")")[2].split()[0] != "Z"
    except OSError:
        return False


def two_faces(tally):
    """A solver that is right at first and then lies: the rows that it was right about stand. An old proof beside it is
    no proof of the next question."""
    count = Path("count").resolve()
    body = f'echo x >> {count}; [ $(wc -l < {count}) -lt 12 ] || exit 20; exec {SMALL_SOLVER} "$@"'
    status, _, _ = run("-j", "1", solver=tool("two_faces", body), out="of_two_faces")
    rows = by_symbol("of_two_faces")
    known = {name: row["verdict"] for name, row in rows.items() if row["verdict"] != "undecided"}
    tally.check("tools: two faces: some are right", known and len(known) < len(KNOWN), known)
    wrong = {name for name, said in known.items() if said != KNOWN[name] and not said.startswith("unreachable within")}
    tally.check("tools: two faces: none is wrong", not wrong, wrong)
    tally.check("tools: two faces: re-checked", judged("of_two_faces") is not None)
    run(out="of_two_faces")
    verdicts = {name: row["verdict"] for name, row in by_symbol("of_two_faces").items()}
    tally.compare("tools: two faces: the rest, later", verdicts, KNOWN)


# An invariant that is none.
FALSE = 'printf ".i 1\\n.o 1\\n.ilb l0\\n.ob inv\\n- 1\\n.e\\n" > inv.pla; echo "Property proved"'


# A claim of a run.
RUN = 'echo "Output 0 of miter was asserted in frame {0}.";'


def abc(_, tally, __):
    """ABC is missing, crashes, hangs, claims a proof without an invariant, with a false or a strange one, or claims a
    run without one, with a wrong or a strange one: the row has what the solver finds."""
    for name, body, word in (
        ("crash", "kill -SEGV $$", "ended by signal 11"), ("status", "exit 7", "status 7"),
        ("claims", 'echo "Property proved"', "no answer"), ("false", FALSE, "a certificate that is wrong"),
        ("strange", FALSE.replace(".ilb l0", ".ilb l99999999999 lx failed"), ""),
        ("nothing", FALSE.replace("l0", ""), ""),
        ("noise", 'head -c 9999 /dev/urandom > inv.pla; echo "Property proved"', ""),
        ("no_run", 'echo "was asserted in frame 2."', "no answer"),
        ("run", f'{RUN.format(2)} echo i0@0=1 > run', "ABC's run of 3 frames is no run of the circuit"),
        ("empty_run", f'{RUN.format(2)} : > run', "no run of the circuit"),
        ("noisy_run", f'{RUN.format(2)} head -c 9999 /dev/urandom > run', "no run of the circuit"),
        ("long", f'{RUN.format(65535)} : > run', "ABC's run of 65536 frames is no run of the circuit"),
        ("longer", f'{RUN.format(65536)} : > run', "no answer"),
        ("longest", f'{RUN.format(99999999999999)} : > run', "no answer"), ("hang", "sleep 1000", "did not end"),
    ):
        out = f"abc_{name}"
        status, _, _ = called("run", FEW, "--out", out, "--solver", SMALL_SOLVER, "--frames", "4", "--only", "later",
                              "--seconds", "5" if name == "hang" else "60", "--abc", tool(f"{name}.sh", body))
        later = rows_of(out)["later"]
        tally.compare(f"abc: {name}", (status, later["verdict"]), (4, "unreachable within 4"))
        tally.check(f"abc: {name}: a note", word in " ".join(later.get("notes", [])), later)
        tally.check(f"abc: {name}: re-checked", judged(out) is not None)
    missing(tally)
    known_run(tally)


def missing(tally):
    """Without ABC all else is found, also a failing assertion. One line says what is lost."""
    status, out, err = called("run", FEW, "--out", "abc_none", "--solver", SMALL_SOLVER, "--frames", "4", "--abc",
                              "no-such-abc")
    said = [line for line in err.splitlines() if "no-such-abc" in line]
    tally.compare("abc: missing", (status, [line.split()[3:5] for line in out.splitlines()], len(said)),
                  (5, [["holds", "within"], ["holds", "induction"], ["fails", "run"]], 1))
    tally.check("abc: missing: what is lost", "no invariants" in said[0] and "0 undecided" not in err, err)
    tally.check("abc: missing: a note", "no program no-such-abc" in " ".join(rows_of("abc_none")["later"]["notes"]))
    usual = os.environ["PATH"]
    os.environ["PATH"] = os.path.abspath("nothing")
    try:
        for name in ("cadical", "berkeley-abc"):
            words = ("--solver", name) if name == "cadical" else ("--solver", SMALL_SOLVER, "--abc", name)
            _, _, err = called("run", FEW, "--out", "none", "--frames", "1", *words)
            said = [line for line in err.splitlines() if f"no program {name}" in line]
            tally.check(f"abc: no {name}", len(said) == 1 and "(apt install yosys cadical)" in said[0], err)
    finally:
        os.environ["PATH"] = usual


# Of the property `two`: the counter `n` goes up where `a` is 1, and here stays at 2.
INPUTS = "".join(f"i0@{frame}={int(frame < 2)}\\n" for frame in range(5))
KNOWS = f"{RUN} printf '# COUNTEREXAMPLE\\nl0@0=0\\n{INPUTS}# DONE\\n' > run"


def known_run(tally):
    """ABC's run that is longer than --frames is an answer, with a solver or without. The solver makes it shorter if it
    can."""
    for name, frames, solver, wanted in (
            ("shortest", 2, SMALL_SOLVER, (3, True)), ("longer", 4, SMALL_SOLVER, (3, True)),
            ("without a solver", 2, "no-such-solver", (3, False))):
        words = ("--abc", tool(f"knows_{frames}.sh", KNOWS.format(frames)), "--solver", solver)
        out = name.replace(" ", "_")
        status, _, _ = called("run", FEW, "--out", out, "--frames", "1", "--only", "two", *words)
        two = rows_of(out)["two"]
        tally.compare(f"abc: a known run: {name}", (status, two["verdict"], two["frames"], "shorter" in two["files"]),
                      (5, "confirmed", *wanted))
        tally.check(f"abc: a known run: {name}: re-checked", judged(out) is not None)


def words(_, tally, __):
    """Wrong arguments, files that are missing or rejected, circuits without a property, `--only`, `--json`, `--junit`,
    `--zip`, `-q` and `-v`; each with its status."""
    for arguments, status in (
        ((), 2), (("run",), 2), (("prove",), 2), (("run", CIRCUIT, "--frames", "0"), 2),
        (("run", CIRCUIT, "--frames", "-1"), 2),
        (("run", CIRCUIT, "--frames", "x"), 2), (("run", CIRCUIT, "--frames", "1e3"), 2),
        (("run", CIRCUIT, "--frames", "9" * 99), 2),
        (("run", CIRCUIT, "--seconds", "0"), 2), (("run", CIRCUIT, "--seconds", "nan"), 2),
        (("run", CIRCUIT, "--jobs", "-1"), 2),
        (("run", CIRCUIT, "--frame", "3"), 2), (("run", CIRCUIT, "-q", "-v"), 2), (("run", CIRCUIT, "--unknown"), 2),
        (("run", "absent.aig"), 3), (("absent.sv", "-q"), 3), (("absent.txt",), 2), (("run", CIRCUIT, CIRCUIT), 1),
        (("run", CIRCUIT, "--only", "four"), 1), (("run", CIRCUIT, "--only", "thre"), 1),
        (("recheck",), 2), (("recheck", "absent"), 3), (("recheck", CIRCUIT), 1), (("recheck", "."), 1),
        (("--version",), 0),
        (("run", CIRCUIT, "--out", "absent.txt/x"), 3), (("--help",), 0), (("run", "--help"), 0),
        (("recheck", "--help"), 0),
    ):
        if "absent.txt/x" in arguments:
            Path("absent.txt").write_text("a file")
        got, out, err = called(*arguments)
        tally.compare(f"words: {arguments[:4]}", got, status)
        tally.check(f"words: {arguments[:4]}: no trace", "Traceback" not in err and (got == 0 or err), err)
    Path("old.aag").write_text("aag 1 1 0 1 0\n2\n2\n")
    status, _, err = called("run", "old.aag")
    tally.check("words: no property", status == 1 and "no bad state property" in err, err)
    Path("broken.aag").write_text("aag 1 1\n")
    tally.compare("words: a broken circuit", called("run", "broken.aag")[0], 1)
    tally.check("words: nothing is made of it", not Path("broken.verdicts").exists())
    options(tally)


def demo(_, tally, __):
    """`demo` writes the design of the examples, and runs it. Another queue.v stays as it is."""
    usual, os.environ["PATH"] = os.environ["PATH"], str(Path("nothing").resolve())
    design, path = Path(EXAMPLES, "queue.v").read_bytes(), Path("queue.v")
    try:
        for name, status, said, text in (
            ("new", 1, "there is no program yosys", design), ("again", 1, "there is no program yosys", design),
            ("another", 3, "another queue.v is here", b"mine"),
        ):
            if text != design:
                path.write_bytes(text)
            got, _, err = called("demo")
            tally.check(f"demo: {name}", got == status and said in err, (got, err))
            tally.check(f"demo: {name}: the design", path.read_bytes() == text, path.read_bytes())
    finally:
        os.environ["PATH"] = usual


def options(tally):
    only = ("--only", "two", "--only", "back", "--only", "ne*r", "-j", "2")
    status, out, err = run(*only, "--junit", "j.xml", "--zip", "b.zip", "-v")
    tally.compare("words: --only", (status, sorted(line.split()[2] for line in out.splitlines())),
                  (5, ["back", "never", "two"]))
    tally.check("words: -v", sorted(line.split()[0] for line in err.splitlines()[:-2]) == ["b2", "b4", "b9"], err)
    left_out(tally)
    suite = tree.parse("j.xml").getroot().find("testsuite")
    tally.compare("words: --junit", [suite.get(it) for it in ("tests", "failures", "errors", "skipped")],
                  ["3", "2", "0", "0"])
    tally.compare("words: --zip", judged("b.zip"), judged("out"))
    status, out, err = run(*only, "--json", "-q")
    tally.compare("words: --json", (status, json.loads(out)), (5, {**manifest_of("out"), "status": 5, "unread": []}))
    tally.compare("words: -q", err, "")
    status, out, err = called("recheck", "out", "--junit", "k.xml", "--page", "page.html")
    tally.compare("words: recheck", (status, sorted(line.split()[1] for line in out.splitlines())),
                  (5, ["confirmed", "confirmed", "unreachable"]))
    is_right = err.endswith("3 of 8 checked by aig\n") and "undecided" not in err
    tally.check("words: recheck: what was checked", is_right, err)
    suite = tree.parse("k.xml").getroot().find("testsuite")
    tally.compare("words: recheck: --junit", [suite.get(it) for it in ("tests", "failures", "errors", "skipped")],
                  ["8", "2", "0", "5"])
    tally.check("words: recheck writes", tree.parse("k.xml") is not None and Path("page.html").exists())
    status, out, _ = run("--only", "stops", out="conditions")
    tally.check("words: --only of an assertion with a condition", status == 0 and "not decided" not in out, (status, out))
    tally.compare("words: by position", run("--only", "b8", out="by_position")[1].split()[2], "three")
    os.environ["AIG_PROGRAM"], usual = os.path.abspath("no-such-aig"), os.environ["AIG_PROGRAM"]
    try:
        tally.compare("words: no aig", run(out="no_aig")[0], 3)
        status, _, err = called("recheck", "out")
        tally.check("words: recheck without aig", status == 3 and "there is no program" in err, (status, err))
    finally:
        os.environ["AIG_PROGRAM"] = usual


def left_out(tally):
    """The rows that `--only` left out are left out of the page too. A run without `--only` finds them."""
    left = {name for name, row in rows_of("out").items() if row["verdict"] == row["result"] == "left out"}
    tally.compare("words: left out", left, {"a_nothing", "later", "same", "stops", "three"})
    page = Path("out/index.html").read_text()
    shown = [name for name in left if f">{name}<" in page]
    tally.check("words: left out: the page", "5 left out" in page and not shown, shown)
    shutil.copytree("out", "whole")
    run(out="whole")
    later = {name: row["verdict"] for name, row in by_symbol("whole").items()}
    tally.compare("words: left out, then found", later, KNOWN)
