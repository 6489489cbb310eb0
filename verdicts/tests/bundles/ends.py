"""Runs that are stopped, killed, or that find their folder in a strange state: never a wrong row, never a lost one."""

from __future__ import annotations

import contextlib
import json
import os
import pty
import re
import shutil
import signal
import subprocess
import sys
import threading
import time
import unittest.mock
from concurrent.futures import ProcessPoolExecutor
from pathlib import Path

from aig_verdicts.search import workers
from aig_verdicts.search.task import Bounds, Programs
from aig_verdicts.reading.design import read_aiger
from aig_verdicts.search.session import Plan, Session
from aig.tools import Stop
from bundles.common import (
    COMMAND, FEW, HERE, SMALL_SOLVER, called, ended, judged, manifest_of, process_of, rows_of, same_manifests,
    started, tool,
)
from bundles.searches import KNOWS, run as run_of
from library import supervised
from library.runs import SECONDS, LeftOut
from paths import PYTHONPATH

KNOWN = {"later": "unreachable within 4", "three": "unreachable", "two": "confirmed"}


def run(*words, **settings):
    return run_of(*words, circuit=FEW, **settings)


def slow_run(program, solver, out, *more):
    return started(program, "run", FEW, "--out", out, "--abc", "", "--frames", "4", "-j", "1", "--solver", solver,
                   *more)


def wait_for(process, is_there):
    """Waits until a file is there, while the process goes on."""
    end = time.monotonic() + SECONDS
    while not is_there() and process.poll() is None and time.monotonic() < end:
        time.sleep(0.02)


def rows_done(out):
    try:
        return [it for it in manifest_of(out)["rows"] if it.get("by")]
    except OSError:
        return []


def stops(program, tally, _):
    """Ctrl-C once, and SIGTERM three times, in the middle of a run: status 130, a table, a page that says so, and a
    folder that re-checks and has each row that was decided; the next run finds the rest. SIGINT stays ignored where it
    was ignored at the start. A run that is killed leaves a folder that re-checks."""
    slow = tool("slow", f'sleep 0.3; exec {SMALL_SOLVER} "$@"')
    for name, number, count in (("interrupt", signal.SIGINT, 1), ("terminate", signal.SIGTERM, 3)):
        process = slow_run(program, slow, name)
        wait_for(process, lambda name=name: rows_done(name))
        before = rows_done(name)
        for _ in range(count):
            process.send_signal(number)
            time.sleep(0.02)
        status, out, err = ended(process)
        tally.compare(f"stops: {name}: status", status, 130)
        tally.check(f"stops: {name}: no trace", "Traceback" not in err, err)
        tally.check(f"stops: {name}: the table", "undecided" in out and len(out.splitlines()) == len(KNOWN), out)
        tally.check(f"stops: {name}: the page", "nfinished" in Path(name, "index.html").read_text())
        tally.check(f"stops: {name}: no row is lost", before and all(it in rows_done(name) for it in before), before)
        tally.check(f"stops: {name}: re-checked", judged(name) is not None)
        run(out=name)
        tally.compare(f"stops: {name}: the rest", {key: row["verdict"] for key, row in rows_of(name).items()}, KNOWN)
        tally.check(f"stops: {name}: the page, later", "nfinished" not in Path(name, "index.html").read_text())
    in_the_middle(program, tally)
    killed(program, tally, slow)
    ignored(program, tally, slow)


def in_the_middle(program, tally):
    """A row whose search is stopped keeps what is known: the bound that its proofs show, or the run that ABC knows.
    Rows that are open say that they were stopped."""
    for name, count, abc_of, wanted, note in (
            ("bound", 6, "", ["unreachable within 3", "undecided", "undecided"], "stopped"),
            ("run", 3, tool("knows.sh", KNOWS.format(4)), ["confirmed"], "a shorter run was not ruled out")):
        hangs, calls = Path(f"{name}_hangs").resolve(), Path(f"{name}_calls").resolve()
        solver = tool(f"{name}_solver", f"""case $1 in --*) exec {SMALL_SOLVER} "$@";; esac; echo x >> {calls}
            [ $(wc -l < {calls}) -lt {count} ] || {{ : > {hangs}; exec sleep 1000; }}; exec {SMALL_SOLVER} "$@" """)
        only = ("--only", "two") if abc_of else ()
        process = slow_run(program, solver, name, *only, "--abc", abc_of)
        wait_for(process, hangs.exists)
        process.send_signal(signal.SIGINT)
        status, out, err = ended(process)
        rows = [row for row in rows_of(name).values() if row["verdict"] != "left out"]
        tally.compare(f"stops: in the middle: {name}", (status, [row["verdict"] for row in rows]), (130, wanted))
        tally.check(f"stops: in the middle: {name}: notes", all(row["notes"] == [note] for row in rows), rows)
        tally.compare(f"stops: in the middle: {name}: the terminal", err.splitlines()[-2],
                      "aig-verdicts: stopped; the same command goes on")
        tally.check(f"stops: in the middle: {name}: re-checked", judged(name) is not None)
        run(out=name)
        later = {key: row["verdict"] for key, row in rows_of(name).items()}
        tally.compare(f"stops: in the middle: {name}: the rest", later, KNOWN)
        tally.check(f"stops: in the middle: {name}: no stop, later",
                    not any("stopped" in row.get("notes", []) for row in rows_of(name).values()))


def total(program, tally, _):
    """The time of the whole run: it ends as one that was stopped, with the status of its table, and goes on later.
    Where Yosys has not ended by then there is no table."""
    hangs = Path("hangs").resolve()
    solver = tool("hangs.sh", f'case $1 in --*) exec {SMALL_SOLVER} "$@";; esac; : > {hangs}; exec sleep 1000')
    with unittest.mock.patch.object(Stop, "after", late_when(hangs.exists)):
        status, out, err = called("run", FEW, "--out", "late", "--abc", "", "-j", "1", "--solver", solver, "--total",
                                  "2h")
    tally.compare("total: without a unit", [called("run", FEW, "--total", it)[0] for it in ("90", "", "s", "1d")],
                  [2] * 4)
    tally.check("total: the table", status == 4 and out.count("undecided") == len(KNOWN), (status, out))
    tally.compare("total: the terminal", err.splitlines()[-2],
                  "aig-verdicts: the time of --total is over; the same command goes on")
    run(out="late")
    tally.compare("total: the rest", {key: row["verdict"] for key, row in rows_of("late").items()}, KNOWN)
    tally.compare("total: enough of it", run("--total", "1h", out="early")[0], run(out="other")[0])
    Path("a.v").write_text("module a(input x); assert property (x); endmodule\n")
    tool("yosys", "exec sleep 1000")
    process = process_of(program, "env", f"PATH={Path().resolve()}:{os.environ['PATH']}", sys.executable, *COMMAND,
                         "run", "a.v",
                         "--total", "1s")
    status, out, err = ended(process)
    tally.compare("total: Yosys", (status, out, err.splitlines()[-1:]),
                  (4, "", ["aig-verdicts: the time of --total is over"]))


def waits(program, tally, _):
    """While Yosys makes the circuit a line says so: on a terminal with the seconds, and else once if it is asked
    for."""
    yosys, slept = shutil.which("yosys"), Path("slept").resolve()
    if yosys is None:
        raise LeftOut("there is no yosys")
    Path("a.v").write_text("module a(input x); ok: assert property (x); endmodule\n")
    tool("yosys", f'[ "$1" = -V ] || [ -f {slept} ] || {{ : > {slept}; sleep 6; }}; exec {yosys} "$@"')
    words = ("env", f"PATH={Path().resolve()}:{os.environ['PATH']}", sys.executable, *COMMAND, "run", "a.v", "--abc",
             "",
             "--solver", SMALL_SOLVER, "--frames", "2", "--no-simulator")
    for name, more, count in (("once", ("-v",), 1), ("not", (), 0), ("quiet", ("-q",), 0)):
        _, _, err = ended(process_of(program, *words, *more))
        tally.compare(f"waits: {name}", err.count("aig-verdicts: yosys makes the circuit ..\n"), count)
        slept.unlink()
    shown = on_terminal(program, words)
    tally.check("waits: on a terminal", re.search(r"\ryosys makes the circuit, \d+ s\x1b\[K(?:.*)\r\x1b\[K", shown,
                                                  re.DOTALL),
                shown)


def on_terminal(program, words):
    """What a run writes to standard error, if that is a terminal."""
    leader, follower = pty.openpty()
    environment = {**os.environ, "PYTHONPATH": PYTHONPATH, "AIG_PROGRAM": program.path}
    process = supervised.Popen([str(word) for word in words], stdin=subprocess.DEVNULL, stdout=subprocess.DEVNULL,
                               stderr=follower, env=environment)
    os.close(follower)
    shown = b""
    with contextlib.suppress(OSError):  # no process has the terminal any more
        while True:
            shown += os.read(leader, 4096)
    process.wait()
    os.close(leader)
    return shown.decode()


def late_when(is_there):
    """A time that is over as soon as something is there."""
    @contextlib.contextmanager
    def after(stop, seconds):
        assert seconds == 7200, seconds
        ended = threading.Event()

        def wait():
            while not ended.wait(0.05):
                if is_there():
                    stop.late()
                    return

        watcher = threading.Thread(target=wait)
        watcher.start()
        try:
            yield
        finally:
            ended.set()
            watcher.join()

    return after


def killed(program, tally, slow):
    process = slow_run(program, slow, "killed")
    wait_for(process, lambda: len(rows_done("killed")) > 1)
    process.kill()
    ended(process)
    done = rows_done("killed")
    tally.check("stops: killed: re-checked", len(done) > 1 and judged("killed") is not None)
    log = Path("log").resolve()
    solver = tool("log.sh", f'[ "$1" = --version ] || echo x >> {log}; exec {SMALL_SOLVER} "$@"')
    run(out="killed", solver=solver)
    tally.check("stops: killed: what was done stays", all(it in rows_done("killed") for it in done))
    tally.compare("stops: killed: the rest", {key: row["verdict"] for key, row in rows_of("killed").items()}, KNOWN)


def ignored(program, tally, slow):
    """A process that was started with SIGINT ignored goes on; and so does `recheck`."""
    code = ("import signal, sys, os; signal.signal(signal.SIGINT, signal.SIG_IGN); "
            "os.execv(sys.executable, sys.argv[1:])")
    process = process_of(program, sys.executable, "-c", code, sys.executable, *COMMAND, "run", FEW, "--out", "ignored",
                         "--abc", "", "--frames", "3", "--only", "two", "--solver", slow)
    wait_for(process, lambda: Path("ignored/MANIFEST.json").exists())
    process.send_signal(signal.SIGINT)
    status, _, err = ended(process)
    tally.compare("stops: ignored", (status, rows_of("ignored")["two"]["verdict"]), (5, "confirmed"))


def folders(program, tally, _):
    """Two runs at once, a folder that is a file, a full disk, files and manifests that were changed, a folder about
    another circuit: the status says it, and no file of before is taken for a new one."""
    slow = tool("slow", f'sleep 0.3; exec {SMALL_SOLVER} "$@"')
    process = slow_run(program, slow, "busy")
    wait_for(process, lambda: Path("busy/MANIFEST.json").exists())
    status, _, err = run(out="busy")
    tally.check("folders: two at once", status == 3 and "another run" in err, (status, err))
    process.terminate()
    tally.compare("folders: the first of two", ended(process)[0], 130)
    Path("file").write_text("a file")
    tally.compare("folders: a file", run(out="file")[0], 3)
    tally.compare("folders: below a file", run(out="file/out")[0], 3)
    tally.compare("folders: results in no folder", run("--only", "two", "--junit", "no/such/file", out="out")[0], 3)
    changed(tally)
    other_circuit(tally)
    full_disk(program, tally)


def changed(tally):
    """An earlier row that is not what it says is searched again, and the user is told."""
    run(out="out")
    good = {key: row["verdict"] for key, row in rows_of("out").items()}
    witness = Path("out", rows_of("out")["two"]["files"]["witness"])
    proof = Path("out", rows_of("out")["three"]["files"]["step"])
    for name, change in {
        "a changed witness": lambda: witness.write_text("1\nb2\n00xxxx\n0x\n0x\n0x\n.\n"), "no witness": witness.unlink,
        "a changed proof": lambda: proof.write_bytes(b"0\n"), "an empty proof": lambda: proof.write_bytes(b""),
    }.items():
        change()
        status, _, err = run(out="out")
        tally.check(f"folders: {name}: told", status == 5 and "not what it says" in err, err)
        tally.compare(f"folders: {name}", {key: row["verdict"] for key, row in rows_of("out").items()}, good)
        tally.check(f"folders: {name}: re-checked", judged("out") is not None)
    for text in ("", "[" * 10**5, "{}", '{"format": "aig-verdicts 1"}'):
        Path("out/MANIFEST.json").write_text(text)
        tally.compare("folders: a broken manifest", (run(out="out")[0], judged("out") is not None), (5, True))
    manifest = manifest_of("out")
    three = next(it for it in manifest["rows"] if it.get("name") == "three")
    three["frames"] = 2
    Path("out/MANIFEST.json").write_text(json.dumps(manifest))
    status, _, err = run(out="out")
    tally.check("folders: a changed row", "not what it says" in err and judged("out") is not None, err)
    Path("out/times.json").write_text("[1, 2]")
    tally.compare("folders: broken times", run(out="out")[0], 5)


def other_circuit(tally):
    """The folder is about another circuit: nothing of it stays but what is no result."""
    run(out="out")
    Path("out/notes.txt").write_text("mine")
    text = "aag 1 0 1 0 0 1\n2 3\n2\nb0 two\n"
    Path("other.aag").write_text(text)
    status, _, _ = called("run", "other.aag", "--out", "out", "--abc", "", "--solver", SMALL_SOLVER, "--frames", "3")
    tally.compare("folders: another circuit", (status, [it["frames"] for it in rows_of("out").values()]), (5, [2]))
    names = sorted(it.name for it in Path("out").iterdir())
    wanted = [".lock", "0.shorter.drat", "0.wit", "MANIFEST.json", "circuit.aig", "files.json", "index.html", "notes.txt",
              "recheck.sh", "times.json"]
    tally.compare("folders: another circuit: its files", names, wanted)
    tally.check("folders: another circuit: re-checked", judged("out") is not None)


def full_disk(program, tally):
    """Where no more can be written: status 3 without a trace, and what is there is right."""
    for limit in (0, 2, 6, 12):
        out = f"full_{limit}"
        words = (f'ulimit -f {limit}; exec "{sys.executable}" -m aig_verdicts run "{FEW}" --out {out} --abc "" '
                 f'--frames 4 --solver {SMALL_SOLVER}')
        status, _, err = ended(process_of(program, "/bin/sh", "-c", words))
        is_told = status == 3 and "aig-verdicts: " in err
        tally.check(f"folders: full at {limit}", is_told and "Traceback" not in err, (status, err[-300:]))
        rows = {key: row["verdict"] for key, row in rows_of(out).items()} if Path(out, "MANIFEST.json").exists() else {}
        wrong = {key: said for key, said in rows.items() if said not in (KNOWN[key], "undecided")}
        tally.check(f"folders: full at {limit}: no wrong row", not wrong, wrong)
        if rows:
            tally.check(f"folders: full at {limit}: re-checked", judged(out) is not None)


# What a Yosys that lies may leave behind, of all names that the program could read.
_FILES = "made.aig circuit.aig prep.json flat.json modules.json clocked.json order names registers out"


def yosys(program, tally, _):
    """Yosys is missing, crashes, fails, writes nothing, writes what makes no sense, or hangs until SIGTERM comes:
    status 1 with a message, or 130, and no folder."""
    source = HERE / "every.verdicts" / "sources" / "every.v"
    os.mkdir("path")
    usual = os.environ["PATH"]
    for name, body in {
        "crash": "kill -SEGV $$", "fails": "echo no >&2; exit 7", "nothing": "exit 0", "silent": "echo x",
        "empty": f"for f in {_FILES}; do : > $f; done", "empty JSON": f"for f in {_FILES}; do echo '{{}}' > $f; done",
        "lists": f"for f in {_FILES}; do echo '[]' > $f; done",
        "noise": f"for f in {_FILES}; do head -c 99 /dev/urandom > $f; done",
    }.items():
        tool("yosys", body, "path")
        os.environ["PATH"] = f"{Path('path').resolve()}:{usual}"
        try:
            status, _, err = called("run", source, "--out", "out")
        finally:
            os.environ["PATH"] = usual
        tally.check(f"yosys: {name}", status == 1 and err.startswith("aig-verdicts: "), (status, err))
    begun = Path("begun").resolve()
    tool("yosys", f": > {begun}; sleep 1000", "path")
    os.environ["PATH"] = f"{Path('path').resolve()}:{usual}"
    try:
        process = started(program, "run", source, "--out", "out")
    finally:
        os.environ["PATH"] = usual
    wait_for(process, begun.exists)
    process.terminate()
    status, _, err = ended(process)
    tally.compare("yosys: hangs", (status, err.splitlines()[-1:]), (130, ["aig-verdicts: stopped"]))
    os.environ["PATH"] = str(Path("nothing").resolve())
    try:
        status, _, err = called("run", source, "--out", "out")
    finally:
        os.environ["PATH"] = usual
    tally.check("yosys: missing", status == 1 and "there is no program yosys" in err, (status, err))
    tally.check("yosys: no folder", not Path("out").exists())
    os.environ["AIG_PROGRAM"], usual = str(Path("no-such-aig").resolve()), os.environ["AIG_PROGRAM"]
    try:
        status, _, err = called("run", source, "--out", "out")
    finally:
        os.environ["AIG_PROGRAM"] = usual
    wanted = 3 if shutil.which("yosys") else 1  # without Yosys its absence is said first
    tally.check("yosys: no aig", status == wanted and "there is no program" in err, (status, err))


def bounds(_, tally, __):
    """What an earlier search knows stays if a later one finds less; more frames find more."""
    words = ("--only", "later")

    def later():
        return rows_of("out")["later"]["verdict"]

    run(*words, frames=3)
    tally.compare("bounds: three frames", later(), "unreachable within 3")
    status, _, _ = run(*words, frames=5, solver=tool("crash", "kill -SEGV $$"))
    tally.compare("bounds: then a crash", (status, later()), (4, "unreachable within 3"))
    tally.check("bounds: a note", "signal 11" in " ".join(rows_of("out")["later"]["notes"]))
    tally.check("bounds: re-checked", judged("out") is not None)
    run(*words, frames=6)
    tally.compare("bounds: six frames", later(), "unreachable within 6")
    status, _, _ = run(*words, frames=9)
    tally.compare("bounds: nine frames", (status, later(), rows_of("out")["later"]["frames"]), (5, "confirmed", 9))
    run(*words, frames=2)
    tally.compare("bounds: what is found stays", later(), "confirmed")


def executors(_, tally, __):
    """An executor of two processes writes the same bytes, also where the circuit goes to them by its path; a process
    that is killed costs no row but its own."""
    def searched(out, solver=SMALL_SOLVER):
        session = Session(read_aiger(FEW), Path(out), Plan(Bounds(frames=4), Programs(solver, None)))
        session.open()
        try:
            with ProcessPoolExecutor(2) as pool:
                return session.search(workers.Work(pool))
        finally:
            session.close()

    run(out="threads")
    tally.check("executors: complete", searched("processes"))
    tally.check("executors: the same bytes", same_manifests("threads", "processes"))
    large, workers.LARGE = workers.LARGE, 1
    try:
        searched("by_path")
    finally:
        workers.LARGE = large
    tally.check("executors: by path", same_manifests("threads", "by_path"))
    searched("dead", tool("dies", '[ "$1" = --version ] || kill -KILL $PPID'))
    notes = [" ".join(row.get("notes", [])) for row in rows_of("dead").values()]
    tally.check("executors: a process dies", all("worker: BrokenProcessPool" in it for it in notes), notes)
    tally.check("executors: re-checked", judged("dead") is not None)
