"""What a search tries (`--engine`), and how far it goes for one row (`--depth`)."""

from __future__ import annotations

import shutil
from pathlib import Path

from bundles.common import FEW, SMALL_SOLVER, by_symbol, called, manifest_of, rows_of, tool
from bundles.searches import CIRCUIT

# What is known of the rows of FEW within 4 frames, and the frames of the bug of `later`.
WITHIN_4, LATER = "unreachable within 4", 9


def run(*words, out="out", circuit=FEW, new=True, abc=""):
    if new:
        shutil.rmtree(out, ignore_errors=True)
    log = Path("log").resolve()
    log.unlink(missing_ok=True)
    solver = tool("logged", f'[ "$1" = --version ] || [ "$1" = --help ] || echo x >> {log}; exec {SMALL_SOLVER} "$@"')
    return called("run", circuit, "-o", out, "--abc", abc, "--solver", solver, "--frames", 4, "--no-simulator", *words)


def asked():
    """How many questions the solver got."""
    return Path("log").read_text().count("x") if Path("log").exists() else 0


def verdicts(out="out"):
    return {name: row["verdict"] for name, row in rows_of(out).items()}


def engines(_, tally, __):
    """Each engine alone, two of them, and a run with all in the folder of one."""
    abc_log = Path("abc.log").resolve()
    abc = tool("abc", f'[ "$1" = -q ] && [ "$2" = version ] || echo x >> {abc_log}; exit 0')
    for names, three, asks_solver, asks_abc in (
            (["bmc"], WITHIN_4, True, 0), (["induction"], "unreachable", True, 0), (["pdr"], "undecided", False, 3),
            (["bmc", "induction"], "unreachable", True, 0), (["pdr", "bmc"], WITHIN_4, True, 5), ([], "unreachable", True, 3)):
        abc_log.write_text("")
        status, _, said = run(*(word for it in names for word in ("--engine", it)), abc=abc)
        found = verdicts()
        tally.compare(f"engines: {names}: three", (found["three"], status), (three, 5 if asks_solver else 4))
        tally.compare(f"engines: {names}: who is asked", (asked() > 0, len(abc_log.read_text().split())),
                      (asks_solver, asks_abc))
        wanted = "confirmed" if asks_solver else "undecided"
        tally.compare(f"engines: {names}: a run", found["two"], wanted)
        alone = f", {' and '.join(it for it in ('bmc', 'induction', 'pdr') if it in names)} alone" if names else ""
        tally.compare(f"engines: {names}: versions", manifest_of("out")["versions"]["search"],
                      f"aig-verdicts: search 2{alone}")
    run("--engine", "bmc")
    run(new=False)
    tally.compare("engines: what one left open is searched by all", verdicts()["three"], "unreachable")
    tally.compare("engines: another name", called("run", FEW, "--engine", "other")[0], 2)
    _, _, said = called("run", FEW, "-o", "lost", "--abc", "no-such-abc", "--solver", SMALL_SOLVER, "--engine", "bmc")
    tally.check("engines: ABC is not missed", "no-such-abc" not in said, said)


def depths(_, tally, __):
    """A row of its own depth: deeper, less deep, by name, position and pattern, and in an old folder."""
    run()
    position = rows_of("out")["later"]["position"]
    for name in ("later", f"b{position}", "l*r"):
        run("--depth", f"{name}={LATER}")
        row = rows_of("out")["later"]
        tally.compare(f"depths: {name}", (row["verdict"], row["frames"]), ("confirmed", LATER))
    run("--depth", "later=2", "--depth", "later=3")
    tally.compare("depths: the last counts, and the others are as they were", verdicts(),
                  {"later": "unreachable within 3", "three": "unreachable", "two": "confirmed"})
    run()
    tally.compare("depths: without", verdicts()["later"], WITHIN_4)
    run(new=False)
    tally.compare("depths: what is open stays open", (verdicts()["later"], asked()), (WITHIN_4, 0))
    run("--depth", f"later={LATER}", new=False)
    tally.compare("depths: in an old folder", verdicts()["later"], "confirmed")
    run(out="base")
    run("--since", "base", "--keep-open")
    tally.compare("depths: an old bound is enough", (verdicts()["later"], asked()), (WITHIN_4, 0))
    run("--since", "base", "--keep-open", "--depth", f"later={LATER}")
    tally.compare("depths: an old bound is not enough", verdicts()["later"], "confirmed")
    Path("assumes.aag").write_text("aag 2 1 1 0 0 1 1\n2\n4 4\n4\n2\n")
    run("--depth", "b0=27", circuit="assumes.aag")
    rows = manifest_of("out")["rows"]
    tally.compare("depths: assumptions are kept as long", (rows[0]["by"], rows[0]["frames"]), ("kept", 27))
    run("--depth", "stops=1", circuit=CIRCUIT)
    tally.compare("depths: its condition goes with it", by_symbol("out")["if:stops"]["verdict"], "unreachable within 1")
    for word, status in {"nothing=3": 1, "later": 2, "later=0": 2, "=3": 2, "later=65537": 2, "later=x": 2}.items():
        found, _, said = run("--depth", word)
        tally.compare(f"depths: {word}", found, status)
    tally.check("depths: of no row", "there is no assertion nothing" in run("--depth", "nothing=3")[2])
