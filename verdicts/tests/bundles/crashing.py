"""An `aig` that a signal ends, or that ends without a message, wherever the package runs it: less is known, in one line
and with the status of what is open. No verdict is lost that it confirmed, and none is made."""

from __future__ import annotations

import signal
from pathlib import Path

from aig.errors import Crashed
from aig_verdicts import running
from aig_verdicts.search.decide import decide
from aig_verdicts.search.task import Bounds, Programs, Task
from aig.waves.concrete import comes_back
from aig_verdicts.audit.cycles import cycles_of
from aig_verdicts.search.session import Session
from bundles.common import FEW, SMALL_SOLVER, called, judged, kept, manifest_of, rows_of, why_rejected
from bundles.dying import with_aig
from bundles.ends import KNOWN

# The status of a table that is not whole.
OPEN, STOPPED = 4, 130
ENDS = {"killed": "kill -9 $$", "status 2": "exit 2"}
SAID = {"killed": "aig ended with status -9: no message", "status 2": "aig ended with status 2: no message"}
# Of each command that is no check of a row: a pattern of the shell, and how aig-verdicts runs it. `run` begins in an
# empty folder.
RECHECK, RUN = ("recheck", "every.verdicts"), ("run", FEW, "--out", "out", "--solver", SMALL_SOLVER, "--abc", "",
                                               "--frames", "1")
LOST = {
    "names of recheck": ("info*--names*", RECHECK), "cycles of recheck": ("toaig*", RECHECK),
    "the page of recheck": ("info\\ /*", (*RECHECK, "--page", "page.html")), "names of run": ("info*--names*", RUN),
    "cycles of run": ("toaig*", (*RUN, "--only", "two", "--frames", "3")),
}


def crashing(_, tally, __):
    """Each place that runs `aig`."""
    for way, (pattern, words) in LOST.items():
        for how, end in ENDS.items():
            kept("every")
            cycles_of.cache_clear()
            Path("page.html").unlink(missing_ok=True)
            status, out, err = with_aig(pattern, end, called, *words)
            said = err.splitlines()[-1:]
            tally.compare(f"crashing: {way}, {how}", (status, said), (OPEN, [f"aig-verdicts: {SAID[how]}"]))
            tally.check(f"crashing: {way}, {how}: no verdict",
                        "Traceback" not in err and "all checked" not in err and "assertion" not in err, err)
            tally.check(f"crashing: {way}, {how}: no page", not Path("page.html").exists())
    rows(tally)
    searched(tally)
    pages(tally)
    earlier(tally)
    stopped(tally)


def rows(tally):
    """A row that `aig` did not answer for is not rejected: nothing is known of it."""
    path = kept("every")
    status, _, err = with_aig("check*--property=2\\ *", "kill -9 $$", called, "recheck", path)
    tally.compare("crashing: a row", (status, err), (OPEN, f"aig-verdicts: b2: {SAID['killed']}\n"))
    (path / "2.wit").write_bytes(b"1\nb2\n.\n")
    status, _, _ = called("recheck", path)
    tally.compare("crashing: a row that is wrong", (status, "another sum" in (why_rejected(path) or "")), (1, True))


def searched(tally):
    """A run that `aig` confirmed stays, if its reduction, or what comes after it, is lost. It may not be the shortest."""
    def search(pattern, position=2, frames=4):
        task = Task.of(FEW.read_bytes(), position, Bounds(frames=frames), Programs(SMALL_SOLVER, None))
        return with_aig(pattern, "kill -9 $$", decide, task)

    crashed = f"Crashed: {SAID['killed']}"
    for pattern, verdict in (("reduce*", "confirmed"), ("check*", "unreachable within 2"),
                             ("witness*", "unreachable within 2"), ("cnf*", "undecided")):
        found = search(pattern)
        tally.compare(f"crashing: a search without {pattern}", (found.verdict, found.checked is not None, found.notes[:1]),
                      (verdict, verdict != "undecided", [crashed]))
    tally.compare("crashing: a run without its reduction", search("reduce*").notes,
                  [crashed, "a shorter run was not ruled out"])
    with_aig("reduce*", "kill -9 $$", called, *RUN[:-1], "4")
    found = {name: row["verdict"] for name, row in rows_of("out").items()}
    tally.compare("crashing: a search without reduce", found, KNOWN)
    tally.check("crashing: a search without reduce: re-checked", judged("out") is not None)


def pages(tally):
    """A page that is not made while a search goes on does not end it, and none of before stays. A picture that is not
    made does not end a page."""
    usual, asked = running.write_page, []

    def page(to, *words):
        asked.append(to.exists())
        if len(asked) == 1:
            raise Crashed("gone")
        usual(to, *words)

    running.write_page = page
    try:
        status, _, err = called(*RUN[:3], "pages", *RUN[4:], "-q")
    finally:
        running.write_page = usual
    tally.compare("crashing: the first page", (status, asked, Path("pages/index.html").exists()), (4, [False, False], True))
    path = kept("every")
    status, _, err = with_aig("why*", "kill -9 $$", called, "recheck", path, "--page", "page.html")
    page = Path("page.html").read_text()
    tally.check("crashing: no picture", status == 5 and "The page has no picture of this run" in page, (status, err))
    tally.check("crashing: no picture: the verdict", "all checked by aig" in err and "fails" in page, err)
    files = [(path / name).read_bytes() for name in ("circuit.aig", "2.wit")]
    is_back = with_aig("check*--trace*", "kill -9 $$", comes_back, *files)
    tally.compare("crashing: whether a run comes back", is_back, False)


def earlier(tally):
    """What an earlier run found, and `aig` does not answer for now, is no verdict; the next run finds it again."""
    called(*RUN, "--only", "two", "--frames", "3")
    manifest = manifest_of("out")
    status, _, err = with_aig("check*", "kill -9 $$", called, *RUN, "--only", "two", "--frames", "3")
    two = rows_of("out")["two"]
    tally.compare("crashing: an earlier row", (status, two["verdict"]), (OPEN, "unreachable within 2"))
    tally.check("crashing: an earlier row: told", f"b2: {SAID['killed']}" in err, err)
    called(*RUN, "--only", "two", "--frames", "3")
    tally.compare("crashing: an earlier row, later", rows_of("out")["two"]["verdict"], "confirmed")
    tally.check("crashing: an earlier row: its rows", len(manifest["rows"]) == len(manifest_of("out")["rows"]))


def stopped(tally):
    """^C at a terminal ends `aig`, too: the run was stopped."""
    usual = Session.search

    def search(self, *_):
        self.stop(signal.SIGINT, None)
        raise Crashed("aig ended with status -2: no message")

    Session.search = search
    try:
        status, _, err = called(*RUN[:3], "stopped", *RUN[4:])
    finally:
        Session.search = usual
    tally.compare("crashing: stopped", (status, err.splitlines()[-1:]), (STOPPED, ["aig-verdicts: stopped"]))
