"""Workers that decide rows: what each gets and gives, circuits that are shared again, and searches that are stopped or
that lose their workers."""

from __future__ import annotations

import itertools
import pickle
import threading
import time
import unittest.mock
from concurrent.futures import CancelledError, Executor, Future
from dataclasses import replace
from pathlib import Path

from aig.errors import AigError
from aig_verdicts import rechecking
from aig_verdicts.search import search, workers
from aig_verdicts.audit.bundle import sum_of
from aig_verdicts.search.decide import decide
from aig_verdicts.search.task import Bounds, Found, Programs, Task
from aig_verdicts.reading.design import read_aiger
from aig_verdicts.search.sent import Sent
from aig_verdicts.search.session import Plan, Session
from aig.tools import Stop, Stopped
from aig_verdicts.search.workers import NO_WORKER, Work, Workers
from bundles.common import FEW, called, kept, manifest_of, raises, tool

# A search that goes on without workers is stopped after so many looks.
MOST_LOOKS = 40


class Scripted(Executor):
    """An executor that keeps what it is to do, and whose futures are those that it was given."""

    def __init__(self, *futures):
        self.given, self.futures, self.is_ended = [], list(futures), False

    def submit(self, call, *words):
        self.given.append((call, words))
        return self.futures.pop(0) if self.futures else Future()

    def shutdown(self, wait=True, **_):
        self.is_ended = True


def ended_with(outcome):
    future = Future()
    if isinstance(outcome, BaseException):
        future.set_exception(outcome)
    else:
        future.set_result(outcome)
    return future


def workers_(_, tally, __):
    """What a worker gets and gives: a circuit by its sum, an answer that is whole, bounds, and no more."""
    circuit = FEW.read_bytes()
    Path("circuit.aig").write_bytes(circuit)
    at_path, of_bytes = Sent.at(Path("circuit.aig")), Sent.of(circuit)
    tally.compare("workers: circuits", (at_path.circuit(), of_bytes.circuit(), at_path.sum == of_bytes.sum),
                  (circuit, circuit, True))
    of_bytes = pickle.loads(pickle.dumps(Sent.of(b"aag 0 0 0 0 0\n")))
    tally.compare("workers: from another process", of_bytes.circuit(), b"aag 0 0 0 0 0\n")
    Path("circuit.aig").write_bytes(circuit[:-2] + b"x\n")
    found = decide(Task(at_path, 0, Bounds(frames=1), Programs("none", None)))
    tally.check("workers: a file that changed", found.verdict == "undecided" and "another sum" in found.notes[0], found)
    found = decide(Task(Sent(sum_of(circuit), of_bytes.packed), 0))
    tally.check("workers: another circuit", found.verdict == "undecided" and "another sum" in found.notes[0], found)
    found = decide(Task(None, 0))
    tally.check("workers: no circuit", found.verdict == "undecided" and found.notes, found)
    usual = search.Search.search
    for error, note, is_stopped in ((AigError("proof", "step 1"), ["AigError: proof: step 1"], False),
                                    (Stopped(), [], True)):
        def ends(_, error=error):
            time.sleep(0.01)
            raise error

        search.Search.search = ends
        try:
            found = decide(Task.of(circuit, 0))
        finally:
            search.Search.search = usual
        tally.compare(f"workers: {error!r}", (found.verdict, found.files, found.notes, found.stopped),
                      ("undecided", {}, note, is_stopped))
        tally.check("workers: seconds", 0.01 <= found.seconds < 60, found.seconds)
    bounds(tally)
    executors(tally, circuit)


def bounds(tally):
    usual = Bounds(conflicts=10, seconds=10.0, megabytes=10, proof_megabytes=10)
    for name in ("conflicts", "seconds", "megabytes", "proof_megabytes"):
        for value, wanted in ((10, True), (9, True), (11, False), (0, False)):
            tally.compare(f"workers: {name} of {value}", replace(usual, **{name: value}).within(usual), wanted)
        tally.check(f"workers: no bound of {name}", usual.within(replace(usual, **{name: 0})))
    tally.check("workers: frames", Bounds(frames=99).within(Bounds(frames=1)))


def executors(tally, circuit):
    """What an executor gets: threads hear of a stop, and a large circuit is sent once."""
    task, stop = Task(None, 3), Stop()
    threads = Scripted()
    usual, workers.ThreadPoolExecutor = workers.ThreadPoolExecutor, lambda _: threads
    try:
        with Workers(circuit, Path("circuit.aig"), stop) as own:
            own.submit(task)
    finally:
        workers.ThreadPoolExecutor = usual
    (_, words), = threads.given
    tally.compare("workers: threads", (words[0].circuit.circuit(), words[1:], threads.is_ended),
                  (circuit, (stop,), True))
    Path("circuit.aig").write_bytes(circuit)
    large, workers.LARGE = workers.LARGE, 1
    try:
        for share, wanted in ((None, "path"), (lambda sent: sent, "shared")):
            others = Scripted()
            with Workers(circuit, Path("circuit.aig"), stop, Work(others, share=share)) as given:
                given.submit(task)
            (_, words), = others.given
            sent = words[0].circuit if wanted == "path" else words[0]
            tally.compare(f"workers: a large circuit by its {wanted}", (sent.circuit(), bool(sent.path), sent.packed
                                                                      == b"", words[-1].circuit is None),
                          (circuit, wanted == "path", wanted == "path", wanted == "shared"))
            tally.check("workers: an executor of others goes on", not others.is_ended)
    finally:
        workers.LARGE = large


def shared_again(_, tally, __):
    """Where the workers that had the circuit are gone, others get it, once for all tasks that were lost with it."""
    circuit, stop, count = FEW.read_bytes(), Stop(), []
    Path("circuit.aig").write_bytes(circuit)

    def lost():
        return ended_with(CancelledError("gone"))

    def share(sent):
        count.append(sent)
        return f"copy {len(count)}"

    with unittest.mock.patch.object(workers, "LARGE", 1):
        others = Scripted(lost(), lost(), Future(), ended_with(OSError("x")), *(lost() for _ in range(99)))
        with Workers(circuit, Path("circuit.aig"), stop, Work(others, share=share)) as given:
            first, second = given.submit(Task(None, 1)), given.submit(Task(None, 2))
            again = given.again(first), given.again(second)
            tally.compare("shared again: which copy", [words[0] for _, words in others.given],
                          ["copy 1"] * 2 + ["copy 2"] * 2)
            tally.compare("shared again: which task", [words[1].position for _, words in others.given], [1, 2, 1, 2])
            tally.compare("shared again: what failed otherwise", given.again(again[1]), None)
            last, tries = given.submit(Task(None, 3)), 0
            while last is not None:
                last, tries = given.again(last), tries + 1
            tally.compare("shared again: not for ever", (len(count), tries),
                          (workers.MOST_SHARES + 1, workers.MOST_SHARES))
        stop()
        with Workers(circuit, Path("circuit.aig"), stop, Work(Scripted(lost()), share=share)) as given:
            tally.compare("shared again: not after a stop", given.again(given.submit(Task(None, 1))), None)
        session = session_of("again")
        session.open(1)
        waiting = [row.position for row in session.waiting()]
        bound = Found(0, "unreachable within 3", "bound", 3, {"base": b"0\n"})
        complete = session.search(Work(Scripted(*(lost() for _ in waiting), *(
            ended_with(bound if at == 0 else Found(at)) for at in waiting)), share=share))
        session.close()
        tally.compare("shared again: in a session", (complete, manifest_of("again")["rows"][1]["verdict"]),
                      (True, "unreachable within 3"))


def session_of(out, stop=None):
    plan = Plan(Bounds(frames=3), Programs(tool("none", "exit 0"), None))
    return Session(read_aiger(FEW), Path(out), plan, stop)


def stopped(_, tally, __):
    """A search that was stopped is not complete, and ends at once; a worker that died has no verdict."""
    for name, wanted, note in (("stopped", False, ["stopped"]), ("dead", True, ["worker: OSError: gone"])):
        session = session_of(name)
        session.open(1)
        waiting = [row.position for row in session.waiting()]
        outcomes = {at: Found(at, stopped=True) if name == "stopped" else OSError("gone") for at in waiting}
        outcomes[0] = Found(0, "unreachable within 3", "bound", 3, {"base": b"0\n"})
        complete = session.search(Work(Scripted(*(ended_with(outcomes[at]) for at in waiting))))
        session.close()
        tally.compare(f"stopped: {name}", complete, wanted)
        rows = manifest_of(name)["rows"]
        tally.compare(f"stopped: {name}: rows", {it["verdict"] for it in rows[2:]}, {"undecided"})
        tally.compare(f"stopped: {name}: notes", [it.get("notes") for it in rows[2:]], [note] * len(rows[2:]))
        tally.compare(f"stopped: {name}: what was found", (rows[1]["verdict"], rows[1].get("notes")),
                      ("unreachable within 3", None))
    lost(tally)
    stop = Stop()
    session = session_of("by_user", stop)
    session.open(1)
    threading.Timer(0.3, stop).start()
    began, found = time.monotonic(), []
    searching = threading.Thread(target=lambda: found.append(session.search(Work(Scripted()))), daemon=True)
    searching.start()
    searching.join(30)
    tally.compare("stopped: by the user", found, [False])
    tally.compare("stopped: by the user: notes", {str(it.get("notes")) for it in manifest_of("by_user")["rows"]
                                                 if it["kind"] == "assert"}, {"['stopped']"})
    session.close()
    tally.check("stopped: by the user: at once", time.monotonic() - began < 20)
    tally.check("stopped: no program after it", raises(Stopped, stop.look))
    of_command(tally)
    of_programs(tally)


def lost(tally):
    """A cluster whose workers are all gone: rows that they had are open, others stay, and the run ends as a whole
    one."""
    for name, are_lost, first in (("all", lambda: True, None), ("others", lambda: True, ended_with(
            Found(0, "unreachable within 3", "bound", 3, {"base": b"0\n"})))):
        session = session_of(f"lost_{name}")
        session.open(1)
        waiting = [row.position for row in session.waiting()]
        futures = [first if at == 0 and first else Future() for at in waiting]
        looks = itertools.count(1)

        def look(*_, session=session, looks=looks):
            if next(looks) > MOST_LOOKS:
                session.stop()

        complete = session.search(Work(Scripted(*futures), progress=look, are_lost=are_lost))
        tally.compare(f"lost: {name}", (complete, session.stop.stopped), (True, False))
        session.close()
        rows = manifest_of(f"lost_{name}")["rows"][1:]
        tally.compare(f"lost: {name}: notes", [it.get("notes") for it in rows],
                      [None if it["position"] == 0 and first else [NO_WORKER] for it in rows])
        tally.check(f"lost: {name}: no worker has more to do", all(it.cancelled() for it in futures if it is not first))
        tally.compare(f"lost: {name}: what was found", rows[0]["verdict"],
                      "unreachable within 3" if first else "undecided")


def of_command(tally):
    """The status and the page of a run that was stopped."""
    usual = Session.search
    for complete, status in ((False, 130), (True, 4)):
        Session.search = lambda *_: complete
        try:
            found = called("run", FEW, "--out", f"run_{complete}", "--abc", "", "--solver", tool("none", "exit 0"))[0]
        finally:
            Session.search = usual
        page = Path(f"run_{complete}/index.html").read_text(encoding="utf-8")
        tally.compare(f"stopped: a run, {complete}", (found, "Unfinished:" in page), (status, not complete))
    usual, rechecking.recheck = rechecking.recheck, lambda *_, **__: (_ for _ in ()).throw(Stopped())
    try:
        tally.compare("stopped: recheck", called("recheck", kept("every"))[0], 130)
    finally:
        rechecking.recheck = usual


class Begun:
    """A program as a stop sees it."""

    def __init__(self):
        self.pid, self.returncode = None, None


def of_programs(tally):
    """A stop ends each program that runs."""
    from aig import tools

    ended, usual = [], tools._kill
    tools._kill = ended.append
    try:
        stop, begun = Stop(), [Begun() for _ in range(3)]
        for process in begun:
            stop.begin(process)
        stop.end(begun[0])
        stop()
        stop.begin(begun[0])
    finally:
        tools._kill = usual
    tally.compare("stopped: programs", [sum(it is process for it in ended) for process in begun], [1, 1, 1])
