"""Many rows of a large circuit: what each of them costs beside the solver."""

from __future__ import annotations

import gc
import os
import pickle
from pathlib import Path
from unittest import mock

from aig.program import OftenRead
from aig_verdicts.search import sent
from aig_verdicts.search.decide import decide
from aig_verdicts.search.task import Bounds, Programs, Task
from aig_verdicts.reading.design import read_aiger
from aig_verdicts.search.sent import Sent
from aig_verdicts.search.session import Plan, Session
from aig_verdicts.search.workers import Work
from bundles.common import manifest_of, tool

ROWS, SIZE = 40, 2_000_000
# A formula without a clause has a model, and one that has a clause is said to have none.
SOLVER = 'case "$*" in *cnf*) echo "0" > proof; exit 20 ;; esac; exit 0'


def large(rows=ROWS, size=SIZE):
    """Registers that are 0 for ever, each with an assertion, and an input with a name of so many bytes."""
    latches = [f"{2 * at + 4} {2 * at + 4}" for at in range(rows)]
    bad = [str(2 * at + 4) for at in range(rows)]
    return "\n".join([f"aag {rows + 1} 1 {rows} 0 0 {rows}", "2", *latches, *bad, f"i0 {'x' * size}", ""]).encode()


def written_by(process="self"):
    """The bytes that a process has written."""
    return int(next(line.split()[1] for line in Path(f"/proc/{process}/io").read_text().splitlines()
                    if line.startswith("wchar")))


def unpacked_once(_, tally, __):
    """A circuit is unpacked, summed and written once, whatever the number of its rows: in this process and another."""
    Path("large.aag").write_bytes(large())
    plan = Plan(Bounds(frames=2), Programs(tool("says", SOLVER), None))
    session = Session(read_aiger(Path("large.aag")), Path("out"), plan)
    session.open(1)
    before, unpack = written_by(), mock.patch.object(sent.zlib, "decompress", side_effect=AssertionError)
    with unpack, mock.patch.object(OftenRead, "of", side_effect=OftenRead.of) as made:
        session.search(Work(workers=1))
    session.close()
    rows = manifest_of("out")["rows"][1:]
    tally.compare("once: rows", [(it["verdict"], it["by"]) for it in rows], [("unreachable", "induction")] * ROWS)
    tally.check("once: bytes that are written", written_by() - before < SIZE, written_by() - before)
    tally.compare("once: sums", made.call_count, 1)
    elsewhere(tally)
    held(tally)


def elsewhere(tally):
    """The tasks of a worker: one circuit after the other, each unpacked once."""
    circuits = [large(2, 100), large(3, 100)]
    came = [pickle.loads(pickle.dumps(Sent.of(it))) for it in circuits]
    tally.check("once: sent without its bytes", all(len(pickle.dumps(it)) < 400 for it in came),
                [len(pickle.dumps(it)) for it in came])
    unpack = sent.zlib.decompress
    with mock.patch.object(sent.zlib, "decompress", side_effect=unpack) as called:
        found = [came[at].circuit() for at in (0, 0, 0, 1, 1, 0)]
    tally.compare("once: which circuit", [bytes(it) for it in found], [circuits[at] for at in (0, 0, 0, 1, 1, 0)])
    tally.compare("once: unpacked", (called.call_count, len(sent._arrived)), (3, 1))
    task = Task(came[1], 2, Bounds(frames=1), Programs(tool("says", SOLVER), None))
    tally.compare("once: decided", decide(task).verdict, "unreachable")


def held(tally):
    """The memory file of a circuit: nobody who gets it can write it, and it goes with the circuit."""
    gc.collect()
    before = len(os.listdir("/proc/self/fd"))
    circuit = OftenRead(large(2, 100))
    descriptor = circuit.file.descriptor
    for how in (lambda: os.pwrite(descriptor, b"x", 0), lambda: os.ftruncate(descriptor, 0),
                lambda: os.ftruncate(descriptor, 9999)):
        try:
            how()
            tally.check("once: nobody writes it", False)
        except PermissionError:
            tally.check("once: nobody writes it", os.pread(descriptor, 9999, 0) == circuit)
    tally.compare("once: of itself", (OftenRead.of(circuit) is circuit, OftenRead.of(circuit[:9]) == circuit[:9]),
                  (True, True))
    copy = pickle.loads(pickle.dumps(circuit))
    tally.check("once: in another process", copy == circuit and copy.file.descriptor != descriptor)
    del circuit, copy
    gc.collect()
    tally.compare("once: files that are open", len(os.listdir("/proc/self/fd")), before)
