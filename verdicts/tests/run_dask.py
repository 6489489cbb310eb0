#!/usr/bin/env python3
"""`aig-verdicts run --dask` on a cluster of processes of this machine. It needs a Python with the package distributed
(Debian: python3-distributed): this one, or that of the system."""

import functools
import json
import os
import re
import signal
import subprocess
import sys
import time
from pathlib import Path

from paths import PYTHONPATH
from bundles.common import SMALL_SOLVER, judged, manifest_of, same_manifests, tool
from library import runs, supervised

# A run in a process of its own, which counts what goes to the workers: tasks, their bytes, and the circuits.
COUNTING = """
import json, pickle, sys
from aig_verdicts import command
from aig_verdicts.search import workers
count = {"tasks": 0, "bytes": 0, "circuits": 0}
submit, share = workers.Workers.submit, workers.Dask.share

def counted(self, task):
    count["tasks"] += 1
    count["bytes"] += len(pickle.dumps(task))
    return submit(self, task)

def shared(self, sent):
    count["circuits"] += 1
    return share(self, sent)

workers.Workers.submit, workers.Dask.share = counted, shared
status = command.main(sys.argv[1:])
with open("count.json", "w") as file:
    json.dump(count, file)
sys.exit(status)
"""
ROWS, GATES = 12, 100_000
SECONDS = 480


@functools.lru_cache(maxsize=None)
def python():
    """A Python that has the package; none if there is none."""
    for path in (sys.executable, "/usr/bin/python3"):
        said = subprocess.run([path, "-c", "import dask.distributed"], capture_output=True, check=False)
        if said.returncode == 0:
            return path
    return None


def circuit_of(rows, gates):
    """So many registers that are 0 for ever, each with an assertion, a bug, and a chain of so many gates."""
    first = 2 * (rows + 2)
    lines = [f"aag {rows + 1 + gates} 1 {rows} 0 {gates} {rows}", "2"]
    lines += [f"{2 * at + 4} {2 * at + 4}" for at in range(rows)]
    lines += [str(2 * at + 4) for at in range(rows - 1)] + ["2"]
    return "\n".join([*lines, f"{first} 4 2", *(f"{it} {it - 2} 3" for it in range(first + 2, first + 2 * gates, 2)),
                      ""])


class Cluster:
    """A scheduler and some workers, each a process."""

    def __init__(self, program, workers):
        self._environment = {**os.environ, "AIG_PROGRAM": program.path, "PYTHONPATH": PYTHONPATH,
                             "DASK_DISTRIBUTED__SCHEDULER__WORKER_TTL": "10s"}
        self._file = Path("scheduler.json").resolve()
        self._file.unlink(missing_ok=True)
        self._all = [self._started("dask_scheduler", "--port", "0", "--no-dashboard", "--scheduler-file", self._file)]
        runs_until(self._file.exists)
        self.address = json.loads(self._file.read_text())["address"]
        self.workers = [self.worker() for _ in range(workers)]

    def _started(self, command, *words):
        said = open(f"{command}.log", "ab")
        return supervised.Popen([python(), "-m", f"distributed.cli.{command}", *map(str, words)], SECONDS,
                                stdin=subprocess.DEVNULL,
                                stdout=said, stderr=said, env=self._environment)

    def worker(self):
        process = self._started("dask_worker", self.address, "--nthreads", 1, "--no-nanny", "--no-dashboard",
                                "--local-directory", ".")
        self._all.append(process)
        return process

    def run(self, *words):
        """A run that the cluster works on."""
        solver = tool("solver", f'[ "$1" != -q ] || sleep 0.1; exec {SMALL_SOLVER} "$@"')
        words = ["run", "--dask", self.address, "--abc", "", "--solver", solver, "--frames", 3, "--no-simulator",
                 *words]
        return supervised.Popen([python(), "-c", COUNTING, *map(str, words)], SECONDS, stdin=subprocess.DEVNULL,
                                stdout=subprocess.PIPE,
                                stderr=subprocess.PIPE, env=self._environment)

    def __enter__(self):
        return self

    def __exit__(self, *_):
        for process in self._all:
            process.kill()
            process.wait()


def runs_until(is_so):
    end = time.monotonic() + SECONDS
    while not is_so() and time.monotonic() < end:
        time.sleep(0.1)


def rows_done(out):
    try:
        return sum(bool(it.get("by")) for it in manifest_of(out)["rows"])
    except OSError:
        return 0


def ended(process):
    with process:
        out, err = process.communicate()
    return process.returncode, out.decode(), err.decode()


def cluster(program, tally, _):
    """Two workers, of which one is killed in the middle: the bytes of a run without a cluster. The circuit is sent
    once."""
    Path("many.aag").write_text(circuit_of(ROWS, GATES))
    with Cluster(program, 2) as made:
        process = made.run("many.aag", "-o", "out")
        runs_until(lambda: rows_done("out") > 3 or process.poll() is not None)
        made.workers[0].send_signal(signal.SIGKILL)
        done = rows_done("out")
        status, _, said = ended(process)
        tally.check("cluster: one is killed in the middle", 3 < done < ROWS, done)
        tally.compare(f"cluster: status: {said[-300:]}", status, 5)
        count = json.loads(Path("count.json").read_text())
        tally.compare("cluster: tasks and circuits", (count["tasks"], count["circuits"]), (ROWS + 1, 1))
        tally.check("cluster: bytes of a task", count["bytes"] < 1000 * count["tasks"], count)
        with_one = made.run("many.aag", "-o", "one", "-q")
        tally.compare("cluster: the one that is left", ended(with_one)[0], 5)
    environment = {**os.environ, "AIG_PROGRAM": program.path, "PYTHONPATH": PYTHONPATH}
    words = ["run", "many.aag", "-o", "alone", "--abc", "", "--solver", "./solver", "--frames", 3, "--no-simulator",
             "-q"]
    supervised.run([sys.executable, "-m", "aig_verdicts", *map(str, words)], timeout=SECONDS, env=environment,
                   stdout=subprocess.DEVNULL)
    for name in ("out", "one"):
        tally.check(f"cluster: the same bytes: {name}", same_manifests(name, "alone"))
    tally.check("cluster: re-checked", len(judged("out") or ()) == ROWS + 1)


def without(program, tally, _):
    """A cluster without workers, one whose workers all die, and no cluster: each ends, and says why."""
    Path("few.aag").write_text(circuit_of(6, 10))
    with Cluster(program, 0) as made:
        status, _, said = ended(made.run("few.aag", "-o", "none", "--dask-seconds", 2))
        tally.check("without: no worker", status == 1 and "the cluster has no worker after 2 s" in said, (status, said))
        tally.check("without: a folder that stays", judged("none") is not None)
        worker, asked = made.worker(), Path("asked").resolve()
        solver = tool("hangs", f'[ "$1" != -q ] || {{ : > {asked}; sleep 20; }}')
        runs_until(lambda: "Registered to" in Path("dask_worker.log").read_text())
        process = made.run("few.aag", "-o", "dead", "--dask-seconds", 5, "--solver", solver)
        runs_until(lambda: process.poll() is not None or asked.exists())
        worker.kill()
        status, _, said = ended(process)
        notes = {str(it.get("notes")) for it in manifest_of("dead")["rows"][1:]}
        tally.compare(f"without: all die: {said[-200:]}", (status, notes),
                      (4, {"['worker: no worker of the cluster is left']"}))
    status, _, said = ended(made.run("few.aag", "-o", "gone", "--dask-seconds", 2))
    tally.check("without: no cluster", status in (1, 3) and re.search("(?i)timed out|connect", said), (status, said))


def with_package(part):
    def checked(program, tally, chosen):
        if python() is None:
            raise runs.LeftOut("no Python here has the package distributed (Debian: python3-distributed)")
        os.environ["AIG_PROGRAM"] = program.path
        return part(program, tally, chosen)
    checked.__doc__ = part.__doc__
    return checked


PARTS = {part.__name__: with_package(part) for part in (cluster, without)}

if __name__ == "__main__":
    runs.main(__doc__, PARTS)
