"""Who works on the tasks: threads of this process, or any executor of `concurrent.futures`."""

from __future__ import annotations

import os
import time
from concurrent.futures import Executor, Future, ThreadPoolExecutor
from dataclasses import replace
from importlib import import_module
from pathlib import Path
from queue import Empty, SimpleQueue
from types import TracebackType
from typing import Any, Callable, Dict, List, NamedTuple, Optional, Sequence, Tuple, Type, Union

from ..audit.checked import Wrong
from .decide import decide, decide_about
from .task import Found, Task
from ..audit.hints import by_name
from ..audit.needed import Run
from ..audit.recheck import check_claim
from ..audit.row import Row
from .sent import Sent
from aig.tools import Clock, Stop, Stopped, ToolFailed

# A circuit whose compressed file is larger is not a part of each task.
LARGE = 1 << 16
# How long a wait for a worker takes until the user's wish to stop is looked at.
LOOK = 0.5
# How long a cluster may take to answer, and how often it is asked whether it has workers.
CONNECT, ASK = "30s", 0.2
# How often the circuit is shared again.
MOST_SHARES = 5
# The note on a row that no worker of a cluster is left for.
NO_WORKER = "worker: no worker of the cluster is left"

# How many rows are done, of how many, and the row that is new.
Progress = Callable[[int, int, Optional[Row]], None]


def silent(_: int, __: int, ___: Optional[Row]) -> None:
    """Shows nothing."""


class Work(NamedTuple):
    """Who works, and who sees it.

    executor  any of `concurrent.futures`; without one threads of this process
    workers   how many of these; 0 for one per processor
    progress  what is called where a row is done
    share     puts a circuit where all workers are
    are_lost  whether all workers are gone, and none has come for long
    """

    executor: Optional[Executor] = None
    workers: int = 0
    progress: Progress = silent
    share: Optional[Callable[[Sent], Any]] = None
    are_lost: Callable[[], bool] = lambda: False


class Workers:
    """Takes tasks about one circuit. An executor that is not named is one of threads, which ends with these workers.

    A large circuit is not sent with each task. `share` puts it where all workers are, and its result is sent in place
    of it; without that, the workers read it from the file at `path`."""

    def __init__(self, circuit: bytes, path: Path, stop: Stop, work: Work = Work()):
        self._stop, self._own, share = stop, work.executor is None, work.share
        self._executor = work.executor or ThreadPoolExecutor(work.workers or os.cpu_count() or 1)
        self._sent = Sent.of(circuit)
        self._shared: Any = None
        self._share, self._shares = share, 0
        self._given: Dict[Future[Found], Tuple[Any, Task]] = {}  # the shared circuit of each task
        if not self._own and len(self._sent.packed) > LARGE:
            if share is not None:
                self._shared = share(self._sent)
            else:
                self._sent = Sent.at(path)

    def submit(self, task: Task) -> Future[Found]:
        if self._own:
            return self._executor.submit(decide, replace(task, circuit=self._sent), self._stop)
        if self._shared is not None:
            future = self._executor.submit(decide_about, self._shared, task)
            self._given[future] = self._shared, task
            return future
        return self._executor.submit(decide, replace(task, circuit=self._sent))

    def again(self, future: Future[Found]) -> Optional[Future[Found]]:
        """A task once more, where the workers that had the circuit are gone: others get it, a few times."""
        shared, task = self._given.pop(future, (None, None))
        if task is None or self._share is None or self._stop.stopped or not _is_lost(future):
            return None
        if shared is self._shared:
            if self._shares == MOST_SHARES:
                return None
            try:
                self._shared, self._shares = self._share(self._sent), self._shares + 1
            except Exception:  # no worker is there
                return None
        return self.submit(task)

    def __enter__(self) -> Workers:
        return self

    def __exit__(self, kind: Optional[Type[BaseException]], _: Optional[BaseException],
                 __: Optional[TracebackType]) -> None:
        if self._own:
            self._executor.shutdown(wait=True)


def _is_lost(future: Future[Found]) -> bool:
    """Whether nobody works on a task any more, as what it needs is gone."""
    return future.cancelled() or type(future.exception()).__name__ == "CancelledError"


def check_all(found: Sequence[Union[Found, Run]], circuit: bytes, stop: Stop, who: str = "worker") -> None:
    """Checks what other processes found, side by side: their word is no check. A note says what is wrong."""
    def check(it: Union[Found, Run]) -> None:
        try:
            it.checked = check_claim(it.claim, circuit, by_name(it.claim, it.files), stop)
        except (Wrong, Stopped) as error:
            it.notes.append(f"{who}: {str(error) or 'stopped'}")

    with ThreadPoolExecutor(os.cpu_count() or 1) as pool:
        [*pool.map(check, [it for it in found if it.by and it.checked is None])]


class Dask:
    """The workers of a Dask cluster, as an executor and a way to share a circuit. If none is there for so many seconds,
    the search ends."""

    def __init__(self, address: str, seconds: float, stop: Stop):
        try:
            distributed: Any = import_module("dask.distributed")
        except ImportError:
            raise ToolFailed("--dask needs the package distributed") from None
        self._client = distributed.Client(address, timeout=CONNECT)
        self._seconds, self._without = seconds, Clock()
        self.executor: Executor = self._client.get_executor(pure=False)
        while not self._has_workers():
            if self.are_lost():
                self.close()
                raise ToolFailed(f"the cluster has no worker after {seconds:g} s: `dask worker {address}` starts one")
            stop.look()
            time.sleep(ASK)

    def _has_workers(self) -> bool:
        try:
            return bool(self._client.scheduler_info()["workers"])
        except Exception:  # the cluster does not answer
            return False

    def are_lost(self) -> bool:
        """Whether no worker has been there for as long as one waits."""
        if self._has_workers():
            self._without = Clock()
        return self._without() > self._seconds

    def share(self, sent: Sent) -> Any:
        return self._client.scatter(sent, broadcast=True)

    def close(self) -> None:
        self._client.close()


def taken(ended: SimpleQueue[Future[Found]]) -> List[Future[Found]]:
    """The tasks that have ended, after a short wait for one."""
    ready = []
    try:
        ready.append(ended.get(timeout=LOOK))
        while True:
            ready.append(ended.get_nowait())
    except Empty:
        return ready


def result_of(future: Future[Found], row: Row) -> Found:
    """What a worker found. If it died, its property is undecided, and the others go on."""
    try:
        return future.result()
    except Exception as error:
        return Found(row.position, notes=[f"worker: {type(error).__name__}: {str(error)[:200]}"])
