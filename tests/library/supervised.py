"""`subprocess` for tests and tools: each program ends within its time, and all that it started ends with it. A program
has a session and a process group of its own, and the default actions of signals."""

from __future__ import annotations

import contextlib
import os
import signal
import subprocess
import threading
from typing import Any, Iterator, Sequence

# No program keeps anything for the next test: aig-verdicts keeps circuits where this says.
os.environ["XDG_CACHE_HOME"] = "/dev/null"
# How long a program may take, if nothing else is said.
SECONDS = int(os.environ.get("AIG_TEST_SECONDS", "120"))
# How long a script that runs several programs may take, which is a quarter of an hour.
SCRIPT_SECONDS = SECONDS * 15 // 2
# How long the output of a program that was killed may take: what left its group may have its pipe still.
GRACE = 5
# `nohup`, a job in the background of a script and some CI systems ignore these. A program would inherit that.
SIGNALS = (signal.SIGHUP, signal.SIGINT, signal.SIGQUIT, signal.SIGTERM)


def started_by(process: int) -> Iterator[int]:
    """The processes that this one started and that go on, and those that they started."""
    for name in filter(str.isdigit, os.listdir("/proc") if os.path.isdir("/proc") else ()):
        try:
            with open(f"/proc/{name}/stat", "rb") as file:
                parent = int(file.read().rpartition(b")")[2].split()[1])
        except OSError:
            continue  # it has ended
        if parent == process:
            yield from started_by(int(name))
            yield int(name)


def kill(process: int) -> None:
    """Kills a process, and its group where it leads one."""
    for end in (os.killpg, os.kill):
        with contextlib.suppress(ProcessLookupError, PermissionError):
            end(process, signal.SIGKILL)


def kill_all(process: int) -> None:
    """Kills a process and all that it started."""
    with contextlib.suppress(ProcessLookupError, PermissionError):
        os.kill(process, signal.SIGSTOP)  # it starts no more meanwhile
    for each in [*started_by(process), process]:
        kill(each)


def end(number: int, _: Any) -> None:
    """Ends this process as the signal does, after all that it started: they get no signal of its terminal."""
    for each in [*started_by(os.getpid())]:
        kill(each)
    signal.signal(number, signal.SIG_DFL)
    os.kill(os.getpid(), number)


def set_signals() -> None:
    """Gives all programs that this process starts the default actions of signals: they do not inherit handlers. The
    process still ignores a signal that it ignored."""
    for number in SIGNALS:
        is_ignored = signal.getsignal(number) == signal.SIG_IGN
        signal.signal(number, (lambda *_: None) if is_ignored else end)
    signal.pthread_sigmask(signal.SIG_UNBLOCK, SIGNALS)


# once for every script that starts programs, before it starts the first
set_signals()


class Popen(subprocess.Popen):  # type: ignore[type-arg]
    """A program that runs beside its caller. After so many seconds it is killed, so who waits for it or reads what it
    writes does not wait for ever. The end of the block raises `TimeoutExpired` then."""

    def __init__(self, words: Sequence[Any], timeout: float = SECONDS, **settings: Any):
        self.seconds, self.is_over = timeout, False
        super().__init__(words, **{"start_new_session": True, **settings})
        self.timer = threading.Timer(timeout, self.stop)
        self.timer.daemon = True
        self.timer.start()

    def stop(self) -> None:
        self.is_over = True
        kill_all(self.pid)

    def usage(self) -> Any:
        """Waits for the end, and returns what the program used."""
        _, state, usage = os.wait4(self.pid, 0)
        self.returncode = os.waitstatus_to_exitcode(state)
        return usage

    def __exit__(self, kind: Any, value: Any, traceback: Any) -> None:
        if kind is not None and self.returncode is None:
            kill_all(self.pid)
        try:
            super().__exit__(kind, value, traceback)  # it waits for the end
        finally:
            self.timer.cancel()
        if self.is_over and kind is None:
            raise subprocess.TimeoutExpired(self.args, self.seconds)


def run(words: Sequence[Any], input: Any = None, capture_output: bool = False, check: bool = False,
        timeout: float = SECONDS, **settings: Any) -> subprocess.CompletedProcess[Any]:
    """Runs a program to its end, as `subprocess.run` does."""
    if capture_output:
        settings.update(stdout=subprocess.PIPE, stderr=subprocess.PIPE)
    if input is not None:
        settings["stdin"] = subprocess.PIPE
    with Popen(words, timeout, **settings) as program:
        out, err = program.communicate(input, timeout + GRACE)
    done: subprocess.CompletedProcess[Any] = subprocess.CompletedProcess(words, program.returncode, out, err)
    if check:
        done.check_returncode()
    return done
