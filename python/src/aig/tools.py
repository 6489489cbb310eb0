"""Runs the programs of others: bounded, stoppable, and never trusted. And `aig`, which ends too when the user stops."""

from __future__ import annotations

import os
import shutil
import signal
import subprocess
import tempfile
import textwrap
import threading
import time
from contextlib import contextmanager
from dataclasses import dataclass
from pathlib import Path
from typing import Iterator, List, Mapping, Optional, Sequence, Set

from .program import failed, held, program

# Seconds that a program gets after its own limit, before it is killed.
GRACE = 2.0
# What installs Yosys, a solver and ABC.
INSTALL = "apt install yosys cadical"
_INSTALLED = ("yosys", "cadical", "berkeley-abc", "yosys-abc")
VERSION_SECONDS = 4.0
# How much of a program's output is read.
MOST_OUTPUT = 1 << 28
MOST_ERROR = 1 << 16
# How long the last line of it may be in a message.
MOST_SAID = 400


class Stopped(Exception):
    """The user stopped the run."""


class ToolFailed(Exception):
    """A program is missing, crashed, or printed something that makes no sense."""


@dataclass(frozen=True)
class Ran:
    """How a program ended: its status (negative for a signal, None if it was killed at its limit) and its output."""

    status: Optional[int]
    out: bytes
    err: bytes

    @property
    def said(self) -> str:
        """The last line of it."""
        lines = (self.err or self.out).decode("utf-8", "replace").strip().splitlines()
        return textwrap.shorten(lines[-1], MOST_SAID, placeholder=" ..") if lines else "nothing"


class Stop:
    """Ends all programs that run, and lets no new one begin. All threads of a run share one."""

    def __init__(self) -> None:
        self._lock = threading.RLock()  # a signal may come while this thread has it
        self._running: Set[subprocess.Popen[bytes]] = set()
        self.stopped = False
        self.is_late = False  # stopped, as the time of the whole run is over
        self._raises = False

    def begin(self, process: subprocess.Popen[bytes]) -> None:
        with self._lock:
            self._running.add(process)
            if self.stopped:
                _kill(process)

    def end(self, process: subprocess.Popen[bytes]) -> None:
        with self._lock:
            self._running.discard(process)

    def __call__(self, *_: object) -> None:
        """Also the handler of a signal. It raises nothing, so no write is left half done, but in what may be left at once."""
        with self._lock:
            self.stopped = True
            for process in list(self._running):
                _kill(process)
            raises = self._raises and not self._running and threading.current_thread() is threading.main_thread()
        if raises:
            self.look()

    @contextmanager
    def at_once(self) -> Iterator[None]:
        """What runs inside may be left anywhere, as it writes nothing that stays: a signal ends it, even if it calls no
        program for long."""
        self.look()
        before, self._raises = self._raises, True
        try:
            yield
        finally:
            self._raises = before

    def late(self) -> None:
        """The time of the whole run is over."""
        with self._lock:
            self.is_late = not self.stopped
            self()

    @contextmanager
    def after(self, seconds: Optional[float]) -> Iterator[None]:
        """Stops what runs inside after so many seconds; never if there are none."""
        timer = threading.Timer(seconds, self.late) if seconds is not None else None
        if timer is not None:
            timer.daemon = True
            timer.start()
        try:
            yield
        finally:
            if timer is not None:
                timer.cancel()

    def look(self) -> None:
        if self.stopped:
            raise Stopped


def _kill(process: subprocess.Popen[bytes]) -> None:
    """Ends a program and all that it began: each runs in a group of its own."""
    if process.returncode is None:
        try:
            os.killpg(process.pid, signal.SIGKILL)
        except (ProcessLookupError, PermissionError):
            pass


def missing(name: str) -> str:
    """What to say of a program that is not there; nothing if it is there."""
    if shutil.which(name) is not None:
        return ""
    return f"there is no program {name} on the path" + f" ({INSTALL})" * (name in _INSTALLED)


def found(name: str) -> str:
    """The path of a program, from any folder."""
    path = shutil.which(name)
    if path is None:
        raise ToolFailed(missing(name))
    return os.path.abspath(path)


@contextmanager
def soon(seconds: float) -> Iterator[Stop]:
    """A Stop that ends what runs after so many seconds."""
    stop = Stop()
    timer = threading.Timer(seconds, stop)
    timer.daemon = True
    timer.start()
    try:
        yield stop
    finally:
        timer.cancel()


@dataclass(frozen=True)
class Limits:
    """How much a program may take before it is ended. Where a limit is 0, there is none; seconds have to be given.

    seconds            from its start
    megabytes          of memory
    file_megabytes     of each file that it writes
    processor_seconds  of a processor
    """

    seconds: float
    megabytes: int = 0
    file_megabytes: int = 0
    processor_seconds: int = 0


def run(words: Sequence[str], folder: Path, limits: Limits, stop: Stop) -> Ran:
    """Runs a program in a folder, within its limits. Its output goes to files there, so no pipe fills up."""
    stop.look()
    out, err = folder / "out", folder / "err"
    with out.open("wb") as to, err.open("wb") as wrong:
        process = subprocess.Popen(_bounded(words, limits), cwd=folder, stdin=subprocess.DEVNULL, stdout=to,
                                   stderr=wrong, start_new_session=True)
        stop.begin(process)
        try:
            status: Optional[int] = process.wait(limits.seconds + GRACE)
        except subprocess.TimeoutExpired:
            status = None
        finally:
            _end(process)
            stop.end(process)
    stop.look()
    return Ran(status, _start_of(out, MOST_OUTPUT), _start_of(err, MOST_ERROR))


def _bounded(words: Sequence[str], limits: Limits) -> List[str]:
    """A shell that sets the limits before the program begins: what the program starts has them too."""
    orders = [f"ulimit -f {limits.file_megabytes * 2048}"] * (limits.file_megabytes > 0)
    orders += [f"ulimit -v {limits.megabytes * 1024}"] * (limits.megabytes > 0)
    orders += [f"ulimit -t {limits.processor_seconds}"] * (limits.processor_seconds > 0)
    return ["/bin/sh", "-c", "; ".join([*orders, 'exec "$@"']), "sh", found(words[0]), *words[1:]]


def _end(process: subprocess.Popen[bytes]) -> None:
    """Ends a program, if it goes on, and what it began, also if it has ended itself."""
    try:
        os.killpg(process.pid, signal.SIGKILL)
    except (ProcessLookupError, PermissionError):
        pass
    process.wait()


def _start_of(path: Path, most: int) -> bytes:
    with path.open("rb") as file:
        return file.read(most)


def ask(stop: Stop, command: str, *options: str, files: Sequence[bytes], named: Mapping[str, bytes] = {},
        good: Sequence[int] = (0,)) -> bytes:
    """What `aig` prints for these files, and for those that an option names. It raises the error of any other run."""
    return answer(stop, command, *options, files=files, named=named, good=good).out


def answer(stop: Stop, command: str, *options: str, files: Sequence[bytes], named: Mapping[str, bytes] = {},
           good: Sequence[int] = (0,)) -> Ran:
    """The same, with the status."""
    stop.look()
    with held(*named.values(), *files) as (paths, descriptors):
        by_option = [word for option, path in zip(named, paths) for word in (option, path)]
        words = [command, *options, *by_option, *paths[len(named):]]
        process = subprocess.Popen([program(), *words], stdin=subprocess.DEVNULL, stdout=subprocess.PIPE, stderr=subprocess.PIPE,
                                   pass_fds=descriptors, start_new_session=True)
        stop.begin(process)
        try:
            out, err = process.communicate()
        finally:
            _kill(process)
            process.wait()
            stop.end(process)
        stop.look()
        if process.returncode not in good or err.startswith(b"aig: "):
            raise failed(words, process.returncode, err)
    return Ran(process.returncode, out, err)


def version(name: str, stop: Stop) -> str:
    """One line that says which program this is."""
    short = Path(name).name
    words = {"yosys": ["-V"]}.get(short, ["-q", "version"] if "abc" in short else ["--version"])
    with tempfile.TemporaryDirectory(prefix="aig-verdicts-") as folder:
        try:
            ran = run([name, *words], Path(folder), Limits(VERSION_SECONDS, file_megabytes=1), stop)
        except (ToolFailed, OSError) as error:
            return f"{short}: {error}"
    lines = (ran.out or ran.err)[:4000].decode("utf-8", "replace").strip().splitlines()
    line = lines[0][:200] if lines else "?"
    return line if line.startswith(f"{short} ") else f"{short} {line}"


class Clock:
    """Seconds since it was made."""

    def __init__(self) -> None:
        self._begin = time.monotonic()

    def __call__(self) -> float:
        return time.monotonic() - self._begin
