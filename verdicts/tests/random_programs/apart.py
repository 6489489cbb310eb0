"""Work in a process of its own, which may take so many seconds of the processor, as may each process that it starts."""

from __future__ import annotations

import multiprocessing
import os
import resource
import signal
import subprocess
from multiprocessing.connection import Connection
from pathlib import Path
from typing import Callable, List, TypeVar, Union

from library import supervised

Made = TypeVar("Made")
# How a process ends that is over its seconds: at first, and a second later.
_OVER = (-signal.SIGXCPU, -signal.SIGKILL)


class TooLong(Exception):
    """A process took more of the processor than it may, or waited for ever."""


def _bound(most: int) -> None:
    resource.setrlimit(resource.RLIMIT_CPU, (most, most + 1))


def _send(work: Callable[[], Made], most: int, to: Connection) -> None:
    os.setsid()
    _bound(most)
    try:
        to.send(work())
    except TooLong as error:
        to.send(error)


def apart(work: Callable[[], Made], most: int, seconds: int) -> Made:
    """What the work returns. The process is a copy of this one: Python does not start again."""
    context = multiprocessing.get_context("fork")
    here, there = context.Pipe(False)
    child = context.Process(target=_send, args=(work, most, there))
    child.start()
    there.close()
    made: Union[Made, TooLong]
    try:
        made = here.recv() if here.poll(seconds) else TooLong("it waits for ever")
    except EOFError:
        made = TooLong("its own process")
    child.join(supervised.GRACE)
    if child.is_alive():
        supervised.kill_all(child.pid)
        child.join()
    if isinstance(made, TooLong):
        raise made
    return made


def run_apart(words: List[str], folder: Path, most: int, seconds: int) -> subprocess.CompletedProcess[str]:
    """Runs a program."""
    try:
        done = supervised.run(words, cwd=folder, stdin=subprocess.DEVNULL, capture_output=True, text=True,
                              timeout=seconds, errors="replace", preexec_fn=lambda: _bound(most))
    except subprocess.TimeoutExpired as error:
        raise TooLong(words[0]) from error
    if done.returncode in _OVER:
        raise TooLong(words[0])
    return done
