"""Why a file of an option may not have been written, or standard output."""

from __future__ import annotations

import os
import stat
from typing import List, Optional, Tuple

from .files import FOLDER, NOT_AGAIN, reasons
from .lines import Lines


def push_standard_output(lines: Lines) -> None:
    """Why standard output may not take what is written to it."""
    try:
        mode = os.fstat(1).st_mode
        if stat.S_ISFIFO(mode) or stat.S_ISSOCK(mode):
            lines.add("standard output is a pipe: its reader may have ended before it had everything, as head does")
        elif stat.S_ISREG(mode):
            lines.add("standard output is a file: its disk may be full, or the file at a limit (ulimit -f, a quota)")
        else:
            os.write(1, b"")
            lines.add("standard output can be written to now")
    except OSError as error:
        lines.add("standard output is closed or full:", *reasons(error))


def is_one(name: str, other: str) -> bool:
    """Whether two names lead to one file, or would make one."""
    (folder, file), (other_folder, other_file) = os.path.split(name), os.path.split(other)
    try:
        if os.path.exists(name) and os.path.exists(other):
            return os.path.samefile(name, other)
        return file == other_file and os.path.samefile(folder or ".", other_folder or ".")
    except OSError:
        return False


def stream(number: int) -> Optional[Tuple[int, int]]:
    """The file that a standard stream goes to."""
    try:
        found = os.fstat(number)
    except OSError:
        return None
    return found.st_dev, found.st_ino


def goes_to(name: str, numbers: Tuple[int, ...]) -> bool:
    """Whether one of these streams goes to the file of this name."""
    try:
        found = os.stat(name)
    except OSError:
        return False
    return (found.st_dev, found.st_ino) in [stream(number) for number in numbers]


def push_output(lines: Lines, name: Optional[str], other: Optional[str], streams: Tuple[int, ...]) -> None:
    """Why the file of an option may not have been written. `other` must not be the same file, and the streams of the
    run must not go to it."""
    if name is None:
        return
    new = (os.path.realpath(name) if os.path.islink(name) else name) + ".new"
    lines.name(name)
    try:
        why = _of_two(name, new, other) or _of_name(name, streams) or _of_new(new)
    except OSError as error:
        why = reasons(error)
    if why == [new]:
        lines.name(new)
        why = ["it exists, as after a run that was killed: rename it or remove it"]
    lines.add(*why)


def _of_two(name: str, new: str, other: Optional[str]) -> List[str]:
    """What is wrong with a name beside another one."""
    if other is not None and is_one(name, other):
        return ["two arguments name this file: choose another name"]
    if other is not None and is_one(new, other):
        return ["its new file would take the name of another argument: choose another name"]
    return []


def _of_name(name: str, streams: Tuple[int, ...]) -> List[str]:
    """What is wrong with a name, or with the file that has it."""
    if not name or name.endswith("/"):
        return ["this is not the name of a file"]
    try:
        found = os.stat(name)
    except FileNotFoundError:
        if os.path.lexists(name):
            return ["it is a link to a file that does not exist: create that file, or name it"]
        os.stat(os.path.dirname(name) or ".")
        return []
    if stat.S_ISDIR(found.st_mode):
        return [FOLDER]
    if goes_to(name, streams):
        return ["standard output or standard error goes to it: name another file"]
    if not stat.S_ISREG(found.st_mode):
        return [f"{NOT_AGAIN}: it may be full, or without a reader"]
    if not (os.path.lexists("/dev/stdout") and os.path.lexists("/dev/stderr")):
        return ["it may be standard output or standard error: without /dev the system does not say; name a new file"]
    if os.geteuid() not in (0, found.st_uid):
        return ["it has another owner, whom only root may give a file: name another file"]
    os.close(os.open(name, os.O_WRONLY | os.O_NONBLOCK))
    return []


def _of_new(new: str) -> List[str]:
    """The new file may be there already. Else a second look does not show why it could not be written."""
    if os.path.lexists(new):
        return [new]
    return ["nothing is wrong with it now: if it was not written, check the permissions and the space of its folder"]
