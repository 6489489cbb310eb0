"""A second look at a file. It opens no pipe and no device, and reads no file over its bound."""

from __future__ import annotations

import os
import stat
from typing import BinaryIO, List, Optional

from .lines import Lines

MOST = 1 << 30
LARGE = "it has more than 1 GiB, which aig does not read again"
NOT_AGAIN = "it is a pipe or a device, which aig does not open again"
FOLDER = "it is a folder: name a file"
FULL = "make space, and run the command again"
REMEDIES = {
    FileNotFoundError: "check its name, and the names of its folders",
    PermissionError: "check its permissions, and those of its folders",
}
# Names of the standard input, which is the caller's only if the run had the caller's standard streams.
INPUTS = ("/dev/stdin", "/dev/fd/0", "/proc/self/fd/0")


class Hidden(Exception):
    """Why a second look does not show a file: lines for its user."""

    def __init__(self, *lines: str):
        super().__init__(*lines)
        self.lines = lines

    @property
    def is_pipe(self) -> bool:
        return self.lines[0].startswith(NOT_AGAIN)


def reasons(error: OSError) -> List[str]:
    """The system's reason, and what to do."""
    remedy = FULL if error.errno == 28 else REMEDIES.get(type(error))
    return [f"{error.strerror} (os error {error.errno})", *([remedy] if remedy else [])]


def _check(found: os.stat_result) -> None:
    if stat.S_ISDIR(found.st_mode):
        raise Hidden(FOLDER)
    if not stat.S_ISREG(found.st_mode):
        raise Hidden(f"{NOT_AGAIN}: save its bytes in a file to learn more")


def opened(name: str) -> BinaryIO:
    """A regular file. It may be another one than a moment ago, so it is looked at again after it is open."""
    try:
        _check(os.stat(name))
        file = open(name, "rb", opener=lambda path, flags: os.open(path, flags | os.O_NONBLOCK))
    except OSError as error:
        raise Hidden(*reasons(error)) from None
    except ValueError:  # a zero byte: no argument of a program has one
        raise Hidden("this is not the name of a file") from None
    try:
        _check(os.fstat(file.fileno()))
    except Hidden:
        file.close()
        raise
    return file


def bytes_of(name: str) -> bytes:
    """All bytes of a file. It may grow while it is read."""
    with opened(name) as file:
        if os.fstat(file.fileno()).st_size > MOST:
            raise Hidden(LARGE)
        try:
            data = file.read(MOST + 1)
        except OSError as error:
            raise Hidden(*reasons(error)) from None
    if len(data) > MOST:
        raise Hidden(LARGE)
    return data


class Files:
    """The files of a run, as a second look finds them. What the run read from a stream of its own is gone."""

    def __init__(self, has_our_streams: bool):
        self.has_our_streams = has_our_streams

    def bytes_of(self, name: str) -> bytes:
        self._check(name)
        return bytes_of(name)

    def opened(self, name: str) -> BinaryIO:
        self._check(name)
        return opened(name)

    def _check(self, name: str) -> None:
        if name in INPUTS and not self.has_our_streams:
            raise Hidden(f"{NOT_AGAIN}: save its bytes in a file to learn more")

    def bytes_or_none(self, name: str) -> Optional[bytes]:
        try:
            return self.bytes_of(name)
        except Hidden:
            return None


def push_unread(lines: Lines, name: str, hidden: Optional[Hidden]) -> None:
    """Why a file cannot be opened or read."""
    lines.name(name)
    if name == "-":
        lines.add("- is a file of this name: standard input is /dev/stdin")
    lines.add(*(hidden.lines if hidden else ["it can be opened and read now"]))
