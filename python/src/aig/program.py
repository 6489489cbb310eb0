"""Runs the program `aig`, which computes every result of this package."""

from __future__ import annotations

import hashlib
import os
import subprocess
import tempfile
import weakref
from contextlib import ExitStack, contextmanager
from pathlib import Path
from typing import Iterator, List, Mapping, Optional, Sequence, Tuple

try:
    import fcntl
    import resource
except ImportError:  # no Unix
    fcntl = resource = None  # type: ignore[assignment]

from ._where import program as program
from .errors import OutOfMemory, error_of

# Of a program whose output is bounded, beside what its files and its output take.
MOST_MEMORY = 1 << 28


class _MemoryFile:
    """A text in a memory file that nobody can write any more. It has no descriptor if the system has no such files."""

    def __init__(self, text: bytes):
        self.descriptor: Optional[int] = None
        if fcntl is None or not hasattr(os, "memfd_create") or not hasattr(fcntl, "F_ADD_SEALS"):
            return
        descriptor = os.memfd_create("aig", os.MFD_CLOEXEC | os.MFD_ALLOW_SEALING)
        weakref.finalize(self, os.close, descriptor)
        with os.fdopen(os.dup(descriptor), "wb") as file:
            file.write(text)
        seals = fcntl.F_SEAL_WRITE | fcntl.F_SEAL_GROW | fcntl.F_SEAL_SHRINK | fcntl.F_SEAL_SEAL
        fcntl.fcntl(descriptor, fcntl.F_ADD_SEALS, seals)
        self.descriptor = descriptor


class OftenRead(bytes):
    """A file that many commands read. All of them find it in one memory file, and its sum (SHA-256) is made once."""

    def __init__(self, _: bytes):
        self.sum, self.file = hashlib.sha256(self).hexdigest(), _MemoryFile(self)

    @staticmethod
    def of(data: bytes) -> OftenRead:
        return data if isinstance(data, OftenRead) else OftenRead(data)

    def __reduce__(self) -> Tuple[type, Tuple[bytes]]:
        return OftenRead, (bytes(self),)


def sum_of(data: bytes) -> str:
    """The sum of a file."""
    return data.sum if isinstance(data, OftenRead) else hashlib.sha256(data).hexdigest()


@contextmanager
def held(*texts: bytes) -> Iterator[Tuple[List[str], List[int]]]:
    """Paths at which the program finds these texts, and the descriptors that it has to inherit.

    The texts are in memory files, or in a temporary folder if the system has no memory files. One that is often read is
    not written again.
    """
    with ExitStack() as stack:
        if not hasattr(os, "memfd_create"):
            folder = Path(stack.enter_context(tempfile.TemporaryDirectory(prefix="aig-")))
            paths = [folder / str(position) for position in range(len(texts))]
            for path, text in zip(paths, texts):
                path.write_bytes(text)
            yield [str(path) for path in paths], []
            return
        descriptors = []
        for text in texts:
            if isinstance(text, OftenRead) and text.file.descriptor is not None:
                descriptors.append(text.file.descriptor)
                continue
            descriptor = os.memfd_create("aig")
            stack.callback(os.close, descriptor)
            with os.fdopen(os.dup(descriptor), "wb") as file:
                file.write(text)
            descriptors.append(descriptor)
        yield [f"/proc/self/fd/{descriptor}" for descriptor in descriptors], descriptors


def run(
    command: str,
    *options: str,
    files: Sequence[bytes],
    named: Mapping[str, bytes] = {},
    good: Sequence[int] = (0,),
    most: Optional[int] = None,
) -> bytes:
    """What the program prints for these files, and for those that an option names. It raises the error of any other
    run: one with a message, with a status that is not `good`, or with more than `most` bytes."""
    with held(*named.values(), *files) as (paths, descriptors):
        by_option = [word for option, path in zip(named, paths) for word in (option, path)]
        words = [command, *options, *by_option, *paths[len(named):]]
        with subprocess.Popen([program(), *words], stdin=subprocess.DEVNULL, stdout=subprocess.PIPE,
                              stderr=subprocess.PIPE, pass_fds=descriptors) as process:
            try:
                out = b"" if most is None else _start_of(process, most, sum(map(len, files)))
                rest, err = process.communicate()
            except BaseException:
                process.kill()
                raise
        if process.returncode not in good or err.startswith(b"aig: "):
            raise failed(words, process.returncode, err)
    return out + rest


def answers(line: str, files: Sequence[bytes]) -> List[str]:
    """What the prompt answers to a line about a circuit and its rows. A refusal is a ValueError."""
    with held(*files) as (paths, descriptors):
        words = ["shell", *paths]
        done = subprocess.run([program(), *words], input=f"{line}\n".encode(), pass_fds=descriptors, check=False,
                              stdout=subprocess.PIPE, stderr=subprocess.PIPE)
        if done.returncode or done.stderr:
            raise failed(words, done.returncode, done.stderr)
    lines = done.stdout.decode().splitlines()
    if lines and lines[0].startswith("no: "):
        raise ValueError(lines[0][len("no: "):])
    return lines


def failed(words: Sequence[str], status: int, said: bytes) -> Exception:
    """The error of a run with these arguments. Its files have to be there still."""
    from .explain import explanation  # read where something failed alone: a re-check needs none of it

    explained = explanation(words, status, said, has_our_streams=False) if said else ""
    return error_of(status, said.decode("utf-8", "replace") + explained)


def _start_of(process: subprocess.Popen[bytes], most: int, read: int) -> bytes:
    """What a process prints, if that is not too much. Its memory is bounded too, as it may hold all that it prints."""
    if hasattr(resource, "prlimit"):
        memory = MOST_MEMORY + 4 * most + 64 * read
        resource.prlimit(process.pid, resource.RLIMIT_AS, (memory, memory))
    assert process.stdout is not None
    out = process.stdout.read(most + 1)
    if len(out) > most:
        raise OutOfMemory("program", f"it prints more than {most} bytes")
    return out
