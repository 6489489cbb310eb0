"""`aig-explain COMMAND ..` runs `aig COMMAND ..`, and then says on standard error why it failed, where, and what to do.
After a verdict of `check` or `refute` it names the property."""

from __future__ import annotations

import os
import signal
import subprocess
import sys
from typing import IO, List, Tuple

from .._where import program
from . import explanation
from . import outputs
from .arguments import Arguments

# What is kept of what the program says: its message is at the end.
MOST_KEPT = 1 << 16
UNWRITTEN = b"aig: output: input or output\n"


def passed_on(said: IO[bytes]) -> bytes:
    """Writes what the program says as it comes, and returns the end of it."""
    kept = b""
    while data := os.read(said.fileno(), MOST_KEPT):
        say(data)
        kept = (kept + data)[-MOST_KEPT:]
    return kept


def say(data: bytes) -> None:
    """Writes to standard error. There is no place to report that it fails."""
    try:
        while data:
            data = data[os.write(2, data) :]
    except OSError:
        pass


def ended(words: List[str]) -> Tuple[int, bytes]:
    """Runs the program: its status, and what it said."""
    options = Arguments(words).options
    kept = [options[name] for name in ("--circuit-out", "--stimulus-out", "--map") if name in options]
    if any(outputs.goes_to(name, (2,)) for name in kept):
        # The program rejects such a file only if this is its own standard error.
        status = subprocess.run([program(), *words], check=False).returncode
        return status, UNWRITTEN if status == 3 else b""
    with subprocess.Popen([program(), *words], stderr=subprocess.PIPE) as process:
        assert process.stderr is not None
        said = passed_on(process.stderr)
    return process.returncode, said


def main() -> int:
    """The command: its status is that of the program."""
    words = sys.argv[1:]
    # An interrupt is for the program, which ends by it or goes on. A handler that does nothing is not inherited.
    signal.signal(signal.SIGINT, lambda *_: None)
    try:
        status, said = ended(words)
    except FileNotFoundError as error:
        say(f"aig-explain: {error}\n".encode())
        return 3
    signal.signal(signal.SIGINT, signal.SIG_DFL)
    try:
        say(explanation(words, status, said).encode())
    except MemoryError:
        say(b"  out of memory: there is none for an explanation\n")
    return status if status >= 0 else 128 - status  # as a shell has it, if a signal ended the program
