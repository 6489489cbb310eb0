"""The program that is tested, its runs, and the counts of what passed."""

from __future__ import annotations

import argparse
import contextlib
import inspect
import os
import subprocess
import sys
import tempfile
import threading
from typing import Callable, Collection, Iterator, List, Mapping, NamedTuple, NoReturn, Optional, Tuple, Union

from library import supervised
from library.supervised import SECONDS

TESTS = os.path.dirname(os.path.dirname(os.path.abspath(__file__)))
REPOSITORY = os.path.dirname(TESTS)
EXAMPLES = REPOSITORY + "/examples"
EXPECTED = TESTS + "/expected"
DESIGNS = TESTS + "/designs"
PROVED_PROGRAM = REPOSITORY + "/crates/aig/out/aig"

# How many runs of a part may be over their time before the part is stopped. Each of them fails its check.
MOST_UNENDED = 3
# How long a part may take, whatever it waits for.
PART_SECONDS = 10 * SECONDS
# The exit status of a script of which a part was stopped, and no check failed.
STOPPED = 3
# With this variable a script ends at its first check that fails.
FIRST_FAILURE = "AIG_FIRST_FAILURE"


class Ended(NamedTuple):
    """How a run ended: its exit status, and the bytes on standard output and standard error. A run that was stopped has
    no status."""

    status: Optional[int]
    out: bytes
    err: bytes


def refused(text: str, out: bytes = b"", status: int = 1) -> Ended:
    """How a run ends that says why on standard error."""
    return Ended(status, out, f"aig: {text}\n".encode())


def input_or_output(part: str, out: bytes = b"") -> Ended:
    """How a run ends where a file of this part cannot be opened, read or written."""
    return refused(f"{part}: input or output", out, 3)


class LeftOut(Exception):
    """Why a part cannot run here, or cannot go on. What it checked before counts."""


def leave_out(name: str, why: object) -> None:
    """Says what is not checked here, and why. The last lines of all.py say it again."""
    print(f"{name}: left out: {why}", flush=True)


class Unended(Exception):
    """Too many runs of a part did not end."""


class Program:
    """The built program."""

    def __init__(self, path: str, is_named: bool):
        self.path = os.path.abspath(path)
        self.is_named = is_named
        self.unended = 0

    def run(self, *words: str, **settings) -> Ended:
        """Runs it, by default without an input. A run that is over its time is stopped."""
        if "input" not in settings:
            settings.setdefault("stdin", subprocess.DEVNULL)
        settings.setdefault("stdout", subprocess.PIPE)
        try:
            done = supervised.run([self.path, *words], stderr=subprocess.PIPE, check=False, **settings)
        except subprocess.TimeoutExpired as reason:
            return self.stopped(words, reason.timeout)
        return Ended(done.returncode, done.stdout, done.stderr)

    def stopped(self, words: Tuple[str, ...], seconds: float) -> Ended:
        """How a run ends that is over its time. After some of them, the part does not go on."""
        self.unended += 1
        if self.unended >= MOST_UNENDED:
            raise Unended(f"{self.unended} runs did not end, the last one {[*words]}")
        return Ended(None, b"", f"it does not end within {seconds} seconds\n".encode())


class Tally:
    """How many checks of a part passed and failed; it prints each that failed."""

    MOST_TOLD = 20

    def __init__(self):
        self.passed = self.failed = 0

    def check(self, name: str, is_right: object, why: object = "") -> None:
        if is_right:
            self.passed += 1
            return
        self.failed += 1
        if self.failed <= self.MOST_TOLD:
            print(f"FAILED: {name}: {why}", flush=True)
        if os.environ.get(FIRST_FAILURE):
            sys.exit(1)

    def compare(self, name: str, got: object, wanted: object) -> None:
        self.check(name, got == wanted, f"{shortened(got)}, wanted {shortened(wanted)}")


# A part of a script: it checks the program, and may say something that stands before its counts.
Part = Callable[[Program, Tally, argparse.Namespace], Optional[str]]


def shortened(value: object) -> str:
    text = f"{tuple(value)}" if isinstance(value, Ended) else f"{value!r}"
    return text if len(text) <= 300 else f"{text[:200]} .. {text[-100:]}"


def write(name: str, data: Union[bytes, str]) -> str:
    """Writes a file, bytes or ASCII text."""
    with open(name, "wb") as file:
        file.write(data.encode("ascii") if isinstance(data, str) else data)
    return name


def contents(name: str) -> bytes:
    with open(name, "rb") as file:
        return file.read()


def contents_of(folder: str, endings: Union[str, Tuple[str, ...]]) -> List[bytes]:
    """The contents of the files of a folder with these endings, by name."""
    return [contents(f"{folder}/{name}") for name in sorted(os.listdir(folder)) if name.endswith(endings)]


@contextlib.contextmanager
def limited(name: str, tally: Tally) -> Iterator[None]:
    """Ends the script, with a failure, if a part does not end."""
    def stop() -> NoReturn:
        print(f"STOPPED: {name}: it does not end within {PART_SECONDS} seconds", flush=True)
        print(f"{name}: {tally.passed} passed, {tally.failed + 1} failed", flush=True)
        # A program that was started and goes on would go on for ever.
        for child in [*supervised.started_by(os.getpid())]:
            supervised.kill(child)
        os._exit(1 if tally.failed else STOPPED)

    timer = threading.Timer(PART_SECONDS, stop)
    timer.daemon = True
    timer.start()
    try:
        yield
    finally:
        timer.cancel()


def shown(parts: Mapping[str, Part], outside: Collection[str]) -> str:
    """What the help says of each part: the comment of its function, else that of the file where it is alone."""
    texts = [(name, part.__doc__ or sys.modules[part.__module__].__doc__) for name, part in parts.items()
             if part.__doc__ or part.__module__ != "__main__"]
    return "\n\n".join(f"{name}{' (only where it is asked for)' * (name in outside)}\n{inspect.cleandoc(text)}"
                       for name, text in texts)


def main(
    description: str,
    parts: Mapping[str, Part],
    outside: Collection[str] = (),
    options: Callable[[argparse.ArgumentParser], None] = lambda parser: None,
    proved: str = PROVED_PROGRAM,
) -> NoReturn:
    """The command line of a script of tests. Its parts are functions of the program, a tally and the options; each runs
    in an empty folder of its own. Those named in `outside` run only where they are asked for."""
    parser = argparse.ArgumentParser(description=description, epilog=shown(parts, outside),
                                     formatter_class=argparse.RawDescriptionHelpFormatter)
    parser.add_argument("--part", action="append", choices=list(parts), help="runs this part alone; may be given again")
    parser.add_argument("program", nargs="?", help="the program that is tested (else the one that the gate built)")
    options(parser)
    chosen = parser.parse_args()
    program = Program(chosen.program or proved, chosen.program is not None)
    if not os.access(program.path, os.X_OK):
        sys.exit(f"there is no program {program.path}")
    failed = stopped = 0
    left: List[str] = []
    for name in chosen.part or [name for name in parts if name not in outside]:
        tally, told, ends = Tally(), "", 0
        program.unended = 0
        with tempfile.TemporaryDirectory() as room, limited(name, tally):
            os.chdir(room)
            try:
                told = parts[name](program, tally, chosen) or ""
            except LeftOut as reason:
                leave_out(name, reason)
                left.append(name)
            except (Unended, subprocess.TimeoutExpired) as reason:
                print(f"STOPPED: {name}: {reason}", flush=True)
                ends = 1
            finally:
                os.chdir("/")
        has_counts = name not in left or tally.passed + tally.failed > 0
        if has_counts:
            print(f"{name}: {told}{tally.passed} passed, {tally.failed + ends} failed", flush=True)
        failed += tally.failed + (has_counts and tally.passed + tally.failed + ends == 0)
        stopped += ends
    if left:
        print(f"parts that were left out, or ended early: {len(left)} ({', '.join(left)})", flush=True)
    sys.exit(1 if failed else STOPPED if stopped else 0)
