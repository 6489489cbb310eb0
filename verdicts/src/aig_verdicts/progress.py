"""What a person sees while a run goes on: each verdict as it is found, and below them one line that is renewed."""

from __future__ import annotations

import contextlib
import os
import sys
import threading
from typing import Callable, Iterator, List, Optional, Sequence, Set

from .audit.checked import CONSTRAINTS
from .audit.decisions import Judge, Judged
from .audit.row import Row
from .audit.table import cells, plain
from aig.tools import Clock

# The page is written while rows come in: so often, and as long as that takes less than a part of the time.
PAGE_SECONDS = 5.0
PAGE_PART = 0.05
# A wait that is longer is said: on a terminal in a line that is renewed so often, and else once if that is asked for.
WAIT_SECONDS, RENEWED_SECONDS = 5.0, 1.0


@contextlib.contextmanager
def waiting(what: str, is_verbose: bool, is_quiet: bool) -> Iterator[None]:
    """Says on standard error that something long is going on, as that Yosys makes the circuit."""
    ended, is_terminal = threading.Event(), sys.stderr.isatty()
    is_said = not is_quiet and (is_terminal or is_verbose)
    teller = threading.Thread(target=_tell, args=(what, ended, is_terminal), daemon=True)
    if is_said:
        teller.start()
    try:
        yield
    finally:
        ended.set()
        if is_said:
            teller.join()


def _tell(what: str, ended: threading.Event, is_terminal: bool) -> None:
    clock = Clock()
    if ended.wait(WAIT_SECONDS):
        return
    if not is_terminal:
        sys.stderr.write(f"aig-verdicts: {what} ..\n")
        sys.stderr.flush()
        return
    while True:
        sys.stderr.write(f"\r{what}, {clock():.0f} s\x1b[K")
        sys.stderr.flush()
        if ended.wait(RENEWED_SECONDS):
            sys.stderr.write("\r\x1b[K")
            sys.stderr.flush()
            return


class Progress:
    """Shows rows on standard error once nothing can change what they mean, and renews the page."""

    def __init__(self, rows: Sequence[Row], shown: Set[int], is_verbose: bool, is_quiet: bool,
                 renew: Callable[[], None]):
        terminal = sys.stderr.isatty()
        self._rows, self._renew = rows, renew
        self._has_line = terminal and not is_quiet
        self._left: Set[int] = shown if (terminal or is_verbose) and not is_quiet else set()
        self._clock, self._page, self._cost = Clock(), Clock(), 0.0

    def begin(self, waiting: Sequence[Row]) -> None:
        """Which rows are searched. The others are shown in the table alone."""
        self._waiting = {row.position for row in waiting}
        self._left &= self._waiting
        self._judge = Judge(self._rows)

    def __call__(self, done: int, count: int, row: Optional[Row]) -> None:
        if row is not None:
            self._waiting.discard(row.position)
            self._show(row)
        if self._has_line and count:
            wide = os.get_terminal_size(2).columns - 1
            name = f", last: {plain(row.name or row.kind)}" if row is not None else ""
            sys.stderr.write(f"\r{f'{done} of {count} questions, {self._clock():.0f} s{name}'[:wide]}\x1b[K")
            sys.stderr.flush()
        if self._page() > max(PAGE_SECONDS, self._cost / PAGE_PART):
            clock = Clock()
            self._renew()
            self._cost, self._page = clock(), Clock()

    def _show(self, done: Row) -> None:
        """Shows the rows that this one has a say in, once no other row can change their meaning any more."""
        for position in sorted(self._left if done.position == CONSTRAINTS else self._left & {done.position, done.of}):
            row = self._rows[position + 1]
            if not any(it.position in self._waiting for it in self._judge.waits_for(row)):
                self._left.discard(position)
                self._line(self._judge.of(row))

    def _line(self, it: Judged) -> None:
        shown: List[str] = [it.words, it.row.name, *cells(it)[5:6]]
        line = f"{it.row.label:<5} {'  '.join(map(plain, shown))}".rstrip()
        sys.stderr.write(f"\r{line}\x1b[K\n" if self._has_line else f"{line}\n")
        sys.stderr.flush()

    def end(self) -> None:
        if self._has_line:
            sys.stderr.write("\r\x1b[K")
            sys.stderr.flush()
