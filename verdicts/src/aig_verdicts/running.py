"""The commands `aig-verdicts run`, `demo` and `cores`."""

from __future__ import annotations

import argparse
import contextlib
import fnmatch
import signal
import sys
from dataclasses import replace
from pathlib import Path
from typing import Callable, Collection, Optional, Sequence, Set

from aig.errors import AigError, Crashed
from .arguments import CIRCUITS, parser
from .command import SIGNALS, TOTAL
from .audit.bundle import Bundle
from .search.bundled import session_of
from .search.task import Bounds, Hint, Narrow
from .audit.decisions import INTERRUPTED
from .demo import written
from .reading.design import Design, read_aiger
from .reading.file_lists import listed
from .audit.folder import PAGE, folder_of, pack, write_whole
from .reading.made import made, reading_of
from .audit.manifest import as_json
from .pages.page import Results
from .search.programs import lost_without, programs_of, tracing
from .notes import MOST_NOTES, tell, say_of_assumptions, say_of_needs, write_page
from .progress import Progress, waiting
from .replay.run import Bounds as PlayBounds, simulated
from .pages.sections import Pictures
from .search.session import STOPPED, Plan, Session
from .compare.since import Since, opened, since_of
from .audit.sentences import NOT_SIMULATED
from .audit.simulated import Simulated
from .reading.store import Store, folder_of_user
from .audit.table import Table, next_command, open_notes, plain
from aig.tools import Clock, Stop, ToolFailed, missing
from .search.workers import Dask, Work



def _design(words: argparse.Namespace, stop: Stop) -> Design:
    """The circuit of the files."""
    if any(path.suffix in CIRCUITS for path in words.files):
        if len(words.files) > 1:
            raise ToolFailed("one circuit at a time, and no Verilog beside it")
        return read_aiger(words.files[0])
    options = {"top": words.top, "defines": words.define, "conditions": not words.no_conditions,
               "wires": not words.no_wires, "free": words.free, "parameters": words.parameter, "module": words.module}
    if bool(words.asserts) != bool(words.module):
        raise ToolFailed("--assert FILE needs --module M, and --module M needs --assert FILE")
    store = None if words.fresh else Store(folder_of_user())
    return made(words.files, replace(reading_of(options, words.include, words.asserts), store=store), stop)


def chosen(design: Design, names: Sequence[str]) -> Optional[Set[int]]:
    """The positions of the assertions that `--only` names, and of their conditions; None for all."""
    if not names:
        return None
    positions: Set[int] = set()
    for name in names:
        found = [it for it in design.assertions if it.kind != "condition" and _is_named(name, it.position, it.name)]
        if not found:
            raise ToolFailed(f"there is no assertion {name}")
        positions |= {it.position for it in found}
    return positions | {it.position for it in design.assertions if it.of is not None and it.of in positions}


def _is_named(word: str, position: int, name: str) -> bool:
    pattern = word.replace("[", "[[]")
    return word in (name, f"b{position}") or "*" in word and fnmatch.fnmatchcase(name, pattern)


def run(words: argparse.Namespace, stop: Stop) -> int:
    """Finds the verdicts of a design, in the time that there is for all of it."""
    listed(words.lists).give(words)
    if not words.files:
        raise ToolFailed("the lists name no file")
    with stop.after(words.total):
        return _run(words, stop)


def _run(words: argparse.Namespace, stop: Stop) -> int:
    programs, lost = programs_of(words), {} if words.quiet else lost_without(words)
    for said, what in lost.items():
        tell(f"{said}: {what}")
    hinting = tracing(words, tell) if words.cores else None
    with waiting("yosys makes the circuit", words.verbose, words.quiet), stop.at_once():
        design = _design(words, stop)
    if design.was_made_before and not words.quiet:
        tell("an earlier run made the circuit, of the same sources, options and programs; --fresh makes it again")
    only = chosen(design, words.only)
    path = folder_of(words.out, design.name, [*words.files, *words.asserts])
    bounds = Bounds(words.frames, words.conflicts, words.seconds, words.megabytes, words.proof_megabytes)
    named = opened(words.since, path)
    depths = {it: frames for name, frames in words.depths for it in chosen(design, [name]) or ()}
    session = Session(design, path, Plan(bounds, programs, only, depths), stop)
    with contextlib.closing(session):
        session.open(words.jobs)
        session.folder.note_files([*words.files, *words.asserts])
        since = since_of(named, str(words.since), session)
        session.hints = since.hints(words.keep_open) if since else {}
        if not words.quiet:
            for wrong in session.rejected:
                tell(f"an earlier row is not what it says, and is searched again: {wrong}")
            if session.older:
                tell(f"{session.older} earlier rows have proofs of an older aig, and are searched again")
            for note in design.notes:
                tell(note)
        is_complete = _search(words, session, hinting)
        return _results(words, session, is_complete, lost, since)


def _renewing(session: Session) -> Callable[[bool], None]:
    """What writes the page of a session; it is unfinished or not."""
    pictures: Pictures = {}

    def renew(is_unfinished: bool = True) -> None:
        folder = session.folder
        try:
            results = Results(session.manifest(), session.rows, folder.read, session.seconds)
            write_page(folder.path / PAGE, results, session.table, is_unfinished, pictures)
        except (AigError, Crashed):
            folder.remove(PAGE)  # it is about what was known before
            if not is_unfinished:  # else the search goes on without a page
                raise

    return renew


def _search(words: argparse.Namespace, session: Session, hinting: Optional[str]) -> bool:
    """Finds the verdicts. Whether all was searched."""
    renew = _renewing(session)
    shown = {row.position for row in session.rows if row.kind in ("assert", "cover")}
    shown &= shown if session.only is None else set(session.only)
    clock, progress = Clock(), Progress(session.rows, shown, words.verbose, words.quiet, lambda: renew(True))
    progress.begin(session.waiting())
    renew(True)  # a page of an earlier run would be about something else
    if words.dask:
        with contextlib.closing(Dask(words.dask, words.dask_seconds, session.stop)) as dask:
            work = Work(dask.executor, words.jobs, progress, dask.share, dask.are_lost)
            is_complete = _work(words, session, hinting, work)
    else:
        is_complete = _work(words, session, hinting, Work(None, words.jobs, progress))
    progress.end()
    if is_complete and not words.no_simulator:
        _simulate(words, session, clock())
    renew(not is_complete)
    return is_complete


def _work(words: argparse.Namespace, session: Session, hinting: Optional[str], work: Work) -> bool:
    """Finds the verdicts, and what their proofs need if that is asked for. Whether all was done."""
    return session.search(work) and (not words.cores or session.narrow(_narrow(words, hinting), work))


def _narrow(words: argparse.Namespace, hinting: Optional[str]) -> Narrow:
    """What is asked of the proofs of each row."""
    return Narrow(Hint("", 0), hinting, words.minimal, words.needed)


def cores(words: argparse.Namespace, stop: Stop) -> int:
    """Finds what the proofs of a folder need."""
    hinting = tracing(words, tell)
    if not words.bundle.is_dir():
        raise FileNotFoundError(f"there is no folder of results {words.bundle}")
    session = session_of(words.bundle, programs_of(words), stop)
    with contextlib.closing(session):
        session.open(words.jobs)
        for wrong in session.rejected:
            tell(f"a row is not what it says: {wrong}")
        if session.older:
            tell(f"{session.older} rows have proofs of an older aig: run again")
        renew = _renewing(session)
        progress = Progress(session.rows, set(), False, words.quiet, lambda: renew(True))
        progress.begin([])
        is_stopped = not session.narrow(_narrow(words, hinting), Work(None, words.jobs, progress))
        progress.end()
        renew(is_stopped)
        return _results(words, session, not is_stopped, (), None)


def _simulate(words: argparse.Namespace, session: Session, seconds: float) -> None:
    """Has a simulator play the runs, and compare the circuit, if there are sources and a simulator."""
    if session.design.sources and missing(words.simulator):
        session.simulated = Simulated(why=missing(words.simulator))
    elif session.design.sources:
        session.write(True)
        rows = [row for row in session.rows if session.only is None or row.position in session.only]
        try:
            bundle = Bundle(session.folder.path)
            bounds = PlayBounds(seconds, words.jobs)
            session.simulated = simulated(bundle, rows, words.simulator, bounds, session.stop)
        except (ToolFailed, Crashed) as error:
            session.simulated = Simulated(circuit=f"{NOT_SIMULATED}: {error}", why=str(error))
        session.write(True)


def _say_notes(table: Table, said: Collection[str]) -> None:
    """Says the notes on open rows, but for what was said."""
    notes = [note for note in open_notes(table) if not note.endswith((STOPPED, *said))]
    for note in notes[:MOST_NOTES]:
        tell(note)
    if len(notes) > MOST_NOTES:
        tell(f"the page has {len(notes) - MOST_NOTES} more notes on rows that are open")


def _results(words: argparse.Namespace, session: Session, is_complete: bool, said: Collection[str],
             since: Optional[Since]) -> int:
    """Prints and writes what was found, and returns the exit status. What was said is not said again."""
    if not is_complete:  # what was done is written, whatever else the user presses
        for number in SIGNALS:
            signal.signal(number, signal.SIG_IGN)
    table = session.table.only(session.only)
    changed = since.difference(table, session.only) if since and (since.is_asked or is_complete) else None
    is_asked = since is not None and since.is_asked
    if words.junit:
        seconds = session.seconds
        cases = changed.junit(seconds) if changed and is_asked else table.junit(session.design.name, seconds)
        write_whole(words.junit, cases.encode("utf-8", "replace"))
    if words.zip:
        pack(session.folder.path, words.zip)
    if words.json:
        sys.stdout.write(as_json(table.json(session.manifest())).decode())
    else:
        sys.stdout.write(table.text() + (f"\n{changed.text()}" if changed and is_asked else ""))
    sys.stdout.flush()
    if not words.quiet:
        following = next_command(table, session.folder.path)
        if following:
            tell(following)
        _say_notes(table, said)
        say_of_assumptions(session.rows[0], session.design.circuit, session.folder.read)
        say_of_needs(table, session.design.circuit)
        if session.simulated.circuit and not session.simulated.agrees:
            tell(session.simulated.circuit)
        if not is_complete:
            tell(f"{TOTAL if session.stop.is_late else 'stopped'}; the same command goes on")
        page = plain(str(session.folder.path / PAGE))
        said_last = table.line_of_run(bool(session.design.sources), session.simulated)
        print(f"{plain(said_last)}: {page}", file=sys.stderr)
        if since and changed:
            print(plain(since.last_line(changed)), file=sys.stderr)
    if is_complete:
        session.folder.forget_before()
    status: int = changed.status if changed and is_asked else table.status
    return status if is_complete or session.stop.is_late else INTERRUPTED


def demo(_: argparse.Namespace, stop: Stop) -> int:
    """Runs a design that it writes into the current folder."""
    path = written(Path())
    tell(f"{path} is the design; this is `aig-verdicts run {path}`")
    return run(parser().parse_args(["run", str(path)]), stop)
