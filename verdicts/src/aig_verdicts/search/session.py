"""Finds the verdicts of a design: in parallel, stoppable at any time. What is known from an earlier run is checked
again, and not searched again."""

from __future__ import annotations

import json
import os
import sys
import tempfile
from concurrent.futures import Future, ThreadPoolExecutor, wait
from contextlib import nullcontext
from dataclasses import asdict, dataclass, field, replace
from pathlib import Path
from queue import SimpleQueue
from typing import Any, Callable, Collection, Dict, List, Mapping, Optional, Sequence, Tuple, Union

from aig.program import OftenRead, program
from ..audit.bundle import MOST_BYTES, Bundle
from ..audit.checked import ALIVE, CIRCUIT, CONSTRAINTS, WAYS, Checked, Claim, Rejected, Wrong, sum_of
from .task import ENGINES, Bounds, Found, Hint, Narrow, Programs, Task
from ..reading.design import Design
from ..audit.decisions import LEAST_KEPT, Asked
from ..audit.folder import TIMES, Folder
from ..audit.hints import by_name
from ..audit import needed
from ..audit.manifest import FORMULAS, SCRIPT_OF_YOSYS, format_of, is_of_older_formulas, rows_as_json
from ..audit.pieces import needs_of
from .questions import NO_ANSWER, NO_TIME, Questions
from ..audit.recheck import check_claim, meant
from ..audit.simulated import Simulated
from ..audit.row import ENDINGS, Row
from .search import LAST_SECONDS, NUMBER
from ..audit.table import Table
from aig.tools import GRACE, Clock, Stop, Stopped, soon, version
from ..audit.unread import of_circuit
from .workers import NO_WORKER, Work, Workers, check_all, result_of, taken

# The manifest is written while rows come in, as long as that takes less than this part of the time.
WRITING = 0.05
# The note on a row whose search the user ended.
STOPPED = "stopped"
# The proofs of so many rows are read at once, where what they need is searched.
MOST_PROOFS = 64
# No search takes longer than this.
MOST_SECONDS = 10.0**9


@dataclass(frozen=True)
class Plan:
    """What a session searches, and how.

    bounds    of the search for a row
    programs  that it may run
    only      the positions of the rows that are searched; None for all
    depths    the frames of some rows, by position, which have bounds of their own
    """

    bounds: Bounds = Bounds()
    programs: Programs = Programs()
    only: Optional[Collection[int]] = None
    depths: Mapping[int, int] = field(default_factory=dict)


class Session:
    """The verdicts of a design, in a folder that is always a bundle."""

    def __init__(self, design: Design, path: Path, plan: Plan = Plan(), stop: Optional[Stop] = None):
        self.design = replace(design, circuit=OftenRead.of(design.circuit))
        self.bounds, self.programs, self.only, self.depths = plan.bounds, plan.programs, plan.only, plan.depths
        self.stop = stop or Stop()
        self.rows = [Row(CONSTRAINTS, "constraints", "")]
        self.rows += [Row(it.position, it.kind, it.name, it.file, it.first, it.last, it.of,
                          self.only is not None and it.position not in self.only) for it in design.assertions]
        self.seconds: Dict[int, float] = {}
        self.hints: Dict[int, Hint] = {}  # what is known of an earlier version, by position
        self.rejected: List[str] = []
        self.older = 0  # earlier rows whose proofs are about formulas of an older `aig`
        self.versions = self._versions()
        self.folder = Folder(path, max(MOST_BYTES, self.bounds.proof_megabytes << 20 or sys.maxsize))
        self.simulated = Simulated()
        self._sum = sum_of(self.design.circuit)
        self._goes_further = True  # than an earlier run
        self._is_after_older = False  # an earlier run with formulas of an older `aig`
        self._was_stopped = False  # some search
        self._written = Clock()
        self._cost = 0.0

    def close(self) -> None:
        self.folder.close()

    def _versions(self) -> Dict[str, str]:
        named = {"aig": program(), "solver": self.programs.solver}
        if self.programs.abc:
            named["abc"] = self.programs.abc
        if self.programs.drat2lrat:
            named["drat2lrat"] = self.programs.drat2lrat
        if self.design.script:
            named["yosys"] = "yosys"
        versions = {key: version(name, self.stop) for key, name in named.items()}
        alone = f", {' and '.join(self.programs.engines)} alone" if self.programs.engines != ENGINES else ""
        return {**versions, "search": f"aig-verdicts: search {NUMBER}{alone}", "formulas": FORMULAS}

    # -- the folder

    def open(self, jobs: int = 0) -> None:
        """Writes the circuit and the sources. Earlier rows about the same circuit stay if `aig` confirms them."""
        self._take_over(self._earlier(), jobs)
        if not self.folder.has(CIRCUIT, self.design.circuit):
            self.folder.set_aside()
            self.folder.remove("MANIFEST.json")  # it would be about another circuit
        self.folder.put(CIRCUIT, self.design.circuit)
        if self.design.script:
            self.folder.put(SCRIPT_OF_YOSYS, self.design.script.encode())
        for name, text in self.design.sources.items():
            self.folder.put(f"sources/{name}", text)
        for name, text in self.design.translated.items():
            self.folder.put(f"translated/{name}", text)
        self.write(True)
        self.folder.clean()

    def _earlier(self) -> Dict[int, Row]:
        """The rows of an earlier run on the same circuit."""
        try:
            old = Bundle(self.folder.path)
        except Wrong:
            return {}
        if old.sums[CIRCUIT] != self._sum:
            return {}
        self._goes_further = not self._searched_so_far(old.manifest)
        self._is_after_older = is_of_older_formulas(old.manifest)
        self.seconds = self._earlier_seconds()
        return {row.position: row for row in old.rows}

    def goes_further_than(self, manifest: Dict[str, Any]) -> bool:
        """Whether this search may find more than that of another bundle."""
        return not self._searched_so_far(manifest) or self.bounds.frames > Bounds(**manifest["bounds"]).frames

    def _searched_so_far(self, manifest: Dict[str, Any]) -> bool:
        """Whether the earlier run had the same search and programs, and bounds that are no smaller. Hints find no
        verdict."""
        def searching(versions: Dict[str, str]) -> Dict[str, str]:
            return {key: value for key, value in versions.items() if key != "drat2lrat"}

        try:
            is_same = searching(manifest["versions"]) == searching(self.versions)
            return is_same and self.bounds.within(Bounds(**manifest["bounds"]))
        except TypeError:  # other bounds
            return False

    def _earlier_seconds(self) -> Dict[int, float]:
        try:
            times = json.loads(self.folder.read(TIMES), parse_int=float)
            found = {row.position: times.get(str(row.position)) for row in self.rows}
        except (Wrong, OSError, ValueError, AttributeError, RecursionError, MemoryError):
            return {}
        return {key: value for key, value in found.items() if type(value) is float and 0 <= value < MOST_SECONDS}

    def _take_over(self, earlier: Dict[int, Row], jobs: int) -> None:
        kept = [(row, earlier[row.position]) for row in self.rows if row.position in earlier]
        kept = [(row, old) for row, old in kept if (old.kind, old.name) == (row.kind, row.name)]
        claims = [(row, old.claim, old.notes) for row, old in kept if old.claim is not None and old.claim.by]
        before = {old.position: old for _, old in kept}
        with ThreadPoolExecutor(jobs or os.cpu_count() or 1) as pool:
            for (row, _, notes), said in zip(claims, pool.map(self._again, claims)):
                if isinstance(said, str):
                    self.rejected += [said] * bool(said)
                    self.older += not said
                    continue
                old = before[row.position]
                self._give(row, said)
                row.notes, row.origin = notes, old.origin
                runs = [needed.earlier(claim, self.folder.read) for claim in old.needed]
                check_all(runs, self.design.circuit, self.stop, "an earlier run")
                try:
                    self.folder.take(needed.give(row, runs, self.design.circuit))
                except Wrong as error:
                    self.rejected.append(str(error))
        self.stop.look()

    def _again(self, earlier: Tuple[Row, Claim, List[str]]) -> Union[Checked, str]:
        """The check of what an earlier run claims, or what is wrong with it: an empty text, if a proof is about a formula of
        an older `aig`. The files of a right claim get their sums, and its proofs get hints where these are asked for."""
        _, claim, notes = earlier
        try:
            files = {role: self.folder.read(claim.files[role]) for role in ENDINGS if role in claim.files}
            claim = replace(claim, named=tuple((role, claim.files[role]) for role in files))
            checked = check_claim(claim, self.design.circuit, by_name(claim, files), self.stop)
            checked = self._with_hints(checked, files, notes)
        except Rejected as error:
            return "" if meant(error, claim.label, self._is_after_older) is not error else str(error)
        except (Wrong, OSError, MemoryError) as error:
            return str(error)
        except Stopped:
            return "stopped"
        self.folder.sums.update({checked.claim.files[role]: sum for role, sum in checked.sums.items()})
        return checked

    def _with_hints(self, checked: Checked, files: Dict[str, bytes], notes: List[str]) -> Checked:
        """The check of the same with hints in its proofs, if a program for that was named."""
        with tempfile.TemporaryDirectory(prefix="aig-verdicts-") as folder:
            task = Task(None, checked.claim.position, self.bounds, self.programs)
            ask = Questions(self.design.circuit, task, Path(folder), self.stop, notes)
            hinted = ask.hinted(checked.claim, files)
        if hinted is None:
            return checked
        for role, name in hinted.checked.claim.named:
            if name != checked.claim.files[role]:
                self.folder.put(name, hinted.files[role])
        return hinted.checked

    def manifest(self) -> Dict[str, Any]:
        unread = [it.facts() for it in [*of_circuit(self.design.circuit), *self.design.unread]]
        parts = {"translated": list(self.design.translated), "unread": unread}
        return {
            **{name: value for name, value in parts.items() if value},
            "format": format_of(self.rows), "name": self.design.name, "notes": self.design.notes,
            "bounds": asdict(self.bounds), "options": self.design.options,
            "sources": list(self.design.sources), "rows": rows_as_json(self.rows),
            "versions": self.versions, "sums": self.folder.sums,
            "timing": self.design.timing.facts() if self.design.timing else {}, "simulated": self.simulated.facts(),
        }

    def write(self, now: bool = False) -> None:
        """The manifest, as often as it costs little."""
        if not now and self._written() * WRITING < self._cost:
            return
        clock = Clock()
        self.folder.write(self.manifest())
        if now:
            self.folder.write_last(self.rows, self.seconds)
        self._cost, self._written = clock(), Clock()

    # -- the search

    def take(self, found: Found) -> None:
        """Writes what a search found."""
        row = self.rows[found.position + 1]
        self.seconds[row.position] = round(found.seconds, 1)
        if found.stopped:
            self._was_stopped = True
            found.notes += [STOPPED] * (found.by != "run")
        checked = found.check_about(self._sum)
        by, frames = (checked.by, checked.frames) if checked is not None else ("", 0)
        if row.by in ("bound", "kept") and by in ("", row.by) and frames <= row.frames:
            row.notes = found.notes  # an earlier search knows more
            return
        self._forget(row)
        if checked is not None:
            for role, name in checked.claim.named:
                self.folder.put(name, found.files[role])
            self._give(row, checked)
        elif row.position == CONSTRAINTS and found.verdict == ALIVE:
            row.claim = Claim(row.position, "", found.frames)
        row.notes, row.origin = found.notes, found.origin
        self.write()

    def _give(self, row: Row, checked: Checked) -> None:
        row.take(checked, self._sum, needs_of(self.design.circuit, checked.cuts))

    def take_core(self, found: Found) -> None:
        """Writes what a proof needs, and the proof of that in place of the one of the whole circuit."""
        row = next(row for row in self.rows if row.position == found.position)
        self._was_stopped |= found.stopped
        checked, notes = found.check_about(self._sum), list(dict.fromkeys([*row.notes, *found.notes]))
        if checked is None:
            row.notes = notes
            return
        origin, before = row.origin, row.names
        runs = found.needed or [needed.earlier(it.claim, self.folder.read, it) for it in row.runs]
        self._forget(row)
        for role, name in checked.claim.named:
            self.folder.put(name, found.files[role])
        self._give(row, checked)
        row.notes, row.origin = notes, origin
        self.folder.take(needed.give(row, runs, self.design.circuit))
        self.write()
        for name in before - row.names:
            self.folder.remove(name)

    def _forget(self, row: Row) -> None:
        """Lets go of what an earlier search found, before its files change."""
        names = row.names
        row.forget()
        if names:
            for name in names:
                self.folder.sums.pop(name)
            self.write(True)

    def waiting(self) -> List[Row]:
        """The rows that a search may improve."""
        return [row for row in self.rows if not self._stays(row)]

    def _stays(self, row: Row) -> bool:
        if row.decided:
            return True
        if row.position == CONSTRAINTS:
            return row.by == "kept" and row.frames >= self._frames(row)
        if self.only is not None and row.position not in self.only:
            return True
        if row.by != "bound" or row.frames < self._frames(row) or self._goes_further:
            return False
        return all(note.endswith((NO_TIME, NO_ANSWER)) for note in row.notes)

    def search(self, work: Work = Work()) -> bool:
        """Finds what is not known yet. It is false if the user stopped it; what was found until then is kept."""
        return self._work([(row, self._task(row)) for row in self.waiting()], self.take, work)

    @property
    def table(self) -> Table:
        """What all rows mean."""
        asked = Asked(self.bounds.frames, self.design.options.get("conditions") is not False)
        return Table.of(self.rows, self.design.circuit, asked, self.design.unread, self.simulated)

    def _frames(self, row: Row) -> int:
        """How far the search for a row goes. Assumptions have to be kept as long as the longest search goes."""
        if row.position == CONSTRAINTS:
            return max([LEAST_KEPT, self.bounds.frames, *self.depths.values()])
        return self.depths.get(row.position, self.bounds.frames)

    def _task(self, row: Row) -> Task:
        hint = self.hints.get(row.position)
        if hint is not None and row.position in self.depths:
            hint = replace(hint, is_enough=False)  # an old bound is none of this depth
        return Task(None, row.position, replace(self.bounds, frames=self._frames(row)), self.programs, hint)

    def narrow(self, how: Narrow, work: Work) -> bool:
        """Finds what the proofs of each row without a run need. Whether all of that was done."""
        rows = [row for row in self.rows if self._is_narrowed(row, how.is_minimal or how.is_needed)]
        for at in range(0, len(rows), MOST_PROOFS):
            tasks = [(row, Task(None, row.position, self.bounds, self.programs, None,
                                replace(how, known=self._known(row))))
                     for row in rows[at : at + MOST_PROOFS]]
            if not self._work(tasks, self.take_core, work):
                return False
        return True

    def _is_narrowed(self, row: Row, goes_on: bool) -> bool:
        """Whether a row has proofs that may need less, or of which more is asked."""
        is_asked = self.only is None or row.position in self.only or row.position == CONSTRAINTS
        return is_asked and "cuts" in WAYS[row.by].possible and (row.needs is None or goes_on)

    def _known(self, row: Row) -> Hint:
        return Hint(row.by, row.frames, {role: self.folder.read(name) for role, name in row.files.items()})

    def _work(self, tasks: Sequence[Tuple[Row, Task]], take: Callable[[Found], None], work: Work) -> bool:
        """Has workers do these tasks, and takes what they find."""
        path = self.folder.path / CIRCUIT
        left: Dict[Future[Found], Row] = {}
        try:
            with Workers(self.design.circuit, path, self.stop, work) as workers:
                try:
                    for row, task in tasks:
                        left[workers.submit(task)] = row
                    return self._collect(left, take, work, workers)
                finally:
                    if left:
                        self.stop()
                    for future in left:
                        future.cancel()
        finally:
            self.write(True)

    def _collect(self, left: Dict[Future[Found], Row], take: Callable[[Found], None], work: Work, workers: Workers
                 ) -> bool:
        """Takes what the workers find, until all is found, all workers are gone or the user stops it: then workers that
        know of the stop get some seconds to say what they know. Whether all was searched."""
        count, stopped, progress = len(left), False, work.progress
        last_seconds = LAST_SECONDS + GRACE if work.executor is None else 0.0
        ended: SimpleQueue[Future[Found]] = SimpleQueue()
        for future in left:
            future.add_done_callback(ended.put)
        progress(0, count, None)
        while left and not stopped:
            stopped = self.stop.stopped
            if stopped:
                ready = [*wait([future for future in left if not future.cancel()], timeout=last_seconds).done]
            else:
                ready = taken(ended)
                for future, more in [(it, workers.again(it)) for it in ready]:
                    if more is not None:
                        ready.remove(future)
                        left[more] = left.pop(future)
                        more.add_done_callback(ended.put)
            found = [result_of(future, left[future]) for future in ready]
            with soon(LAST_SECONDS) if self.stop.stopped else nullcontext(self.stop) as stop:
                check_all([*found, *(run for it in found for run in it.needed)], self.design.circuit, stop)
            for future, it in zip(ready, found):
                row = left.pop(future)
                take(it)
                progress(count - len(left), count, row)
            if not ready:
                progress(count - len(left), count, None)
                if not stopped and work.are_lost():
                    for future in [*left]:
                        future.cancel()
                        take(Found(left.pop(future).position, notes=[NO_WORKER]))
        for row in left.values():
            row.notes = [*row.notes, STOPPED]
        return not left and not self._was_stopped
