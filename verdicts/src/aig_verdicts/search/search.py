"""How a verdict is found: what an earlier version had, one frame, then what ABC knows at once, then runs and inductions
of growing length, then ABC with its whole limit. A formula has only what the property and the constraints read. Each
answer is a claim that `aig` confirmed about the circuit, and its proofs are those of the search."""

from __future__ import annotations

import re
from pathlib import Path
from typing import Dict, List, NamedTuple, Optional, Union

from . import abc
from ..audit.checked import ALIVE, Wrong
from aig.waves.concrete import filled, has_free
from .task import BMC, INDUCTION, PDR, Found, Task
from ..audit.hints import claim_of
from .questions import NO_TIME, Answer, Confirmed, Questions, why
from .reuse import reused
from ..audit.row import MOST_FRAMES, has_constraints
from aig.tools import Stop, Stopped, ToolFailed, soon

# The seconds of ABC's first try.
SHORT = 5.0
# How long the check of a bound may take after a search has ended early.
LAST_SECONDS = 5.0
# The ends of notes about an answer of ABC that is none about the circuit: the circuit that ABC had was another one.
WRONG_RUN, WRONG_CERTIFICATE = "no run of the circuit", "a certificate that is wrong"
# It changes with what the search finds. A folder whose search had another number is searched again.
NUMBER = 2


def growing(frames: int) -> List[int]:
    """The numbers of frames to try: each that is small, then each half as large again."""
    tried = list(range(1, min(frames, 3) + 1))
    while tried[-1] < frames:
        tried.append(min(frames, max(tried[-1] + 1, tried[-1] * 3 // 2)))
    return tried


class Asserted(NamedTuple):
    """ABC's answer that there is a run, as a witness of so many frames."""

    frames: int
    witness: bytes


class Proved(NamedTuple):
    """ABC's answer that there is none: the invariant of a circuit, which has the one property."""

    one: bytes
    invariant: bytes


class Unknown(NamedTuple):
    """ABC's answer that it does not know; whether more time may help."""

    more_time: bool


class Search:
    """The search for one task. It writes into `found`."""

    def __init__(self, task: Task, circuit: bytes, folder: Path, stop: Stop, found: Found):
        self.task, self.found, self.engines = task, found, {*task.programs.engines}
        self.ask = Questions(circuit, task, folder, stop, found.notes)
        self.known = 0  # there is no run of so many frames
        self.base = b""  # the proof of that
        self.gave_up = False  # the solver had no answer

    @property
    def of_property(self) -> str:
        return f"--property={self.task.position}"

    def bounded(self, frames: int) -> List[str]:
        return [f"--frames={frames}", self.of_property]

    def answer(self, confirmed: Confirmed) -> bool:
        found, checked = self.found, confirmed.checked
        found.verdict, found.by, found.frames = checked.line, checked.by, checked.frames
        found.files, found.checked = confirmed.files, checked
        return True

    def confirm(self, by: str, frames: int, **files: bytes) -> bool:
        """An answer that `aig` confirms: these files show it."""
        return self.answer(self.ask.confirm(claim_of(self.task.position, by, frames, files), files))

    def search(self) -> None:
        if reused(self, self.task.hint):
            return
        if self.task.position < 0:
            self.alive()
            return
        first, *others = growing(self.task.bounds.frames)
        if self.by_frames([first]):
            return
        known_to_abc = self.by_abc(SHORT if self.engines != {PDR} else None)
        if known_to_abc or self.by_frames(others) or known_to_abc is None and self.by_abc(None):
            return
        self.bound()

    # -- ways to an answer; each says whether it found one

    def alive(self) -> None:
        """Whether some run keeps all constraints for so many frames."""
        frames = self.task.bounds.frames
        if not has_constraints(self.ask.aig("info", files=[self.ask.circuit])):
            self.found.verdict, self.found.frames = ALIVE, frames
            return
        options = ["--alive", f"--frames={frames}"]
        said = self.ask.solve("constraints", *options)
        if said.proof is not None:
            self.confirm("alive", frames, alive=said.proof)
        elif said.model is not None:
            witness = self.ask.aig("witness", *options, files=[self.ask.circuit], named={"--model": said.model})
            self.confirm("kept", frames, witness=witness)

    def by_frames(self, numbers: List[int]) -> bool:
        """Runs and inductions of these numbers of frames, until the solver has no answer."""
        for frames in numbers if self.engines & {BMC, INDUCTION} else ():
            if self.gave_up:
                return False
            if frames > self.known:
                said = self.reach(frames)
                if said.model is not None:
                    return self.run_of(self.witness(frames, said.model))
                self.gave_up = said.proof is None
                if self.gave_up:
                    return False
            if INDUCTION not in self.engines:
                continue
            said = self.ask.solve(f"induction of {frames}", "--step", *self.bounded(frames))
            if said.proof is not None:
                return self.induction(frames, said.proof)
            self.gave_up = said.model is None
        return False

    def reach(self, frames: int) -> Answer:
        """The solver's answer whether there is a run of so many frames, which is more than is known."""
        said = self.ask.solve(f"run of {frames}", *self.bounded(frames))
        if said.proof is not None:
            self.known, self.base = frames, said.proof
        return said

    def take_base(self, frames: int, proof: bytes) -> None:
        """Takes a proof of an earlier version that there is no run of so many frames. An error says why it is none."""
        files = {"base": proof}
        self.ask.plain(claim_of(self.task.position, "bound", frames, files), files)
        if frames > self.known:
            self.known, self.base = frames, proof

    def run_of(self, witness: bytes) -> bool:
        """The shortest run that the solver finds, with a proof that there is no shorter one. It begins with a run that
        is known: that is an answer at any time."""
        if not self.confirmed(witness):
            return False
        found = self.shortest(witness)
        reduced = self.ask.aig("reduce", files=[self.ask.circuit, found])
        concrete = {"concrete": filled(found)} if has_free(reduced) else {}
        return self.confirmed(reduced, **concrete, **self.no_run_of(_length(reduced) - 1))

    def confirmed(self, witness: bytes, **more: bytes) -> bool:
        """Whether this is a run to the property. With it come a value for each x, if some of it is x, and a proof that
        none is shorter, if there is one."""
        try:
            return self.confirm("run", _length(witness), witness=witness, **more)
        except Wrong:
            return False

    def witness(self, frames: int, model: bytes) -> bytes:
        return self.ask.aig("witness", *self.bounded(frames), files=[self.ask.circuit], named={"--model": model})

    def shortest(self, witness: bytes) -> bytes:
        """The shortest run that the solver finds. Most often it is the one that is known, so one frame less comes
        first; then halves."""
        tried = _length(witness) - 1
        while self.known < _length(witness) - 1:
            said = self.reach(tried)
            if said.model is not None:
                witness = self.witness(tried, said.model)
            elif said.proof is None:
                break
            tried = max(self.known + 1, (self.known + _length(witness)) // 2)
        return witness

    def no_run_of(self, frames: int) -> Dict[str, bytes]:
        """The proof that no run of so many frames is there, if the search had it."""
        return {"shorter": self.base} if frames and self.known == frames else {}

    def induction(self, frames: int, step: bytes) -> bool:
        base: Optional[bytes] = self.base
        if frames < self.known:
            base = self.ask.solve(f"run of {frames}", *self.bounded(frames)).proof
        if base is None:
            return False
        return self.confirm("induction", frames, base=base, step=step)

    def bound(self) -> bool:
        """That no run of so many frames is there."""
        if not self.known:
            return False
        return self.confirm("bound", self.known, base=self.base)

    def keep(self) -> None:
        """What is known where the search ended early: the run, or the bound. The check of a bound ends soon."""
        if self.found.by == "run" and self.found.frames > 1 and "shorter" not in self.found.files:
            self.ask.note("a shorter run was not ruled out")
        if self.known and not self.found.by:
            with soon(LAST_SECONDS) as stop:
                self.ask.stop = stop
                try:
                    files = {"base": self.base}
                    self.answer(self.ask.plain(claim_of(self.task.position, "bound", self.known, files), files))
                except Stopped:
                    self.ask.note(f"bound of {self.known}: {NO_TIME}")

    # -- ABC

    def by_abc(self, seconds: Optional[float]) -> Optional[bool]:
        """Whether ABC's answer leads to a verdict; None if it needs more time for one. Without seconds it has all."""
        program = self.task.programs.abc
        if program is None or PDR not in self.engines:
            return False
        said = self.pdr(program, seconds)
        if isinstance(said, Proved):
            return self.certificate(said)
        if isinstance(said, Asserted):
            return self.asserted(said)
        return None if said.more_time else False

    def pdr(self, program: str, seconds: Optional[float]) -> Union[Proved, Asserted, Unknown]:
        bounds = self.task.bounds
        whole_limit = self.ask.seconds_left()
        given = whole_limit if seconds is None else min(seconds, whole_limit)
        if given < 1:
            self.ask.note(f"invariant: {NO_TIME}")
            return Unknown(False)
        one = self.ask.aig("select", "--to", "aag", self.of_property, files=[self.ask.circuit])
        folded = self.ask.aig("toaig", "--to", "aig", files=[abc.folded(one)])
        conflicts = f"-C {bounds.conflicts} " if bounds.conflicts else ""
        script = f"read_aiger one.aig; pdr -T {int(given)} {conflicts}-d -I inv.pla; write_cex -n run"
        try:
            ran, [invariant, run] = self.ask.tool([program, "-q", script], given, {"one.aig": folded}, "inv.pla", "run")
        except ToolFailed as error:  # it is missing
            self.ask.note(f"invariant: {error}")
            return Unknown(False)
        asserted = re.search(rb"was asserted in frame (\d{1,5})\b", ran.out)
        if asserted and run is not None and int(asserted[1]) < MOST_FRAMES:
            frames = int(asserted[1]) + 1
            return Asserted(frames, abc.witness(one, self.task.position, frames, run))
        if b"Property proved" in ran.out and invariant is not None:
            return Proved(one, invariant)
        had_no_time = ran.status is None or ran.status == 0 and b"onflict" not in ran.out
        if seconds is not None and had_no_time and given < whole_limit:
            return Unknown(True)
        self.ask.note(f"invariant: {why(program, ran, round(given))}")
        return Unknown(False)

    def asserted(self, said: Asserted) -> bool:
        if self.run_of(said.witness):
            return True
        self.ask.note(f"ABC's run of {said.frames} frames is {WRONG_RUN}")
        return False

    def certificate(self, proved: Proved) -> bool:
        made = abc.certificate(*proved)
        named = {"--certificate": made}
        said = self.ask.checking("certificate", self.of_property, named=named)
        if said.proof is not None:
            return self.confirm("certificate", 0, certificate=made, proof=said.proof)
        if said.model is not None:
            self.ask.note(f"ABC's invariant made {WRONG_CERTIFICATE}")
        return False


def _length(witness: bytes) -> int:
    """The frames of a witness that `aig` wrote."""
    return witness.count(b"\n") - 4
