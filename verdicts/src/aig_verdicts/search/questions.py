"""Questions to a solver, to ABC and to `aig`, within the bounds of a task. Each has a folder of its own, so no file of
an earlier one is taken for an answer."""

from __future__ import annotations

import copy
import math
import tempfile
from pathlib import Path
from typing import Dict, List, Mapping, NamedTuple, Optional, Sequence, Tuple

from aig.errors import AigError
from . import solvers
from ..audit.checked import Checked, Claim, Rejected, check, parts_of
from .task import Task
from ..audit.hints import by_name, claim_of, has_hints
from aig.tools import Clock, Limits, Ran, Stop, ToolFailed, ask, run

# All questions of a property together get so many times the seconds of one.
SEARCH_FACTOR = 5
SATISFIABLE, UNSATISFIABLE = 10, 20
# The ends of notes about a bound that ended a question. All other notes are about something that went wrong.
NO_TIME, NO_ANSWER = "no time is left", "found no answer within its bounds"
FILE_TOO_LARGE = -25


class Answer(NamedTuple):
    """A model, or a proof that there is none, or neither; and the formula."""

    model: Optional[bytes] = None
    proof: Optional[bytes] = None
    formula: bytes = b""


class Confirmed(NamedTuple):
    """A claim that `aig` confirmed, and its files by their roles."""

    checked: Checked
    files: Dict[str, bytes]


class Questions:
    """All questions of one task about a circuit. Notes say what went wrong with one."""

    def __init__(self, circuit: bytes, task: Task, folder: Path, stop: Stop, notes: List[str]):
        self.circuit, self._bounds, self._programs = circuit, task.bounds, task.programs
        self._folder, self.stop, self._notes = folder, stop, notes
        self._clock = Clock()

    def note(self, text: str) -> None:
        if text not in self._notes:
            self._notes.append(text)

    def seconds_left(self) -> float:
        """How long a question of the search may take."""
        return min(self._bounds.seconds, SEARCH_FACTOR * self._bounds.seconds - self._clock())

    def aig(self, command: str, *options: str, files: Sequence[bytes], named: Mapping[str, bytes] = {},
            good: Sequence[int] = (0,)) -> bytes:
        return ask(self.stop, command, *options, files=files, named=named, good=good)

    def about(self, circuit: bytes) -> Questions:
        """Questions about another circuit, with the same bounds, time and notes."""
        other = copy.copy(self)
        other.circuit = circuit
        return other

    def cut(self, cuts: bytes) -> bytes:
        """The circuit without what a file cuts."""
        return self.aig("cut", "--to", "aag", files=[self.circuit], named={"--cuts": cuts})

    def confirm(self, claim: Claim, files: Dict[str, bytes]) -> Confirmed:
        """What `aig` confirms of a claim, whose files are there by their roles. Its proofs get hints if there is a
        program for that. An error says what `aig` rejects."""
        found = self.hinted(claim, files)
        return found if found is not None else self.plain(claim, files)

    def plain(self, claim: Claim, files: Dict[str, bytes]) -> Confirmed:
        """The same with the proofs as they are."""
        try:
            return Confirmed(check(claim, self.circuit, by_name(claim, files), self.stop), files)
        except Rejected as rejected:
            raise rejected.error from None

    def hinted(self, claim: Claim, files: Dict[str, bytes]) -> Optional[Confirmed]:
        """The same with hints, if some of the proofs get them and `aig` takes them."""
        program = self._programs.drat2lrat
        if program is None:
            return None
        made = {**files, **self._proofs_with_hints(program, claim, files)}
        if made == files:
            return None
        try:
            return self.plain(claim_of(claim.position, claim.by, claim.frames, made), made)
        except AigError as error:
            self.note(f"{Path(program).name} wrote hints that are wrong: {error.part}: {error.reason}")
            return None

    def _proofs_with_hints(self, program: str, claim: Claim, files: Mapping[str, bytes]) -> Dict[str, bytes]:
        """The proofs of a claim with hints, by their roles."""
        made, roles = {}, {name: role for role, name in claim.named}
        about = self.about(self.cut(files["cuts"])) if "cuts" in files else self
        for options, named, last in (parts_of(words) for _, words in claim.commands() if words[0] == "refute"):
            others = {option: files[roles[name]] for option, name in named.items() if option != "--step"}
            for name in (last, named.get("--step")):
                if name is not None:
                    role = roles[name]
                    more = ["--step"] * (role == "step")
                    made[role] = about._with_hints(program, files[role], [*more, *options], others)
        return made

    def _with_hints(self, program: str, proof: bytes, options: Sequence[str], named: Mapping[str, bytes]) -> bytes:
        if has_hints(proof):
            return proof
        return self.with_hints(program, self.aig("cnf", *options, files=[self.circuit], named=named), proof)

    def with_hints(self, program: str, formula: bytes, proof: bytes) -> bytes:
        """The proof of a formula with hints. If the program fails, it is the proof as it was, and a note says why."""
        words = [program, "--trim", "cnf", "drat", "lrat"]
        try:
            ran, [made] = self.tool(words, self._bounds.seconds, {"cnf": formula, "drat": proof}, "lrat")
        except (ToolFailed, OSError) as error:
            self.note(f"no hints: {error}")
            return proof
        if ran.status == 0 and made is not None and has_hints(made):
            return made
        said = why(program, ran, self._bounds.seconds) if ran.status != 0 else f"{Path(program).name} wrote none"
        self.note(f"no hints: {said}")
        return proof

    def solve(self, what: str, *options: str, named: Mapping[str, bytes] = {}, most_seconds: float = math.inf) -> Answer:
        """A question of the search."""
        return self._solve(what, options, named, min(most_seconds, self.seconds_left()))

    def checking(self, what: str, *options: str, named: Mapping[str, bytes] = {}) -> Answer:
        """A question that checks an answer of another program. It has a time of its own."""
        return self._solve(what, options, named, self._bounds.seconds)

    def _solve(self, what: str, options: Sequence[str], named: Mapping[str, bytes], seconds: float) -> Answer:
        if seconds <= 0:
            self.note(f"{what}: {NO_TIME}")
            return Answer()
        try:
            formula = self.aig("cnf", *options, files=[self.circuit], named=named)
        except AigError as error:
            self.note(f"{what}: {error.part}: {error.reason}")
            return Answer()
        solver = self._programs.solver
        try:
            words = [*solvers.words(solver, seconds, self._bounds.conflicts), "cnf", "proof"]
            ran, [proof] = self.tool(words, max(1.0, seconds), {"cnf": formula}, "proof")
        except ToolFailed as error:  # it is missing; what ABC finds without it is found
            self.note(str(error))
            return Answer()
        if ran.status == SATISFIABLE:
            return Answer(model=ran.out)
        if ran.status == UNSATISFIABLE and proof is not None:
            return Answer(proof=proof, formula=formula)
        self.note(f"{what}: {why(solver, ran, self._bounds.seconds)}")
        return Answer()

    def tool(self, words: Sequence[str], seconds: float, files: Dict[str, bytes],
             *made: str) -> Tuple[Ran, List[Optional[bytes]]]:
        """Runs a program beside these files. How it ended, and the files that it had to make, if it did."""
        with tempfile.TemporaryDirectory(dir=self._folder) as name:
            folder = Path(name)
            for file, data in files.items():
                (folder / file).write_bytes(data)
            bounds = self._bounds
            limits = Limits(seconds, megabytes=bounds.megabytes, file_megabytes=bounds.proof_megabytes)
            ran = run(words, folder, limits, self.stop)
            paths = [folder / name for name in made]
            return ran, [path.read_bytes() if path.is_file() else None for path in paths]


def why(program: str, ran: Ran, seconds: float) -> str:
    """Why a program has no answer."""
    name = Path(program).name
    if ran.status is None:
        return f"{name} did not end in {seconds:g} s"
    if ran.status == FILE_TOO_LARGE:
        return f"{name} was ended: its file is larger than --proof-megabytes"
    if ran.status < 0:
        return f"{name} was ended by signal {-ran.status}"
    if ran.status == 0 and not ran.err:
        return f"{name} {NO_ANSWER}"
    return f"{name} ended with status {ran.status} and said: {ran.said}"
