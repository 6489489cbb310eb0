"""The first step of a search: what an earlier version of the design was decided by. `aig` checks each of it on the new
circuit; where nothing of it fits, the search goes on as if it had not been there."""

from __future__ import annotations

from typing import TYPE_CHECKING, Callable, Dict, Optional

from aig.errors import AigError
from ..audit.checked import Wrong
from .task import Hint
from .questions import Answer
from ..audit.row import ORIGINS

if TYPE_CHECKING:
    from .search import Search

# The frames that a run may be longer than the old one: so many, and half of it.
MORE = 2
PROOF, RUN, CERTIFICATE, DEPTH, BOUND = ORIGINS


class Reuse:
    """What a hint is good for in a search. Each way says whether it led to a verdict."""

    def __init__(self, search: Search, hint: Hint):
        self._search, self._hint, self._ask = search, hint, search.ask

    def answer(self) -> bool:
        ways: Dict[str, Callable[[], bool]] = {
            "run": self._run, "induction": self._induction, "certificate": self._certificate, "bound": self._bound,
            "kept": self._kept, "alive": lambda: self._by_proof(PROOF)}
        try:
            return self._hint.by in ways and ways[self._hint.by]()
        except (AigError, Wrong, ValueError, IndexError):  # a file of it is none about this circuit
            return False

    def _from(self, origin: str, is_found: bool) -> bool:
        """The row says what its verdict came from."""
        if is_found:
            self._search.found.origin = origin
        return is_found

    def _by_proof(self, origin: str) -> bool:
        """All files as they are."""
        try:
            return self._from(origin, self._search.confirm(self._hint.by, self._hint.frames, **self._hint.files))
        except (AigError, Wrong):
            return False

    def _no_run_of(self, frames: int, role: str) -> bool:
        """Whether an old proof, or the solver, shows that there is no run of so many frames."""
        search, proof = self._search, self._hint.files.get(role, b"")
        if not 0 < frames <= search.task.bounds.frames:
            return False
        try:
            search.take_base(frames, proof)
        except (AigError, Wrong):
            return False
        return True

    def _run(self) -> bool:
        """The old run up to the first frame at which the property is 1, or a few frames more."""
        witness = self._reaching(self._hint.files["witness"])
        if witness is None:
            return False
        if "shorter" in self._hint.files:
            self._no_run_of(self._hint.frames - 1, "shorter")
        return self._from(RUN, self._search.run_of(witness))

    def _reaching(self, witness: bytes) -> Optional[bytes]:
        """The first frames of a run, up to the one that reaches the property while it keeps the constraints. Each x is
        a 0 here."""
        first, name, state, *frames = witness.replace(b"x", b"0").split(b"\n")[:-2]
        if not frames:
            return None
        frames += [b"0" * len(frames[0])] * (MORE + len(frames) // 2)
        head = [first, name, state]
        text = b"\n".join([*head, *frames, b".", b""])
        said = self._ask.aig("check", "--trace", "--properties", self._search.of_property,
                             files=[self._ask.circuit, text], good=(0, 1))
        for count, line in enumerate(said.decode("ascii", "replace").split("\n")[:-2], 1):
            bad, constraints = line.split(" ")[4:6]
            if set(constraints) - {"1"}:
                return None
            if bad[self._search.task.position] == "1":
                return b"\n".join([*head, *frames[:count], b".", b""])
        return None

    def _induction(self) -> bool:
        """The old proofs, or new ones at the old depth."""
        search, frames = self._search, self._hint.frames
        if self._by_proof(PROOF):
            return True
        if not self._no_run_of(frames, "base"):
            said = search.reach(frames) if frames <= search.task.bounds.frames else Answer()
            if said.model is not None:
                return search.run_of(search.witness(frames, said.model))
            if said.proof is None:
                return False
        step = self._ask.solve(f"induction of {frames}", "--step", *search.bounded(frames)).proof
        return step is not None and self._from(DEPTH, search.induction(frames, step))

    def _certificate(self) -> bool:
        """The old certificate in the words of the new circuit, with its old proof or a new one."""
        if self._by_proof(CERTIFICATE):
            return True
        certificate = self._hint.files["certificate"]
        said = self._ask.checking("certificate", self._search.of_property, named={"--certificate": certificate})
        return said.proof is not None and self._from(CERTIFICATE, self._search.confirm(
            "certificate", 0, certificate=certificate, proof=said.proof))

    def _bound(self) -> bool:
        """The old bound. The search goes on after it, unless it is enough."""
        search, frames = self._search, self._hint.frames
        is_known = self._no_run_of(frames, "base")
        if not is_known and self._hint.is_enough and frames <= search.task.bounds.frames:
            said = search.reach(frames)
            if said.model is not None:
                return search.run_of(search.witness(frames, said.model))
        return self._hint.is_enough and self._from(BOUND, search.bound())

    def _kept(self) -> bool:
        """The old run that keeps the assumptions, if it is long enough."""
        frames: int = self._search.task.bounds.frames
        return self._from(RUN, self._search.confirm("kept", frames, witness=self._hint.files["witness"]))


def reused(search: Search, hint: Optional[Hint]) -> bool:
    """Whether what is known of an earlier version led to a verdict."""
    return hint is not None and Reuse(search, hint).answer()
