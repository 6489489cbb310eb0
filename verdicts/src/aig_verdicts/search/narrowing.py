"""What the proof of a row needs of the circuit: a core. All else is cut at once, and the row is proved again. Nothing that
finds a core is trusted: `aig refute` checks each one, on the circuit that `aig cut` makes."""

from __future__ import annotations

from functools import lru_cache
from pathlib import Path
from typing import Dict, FrozenSet, List, Mapping, NamedTuple, Optional, Set, Tuple

from aig.parts import parts_of
from aig.program import run as aig
from aig.errors import AigError
from ..audit import needed
from ..audit.checked import Wrong
from .decide import decide
from .task import Bounds, Found, Hint, Narrow, Task
from ..audit.hints import claim_of, has_hints
from ..audit.needed import Run
from .part import part_of
from ..audit.pieces import ASSUMED, NEXT, RESET, Cut, Piece, pieces_of, read_cuts
from .questions import NO_TIME, Questions
from aig.tools import Stop, Stopped, soon
from .tried_runs import reached_by
from .unrolled import Layout, Left, layout_of
from .used import Question, used

# So often a core is proved again of what its proof used. Most proofs use all of their core after one round.
MOST_ROUNDS = 5
# Without hints so many smaller circuits are tried.
MOST_TRIES = 48
# Where a piece is tried, runs of so many frames are looked for first; the whole search then gets so many seconds for a
# question.
SHORT_RUNS = (1, 2, 3, 5, 8)
TRY_SECONDS = 5.0
# How long the check of a core may take after a search has ended early.
LAST_SECONDS = 5.0
NO_CORE = "no proof of a smaller circuit"


@lru_cache(maxsize=4)
def plain_of(circuit: bytes) -> bytes:
    """A circuit in the format aag."""
    return aig("toaig", "--to", "aag", files=[circuit])


class Proof(NamedTuple):
    """A proof of a row: a key of WAYS, frames, its files by their roles, and the formulas of those that are known."""

    by: str
    frames: int
    files: Dict[str, bytes]
    formulas: Mapping[str, bytes] = {}


class Core(NamedTuple):
    """The pieces that are kept, and a proof without the others."""

    kept: FrozenSet[Piece]
    proof: Proof


class Asked(NamedTuple):
    """The formula of a proof: its role, the options of `aig cnf`, and the files that these name."""

    role: str
    options: List[str]
    named: Dict[str, bytes]


class Narrowing:
    """The search for what a proof needs. It writes into `found`."""

    def __init__(self, task: Task, circuit: bytes, folder: Path, stop: Stop, found: Found):
        self.task, self.found = task, found
        self.narrow: Narrow = task.narrow or Narrow(Hint("", 0))
        self.ask = Questions(circuit, task, folder, stop, found.notes)
        self.pieces = pieces_of(circuit)
        self.core: Optional[Core] = None  # the smallest one so far
        self.runs: Dict[Piece, Tuple[int, bytes]] = {}  # frames and witnesses where a piece is cut alone
        self._has_tried_assumptions = False
        self._last: Optional[Tuple[FrozenSet[Piece], Questions]] = None

    def search(self) -> None:
        known = self.narrow.known
        files = {role: data for role, data in known.files.items() if role != "cuts"}
        cuts = read_cuts(known.files.get("cuts", b""))
        if not self.without_registers():
            first = Core(self.pieces.kept(cuts), Proof(known.by, known.frames, files))
            self.core = first if cuts else None
            self.narrowed(first)
        if self.core is None:
            self.ask.note(NO_CORE)
            return
        if self.narrow.is_needed:
            self.look_for_runs(self.core)
        if self.narrow.is_minimal:
            self.minimise(self.core)

    def keep(self) -> None:
        """Has `aig` check the smallest core, also where the search ended early."""
        if self.core is None:
            return
        kept, proof = self.core
        files = {**proof.files, "cuts": self.pieces.without(kept)}
        with soon(LAST_SECONDS) as last:
            self.ask.stop = last if self.ask.stop.stopped else self.ask.stop
            try:
                confirmed = self.ask.confirm(claim_of(self.task.position, proof.by, proof.frames, files), files)
            except Stopped:
                self.ask.note(f"core: {NO_TIME}")
                return
            found, checked = self.found, confirmed.checked
            found.verdict, found.by, found.frames = checked.line, checked.by, checked.frames
            found.files, found.checked = confirmed.files, checked
            self._keep_runs()

    def _keep_runs(self) -> None:
        """Has `aig` check the runs without a piece."""
        for piece, (frames, witness) in sorted(self.runs.items()):
            files = {"cuts": self.pieces.alone(piece), "witness": witness}
            run = Run(needed.claim_of(self.task.position, len(self.found.needed), frames), files)
            try:
                run.checked = self.ask.plain(run.claim, files).checked
            except (AigError, Wrong) as error:
                self.ask.note(f"run without a piece: {error}")
            except Stopped:
                self.ask.note(f"run without a piece: {NO_TIME}")
                return
            else:
                self.found.needed.append(run)

    # -- proofs of cut circuits

    def about(self, kept: FrozenSet[Piece]) -> Questions:
        """Questions about the circuit without all other pieces."""
        if self._last is None or self._last[0] != kept:
            cuts = self.pieces.without(kept)
            self._last = (kept, self.ask.about(self.ask.cut(cuts)) if cuts else self.ask)
        return self._last[1]

    def asked(self, proof: Proof) -> List[Asked]:
        """The formulas that a proof of this kind has to refute."""
        of_property, frames = f"--property={self.task.position}", f"--frames={proof.frames}"
        if proof.by == "certificate":
            return [Asked("proof", [of_property], {"--certificate": proof.files["certificate"]})]
        if proof.by == "alive":
            return [Asked("alive", ["--alive", frames], {})]
        return [Asked("base", [frames, of_property], {}), Asked("step", ["--step", frames, of_property], {})]

    def again(self, old: Proof, kept: FrozenSet[Piece]) -> Optional[Proof]:
        """A proof of the same kind without all other pieces; none if the solver has none."""
        ask = self.about(kept)
        files = {role: data for role, data in old.files.items() if role == "certificate"}
        formulas = {}
        for role, options, named in self.asked(old):
            said = ask.solve(f"core by {old.by}", *options, named=named)
            if said.proof is None:
                return None
            files[role], formulas[role] = said.proof, said.formula
        return Proof(old.by, old.frames, files, formulas)

    def used(self, core: Core) -> FrozenSet[Piece]:
        """The pieces that the proof of a core used."""
        ask, proof = self.about(core.kept), core.proof
        cuts: Set[Cut] = set()
        for role, options, named in self.asked(proof):
            formula = proof.formulas.get(role) or ask.aig("cnf", *options, files=[ask.circuit], named=named)
            hinted = proof.files[role]
            if not has_hints(hinted):
                hinted = ask.with_hints(str(self.narrow.drat2lrat), formula, hinted)
            cuts |= used(self.question(core, role), formula, hinted)
        return frozenset(self.pieces.of[cut] for cut in cuts if cut in self.pieces.of) & core.kept

    def question(self, core: Core, role: str) -> Question:
        """What the formula of a role is over."""
        proof = core.proof
        if role == "proof":
            ask, words = self.about(core.kept), ["strengthen", "--to", "aag", f"--property={self.task.position}"]
            text = ask.aig(*words, files=[ask.circuit], named={"--certificate": proof.files["certificate"]})
            strong = Layout(parts_of(text))
            return Question(role, part_of(Left(strong, None, strong.parts.bad), 0), 0, 2)
        layout = layout_of(self.plain)
        kept = frozenset(cut for piece in core.kept for cut in self.pieces.cuts[piece])
        if role == "alive":
            return Question(role, part_of(Left(layout, kept, [1]), 0), 0, proof.frames)
        part = part_of(Left(layout, kept, layout.parts.bad), self.task.position)
        return Question(role, part, 0, proof.frames + (role == "step"))

    @property
    def plain(self) -> bytes:
        """The circuit in the format aag."""
        return plain_of(self.ask.circuit)

    # -- cores

    def without_registers(self) -> bool:
        """Whether there is a core without registers: nothing at all, or assumptions alone. Then one frame shows it."""
        assumptions = frozenset(piece for piece in self.pieces.all if piece.letter == ASSUMED)
        for kept in dict.fromkeys([assumptions, frozenset()]):
            proof = self.again(Proof("induction", 1, {}), kept) if not self.is_reached("anywhere") else None
            if proof is None:
                break
            self.core = Core(kept, proof)
        if self.core is not None:
            self.narrowed(self.core)
        return self.core is not None

    def is_reached(self, where: str) -> bool:
        """Whether a run that was drawn at random reaches the property there, or the row is about the assumptions."""
        if self.narrow.known.by == "alive":
            return True
        found = reached_by(self.plain)
        return self.task.position in (found.anywhere if where == "anywhere" else found.unassuming)

    def tried_first(self, kept: FrozenSet[Piece]) -> List[FrozenSet[Piece]]:
        """What is tried to prove it of: these pieces, and once without their assumptions before. Often a proof uses some,
        and another one does without them."""
        less = frozenset(piece for piece in kept if piece.letter != ASSUMED)
        if less == kept or self._has_tried_assumptions or self.is_reached("unassuming"):
            return [kept]
        self._has_tried_assumptions = True
        return [less, kept]

    def narrowed(self, core: Core) -> None:
        """Proves it again of what its proof used, until that is all, and keeps the smallest core."""
        if not self.narrow.drat2lrat and not all(has_hints(core.proof.files[it.role]) for it in self.asked(core.proof)):
            self.halved(core)
            return
        for _ in range(MOST_ROUNDS):
            try:
                kept = self.used(core) if core.kept else core.kept
            except (Wrong, ValueError, IndexError, KeyError) as error:
                self.ask.note(f"core: {error}")
                return
            for smaller in self.tried_first(kept):
                if smaller == core.kept:
                    self.core = core
                    return
                proof = self.again(core.proof, smaller)
                if proof is not None:
                    core = self.core = Core(smaller, proof)
                    break
            else:
                return

    def halved(self, core: Core) -> None:
        """Where no hints say what a proof used: tries it without a half of its pieces, without a quarter, and so on."""
        first = self.tried_first(core.kept)[0]
        without = self.again(core.proof, first) if first != core.kept else None
        core = self.core = Core(first, without) if without is not None else core
        size, tries = (len(core.kept) + 1) // 2, 0
        while size:
            order = self.ordered(core.kept)
            for group in (order[at : at + size] for at in range(0, len(order), size)):
                less = core.kept - frozenset(group)
                tries += 1
                proof = self.again(core.proof, less) if tries <= MOST_TRIES else None
                if proof is not None:
                    core = self.core = Core(less, proof)
            size //= 2

    def ordered(self, kept: FrozenSet[Piece]) -> List[Piece]:
        """Pieces in the order in which they are tried: assumptions, then resets, then next states, the smallest first."""
        order = [ASSUMED, RESET, NEXT]
        return sorted(kept, key=lambda it: (order.index(it.letter), len(self.pieces.cuts[it]), it))

    # -- what every proof needs

    def look_for_runs(self, core: Core) -> None:
        """Looks for a run where one piece of the core is cut alone: then every proof needs it."""
        for piece in sorted(core.kept):
            run = self.run_without(piece)
            if run is not None:
                self.runs[piece] = run

    def run_without(self, piece: Piece) -> Optional[Tuple[int, bytes]]:
        """The frames and the witness of a run to the property where a piece is cut alone, if one is found."""
        ask, most = self.ask.about(self.ask.cut(self.pieces.alone(piece))), self.task.bounds.frames
        of_alive = self.narrow.known.by == "alive"
        about = ["--alive"] if of_alive else [f"--property={self.task.position}"]
        for frames in [self.narrow.known.frames] if of_alive else sorted({*SHORT_RUNS, most}):
            asked = [f"--frames={frames}", *about]
            said = ask.solve("run without a piece", *asked, most_seconds=TRY_SECONDS)
            if said.model is not None:
                return frames, ask.aig("witness", *asked, files=[ask.circuit], named={"--model": said.model})
            if said.proof is None:
                return None
        return None

    # -- smaller ones

    def minimise(self, core: Core) -> None:
        """Tries each piece: without it there is another proof, or a run, or neither is found."""
        for piece in self.ordered(core.kept):
            if piece in core.kept and piece not in self.runs:
                less = core.kept - {piece}
                proof = self.again(core.proof, less) or self.another(less)
                if proof is not None:
                    core = self.core = Core(less, proof)
                    self.narrowed(core)
                    core = self.core

    def another(self, kept: FrozenSet[Piece]) -> Optional[Proof]:
        """A proof of another kind without all other pieces, unless a run shows that there is none."""
        if self.narrow.known.by == "alive":
            return None
        ask, position, bounds = self.about(kept), self.task.position, self.task.bounds
        for frames in SHORT_RUNS:
            said = ask.solve("run without a piece", f"--frames={frames}", f"--property={position}")
            if said.proof is None:
                return None
        seconds = min(TRY_SECONDS, bounds.seconds, ask.seconds_left())
        if seconds <= 0:
            return None
        tried = Bounds(bounds.frames, bounds.conflicts, seconds, bounds.megabytes, bounds.proof_megabytes)
        found = decide(Task.of(ask.circuit, position, tried, self.task.programs), self.ask.stop)
        is_proof = found.by in ("induction", "certificate")
        return Proof(found.by, found.frames, found.files) if is_proof else None
