"""Where each verdict begins. `check` has `aig` answer the commands of a claim, and makes a `Checked` of its answers. Nothing
else makes one, or is a verdict: rows, tables, pages and statuses take a `Checked`, and decisions.py says what it means."""

from __future__ import annotations

from dataclasses import InitVar, dataclass
from typing import Callable, Dict, List, Mapping, NamedTuple, Optional, Tuple

from aig.program import sum_of as sum_of
from aig.errors import AigError
from aig.waves.concrete import comes_back, fits
from aig.tools import Stop, answer

CIRCUIT = "circuit.aig"
# The circuit without what the file of a row cuts. It is in no bundle: each check makes it.
CUT = "cut.aag"
# The position of the row that says whether some run keeps the constraints.
CONSTRAINTS = -1
# Lines that `aig` prints.
CONFIRMED, UNREACHABLE, ALIVE = "confirmed", "unreachable", "alive"
# What a run of a circuit without one piece is found by. It is no verdict on the whole circuit, and no key of WAYS.
NEEDED = "needed"


class Wrong(Exception):
    """Something is not what somebody says."""


class Rejected(Wrong):
    """`aig` rejects a file that has to show something."""

    def __init__(self, label: str, command: str, error: AigError):
        super().__init__(f"{label}: aig {command}: {error.part}: {error.reason}")
        self.error = error


def expect(condition: bool, what: str) -> None:
    if not condition:
        raise Wrong(what)


class Shown(NamedTuple):
    """The files that show a verdict, by role: those that have to be there, and those that may."""

    needed: Tuple[str, ...] = ()
    possible: Tuple[str, ...] = ()


# What a verdict is found by, and the files of each. A row that nothing shows has none. With a file of cuts the proofs are
# about the circuit without these parts: what no run reaches there, none reaches in the whole circuit.
WAYS: Dict[str, Shown] = {
    "run": Shown(("witness",), ("shorter", "concrete")),
    "induction": Shown(("base", "step"), ("cuts",)),
    "certificate": Shown(("certificate", "proof"), ("cuts",)),
    "bound": Shown(("base",)),
    "alive": Shown(("alive",), ("cuts",)),
    "kept": Shown(("witness",)),
    "": Shown(),
}


class Command(NamedTuple):
    """The arguments of `aig`, and the line that it has to print. A file is its name in the bundle."""

    prints: str
    words: List[str]


class Parts(NamedTuple):
    """The arguments of a command about files of the bundle: options, the files that options name, and the last file."""

    options: List[str]
    named: Dict[str, str]
    last: str


def parts_of(words: List[str]) -> Parts:
    """The parts of a command of a claim. Where it has two files at its end, the circuit is the one before the last."""
    options, named = words[1 : -1 if words[0] == "cut" else -2], {}
    for option in ("--step", "--certificate", "--cuts"):
        if option in options:
            place = options.index(option)
            named[option] = options[place + 1]
            del options[place : place + 2]
    return Parts(options, named, words[-1])


@dataclass(frozen=True)
class Claim:
    """What somebody says: that files show a verdict on a property. Nothing of it is believed.

    by      a key of WAYS, or NEEDED: a run of the circuit without what a file cuts
    frames  of the run, the induction or the bound
    named   the names of the files, by their roles
    """

    position: int
    by: str
    frames: int
    named: Tuple[Tuple[str, str], ...] = ()

    @property
    def files(self) -> Dict[str, str]:
        return dict(self.named)

    @property
    def label(self) -> str:
        return "constraints" if self.position == CONSTRAINTS else f"b{self.position}"

    @property
    def _property(self) -> str:
        return f"--property={self.position}"

    @property
    def line(self) -> str:
        """What `aig` prints if the claim is right: the verdict."""
        if self.by == NEEDED:
            return ALIVE if self.position == CONSTRAINTS else CONFIRMED
        return {"run": CONFIRMED, "induction": UNREACHABLE, "certificate": UNREACHABLE, "kept": ALIVE,
                "bound": f"unreachable within {self.frames}", "alive": f"no run of {self.frames} frames"}[self.by]

    @property
    def circuit(self) -> str:
        """What the commands are about: the circuit, or what is left of it."""
        return CUT if "cuts" in self.files else CIRCUIT

    @property
    def cut(self) -> List[str]:
        """The command that writes what is left of the circuit; nothing if all of it is."""
        return ["cut", "--to", "aag", "--cuts", self.files["cuts"], CIRCUIT] if "cuts" in self.files else []

    def commands(self) -> List[Command]:
        """The commands that check the claim. The first one prints its line."""
        files = self.files
        if self.by == NEEDED:
            asked = ["--alive", f"--frames={self.frames}"] if self.position == CONSTRAINTS else [self._property]
            return [Command(self.line, ["check", *asked, CUT, files["witness"]])]
        if self.by == "run":
            runs = [files[role] for role in ("witness", "concrete") if role in files]
            shown = [Command(self.line, ["check", self._property, CIRCUIT, name]) for name in runs]
            if "shorter" in files:
                shown.append(self._bounded(self.frames - 1, files["shorter"]))
            return shown
        if self.by == "induction":
            step = ["--step", files["step"]]
            return [self._refuted(self.line, [f"--frames={self.frames}"], step, files["base"])]
        if self.by == "certificate":
            certificate = ["--certificate", files["certificate"]]
            return [self._refuted(self.line, [], certificate, files["proof"])]
        if self.by == "bound":
            return [self._bounded(self.frames, files["base"])]
        if self.by == "kept":
            return [Command(self.line, ["check", "--alive", f"--frames={self.frames}", CIRCUIT, files["witness"]])]
        if self.by == "alive":
            return [Command(self.line, ["refute", "--alive", f"--frames={self.frames}", self.circuit, files["alive"]])]
        return []

    def _bounded(self, frames: int, proof: str) -> Command:
        return self._refuted(f"unreachable within {frames}", [f"--frames={frames}"], [], proof)

    def _refuted(self, prints: str, frames: List[str], more: List[str], proof: str) -> Command:
        return Command(prints, ["refute", *frames, self._property, *more, self.circuit, proof])


# Only this module has it, so only `check` makes a Checked.
_KEY = object()


@dataclass(frozen=True)
class Checked:
    """A claim that `aig` confirmed: each command ended with status 0 and printed exactly its line.

    claim    what was asked, of which property, for how many frames, and by which commands
    circuit  the sum of the circuit (SHA-256)
    sums     those of the files, by role
    key      that of this module
    cuts     the file of what was cut from the circuit; none if the commands were about all of it
    is_lasting  whether it is a run that comes back to a state, so that it can go on for ever
    """

    claim: Claim
    circuit: str
    sums: Mapping[str, str]
    key: InitVar[object]
    cuts: Optional[bytes] = None
    is_lasting: bool = False

    def __post_init__(self, key: object) -> None:
        if key is not _KEY:
            raise TypeError("only a check makes a Checked")

    def __reduce__(self) -> str:
        raise TypeError("a Checked stays in its process: another one has to check the claim again")

    @property
    def line(self) -> str:
        """The line that `aig` printed: the verdict."""
        return self.claim.line

    @property
    def by(self) -> str:
        return self.claim.by

    @property
    def frames(self) -> int:
        return self.claim.frames

    def is_about(self, claim: Claim, circuit: str, files: Mapping[str, bytes]) -> bool:
        """Whether it is about this claim, circuit and files, by their content. The files are there by their roles."""
        return (self.claim, self.circuit) == (claim, circuit) and self.sums == {
            role: sum_of(data) for role, data in files.items()}


def check(claim: Claim, circuit: bytes, read: Callable[[str], bytes], stop: Stop) -> Checked:
    """Has `aig` answer each command of a claim about a circuit. `read` has the bytes of a file by its name. A Wrong
    says what is not as claimed."""
    texts: Dict[str, bytes] = {}

    def text(name: str) -> bytes:  # which is read once: it may change meanwhile
        if name not in texts:
            texts[name] = read(name)
        return texts[name]

    commands = claim.commands()
    expect(commands != [] and commands[0].prints == claim.line, f"nothing shows the verdict of {claim.label}")
    if claim.by == "run" or claim.by == NEEDED and claim.position != CONSTRAINTS:
        _look_at_witness(claim, text(claim.files["witness"]), text(claim.files.get("concrete", claim.files["witness"])))
    left = _left(claim, circuit, text, stop)
    for command in commands:
        _ask(claim, command, left, text, stop)
    cuts = text(claim.files["cuts"]) if claim.cut else None
    is_lasting = claim.by == "kept" and comes_back(circuit, text(claim.files["witness"]))
    return Checked(claim, sum_of(circuit), {role: sum_of(text(name)) for role, name in claim.named}, _KEY, cuts, is_lasting)


def _left(claim: Claim, circuit: bytes, text: Callable[[str], bytes], stop: Stop) -> bytes:
    """What the commands of a claim are about: the circuit, or what `aig cut` leaves of it."""
    if not claim.cut:
        return circuit
    options, named, last = parts_of(claim.cut)
    expect(last == CIRCUIT, f"{claim.label} is about another circuit")
    try:
        return answer(stop, "cut", *options, files=[circuit], named={it: text(name) for it, name in named.items()}).out
    except AigError as error:
        raise Rejected(claim.label, "cut", error) from None


def _look_at_witness(claim: Claim, witness: bytes, concrete: bytes) -> None:
    """That a witness is about the property of its claim, and as long, and that its concrete run is the same, with values."""
    expect(witness.split(b"\n", 2)[1:2] == [b"b%d" % claim.position],
           f"the witness of {claim.label} is for another property")
    expect(witness.count(b"\n") - 4 == claim.frames, f"the witness of {claim.label} has another number of frames")
    if "concrete" in claim.files:
        expect(fits(concrete, witness), f"the concrete run of {claim.label} is another one than its witness")


def _ask(claim: Claim, command: Command, circuit: bytes, text: Callable[[str], bytes], stop: Stop) -> None:
    """Has `aig` answer a command, and compares its line and its status."""
    line, words = command
    options, files, last = parts_of(words)
    expect(words[-2] == claim.circuit, f"{claim.label} is about another circuit")
    named = {option: text(file) for option, file in files.items()}
    try:
        said = answer(stop, words[0], *options, files=[circuit, text(last)], named=named, good=(0, 1))
    except AigError as error:
        raise Rejected(claim.label, words[0], error) from None
    printed = said.out.decode("ascii", "replace")
    expect(printed == f"{line}\n", f"{claim.label}: aig {words[0]} prints {printed.strip()!r}, and not {line!r}")
    expect(said.status == 0, f"{claim.label}: aig {words[0]} prints {line!r} and ends with status {said.status}")
