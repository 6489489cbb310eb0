"""The runs that a simulator plays: that of a witness, or a random one."""

from __future__ import annotations

import random
import re
from dataclasses import dataclass
from typing import Callable, Collection, Dict, List, NamedTuple, Sequence, Tuple

from aig.circuit import Circuit
from ..audit.checked import CONFIRMED
from ..audit.timing import Timing
from aig.tools import Stop, ask
from .words import NotReplayed
from .signals import BIT, Frame

# A held input of one bit is released in one frame of so many.
RELEASES = 16
# For how many frames an asynchronous reset is held.
RESET = 2
# The chance of an input to change in a frame, in each of the random runs.
CHANGES = (0.5, 0.25, 0.75)


class Hold(NamedTuple):
    """An input that has a value for some frames."""

    name: str
    value: int
    frames: int


@dataclass(frozen=True)
class Latches:
    """The literals of the latches, their next values and their resets, in the order of the circuit."""

    literals: Sequence[str]
    nexts: Sequence[str]
    resets: Sequence[str]

    def is_open(self, at: int) -> bool:
        """Whether it begins with any value."""
        return self.resets[at] == self.literals[at]

    def is_constant(self, at: int) -> bool:
        return self.is_open(at) and self.nexts[at] == self.literals[at]


def latches_of(circuit: Circuit) -> Latches:
    lines = circuit.to("aag").decode("latin-1").split("\n")
    inputs, latches = (int(word) for word in lines[0].split(" ")[2:4])
    words = [[*line.split(" "), "0"] for line in lines[1 + inputs:1 + inputs + latches]]
    return Latches([it[0] for it in words], [it[1] for it in words], [it[2] for it in words])


def of_witness(circuit: Circuit, witness: bytes, stop: Stop, value: Callable[[], str] = lambda: "0") -> List[Frame]:
    """The run of a witness. What it leaves open has these values."""
    first, second, *rest = witness.split(b"\n")
    text = b"\n".join([first, second, *(re.sub(b"x", lambda _: value().encode(), line) for line in rest)])
    frames, verdict = _played(circuit, text, stop)
    if verdict != CONFIRMED:
        raise NotReplayed("the witness is none once its open values are given")
    return frames


def with_other_start(circuit: Circuit, frames: Sequence[Frame], flipped: Collection[int], stop: Stop) -> List[Frame]:
    """The same run from a start in which these latches have the other value."""
    start = "".join("10"[int(bit)] if at in flipped else bit for at, bit in enumerate(frames[0][0]))
    lines = ["1", "b0", start, *(frame[1] for frame in frames), ".", ""]
    return _played(circuit, "\n".join(lines).encode(), stop)[0]


def _played(circuit: Circuit, witness: bytes, stop: Stop) -> Tuple[List[Frame], str]:
    said = ask(stop, "check", "--trace", "--properties", files=[circuit.file, witness], good=(0, 1)).decode()
    *lines, verdict = said.splitlines()
    return [line.split(" ") for line in lines], verdict


@dataclass
class Dice:
    """Random runs of a circuit, with random values in latches that begin with any. A seed chooses all of them."""

    circuit: Circuit
    timing: Timing
    holds: Sequence[Hold]
    stop: Stop
    seed: int = 0

    def __post_init__(self) -> None:
        inputs = [it for it in self.circuit.entries if it.letter == "i"]
        self._bits: Dict[str, List[Tuple[int, int]]] = {}
        for entry in inputs:
            for word in entry.name.split(" "):
                match = BIT.fullmatch(word)
                name, index = (match[1], int(match[2])) if match else (word, 0)
                self._bits.setdefault(name, []).append((index, entry.position))
        for hold in self.holds:
            if hold.name not in self._bits:
                raise NotReplayed(f"--hold: there is no input {hold.name}")
        self._count = len(inputs)
        self._clocks = sorted(at for name in self.timing.first for _, at in self._bits.get(name, []))

    def run(self, frames: int, number: int) -> List[Frame]:
        """The run of this number, of so many frames: the same one each time."""
        dice = random.Random(f"{self.seed} {number}" if self.seed else number)
        latches, holds = latches_of(self.circuit), self._holds(number)
        pasts = {it.position: "01"[number % 2] for it in self.circuit.entries if it.letter == "l" and "past_" in it.name}
        start = [pasts.get(at, dice.choice("01")) if latches.is_open(at) else reset
                 for at, reset in enumerate(latches.resets)]
        values = [dice.choice("01") for _ in range(self._count)]
        lines = []
        for at in range(frames):
            self._hold(values, holds, at, dice)
            lines.append("".join(values))
            values = self._next(values, dice, CHANGES[number % len(CHANGES)])
        text = "\n".join(["1", "b0", "".join(start), *lines, ".", ""]).encode()
        return _played(self.circuit, text, self.stop)[0]

    def _next(self, values: Sequence[str], dice: random.Random, chance: float) -> List[str]:
        """Of several clocks, one changes at a time: two at once would be a race."""
        changed = [dice.choice("01") if dice.random() < chance else it for it in values]
        if not self.timing.is_cycle:
            for at in self._clocks:
                changed[at] = values[at]
            if self._clocks and dice.random() < 0.75:
                at = dice.choice(self._clocks)
                changed[at] = "10"[int(values[at])]
        return changed

    def _holds(self, run: int) -> List[Hold]:
        """What is held. An asynchronous reset begins a run, but for the first one."""
        named = {it.name for it in self.holds}
        resets = [Hold(it.split(" ")[1], int(it.startswith("posedge")), RESET) for it in self.timing.resets]
        return [*self.holds, *(it for it in resets if run > 1 and it.name not in named and it.name in self._bits)]

    def _hold(self, values: List[str], holds: Sequence[Hold], number: int, dice: random.Random) -> None:
        """A held input of one bit has the other value in most of the later frames."""
        for name, value, frames in holds:
            bits = self._bits[name]
            if number >= frames and (len(bits) > 1 or dice.randrange(RELEASES) == 0):
                continue
            least = min(index for index, _ in bits)
            for index, at in bits:
                bit = value >> (index - least) & 1
                values[at] = str(bit if number < frames else 1 - bit)


def hold_of(text: str) -> Hold:
    """`SIGNAL=VALUE:FRAMES`, as in `resetn=0:4`."""
    name, _, rest = text.partition("=")
    value, _, frames = rest.partition(":")
    return Hold(name, int(value, 0), int(frames))
