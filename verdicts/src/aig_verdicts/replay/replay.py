"""Plays the runs of a bundle in a simulator, which reads the design's own sources. Neither Yosys nor the circuit is on
that way."""

from __future__ import annotations

import random
import re
import shlex
from dataclasses import replace
from itertools import product
from pathlib import Path
from typing import Callable, Dict, Iterator, List, Optional, Sequence, Set

from aig.circuit import Circuit
from ..reading.assertions import copies, given_values
from ..audit.bundle import Bundle
from aig.waves.concrete import has_free
from ..audit.folder import write_whole
from ..audit.properties import modules_and_signals
from ..audit.manifest import SCRIPT_OF_YOSYS
from ..audit.row import Row
from ..options import look_at_words
from ..audit.table import plain
from ..audit.timing import Timing, of_facts
from aig.tools import Stop, ToolFailed
from .adapted import BEFORE, Adapted
from .allowed import look_at_files, read_by_themselves
from .boxes import below, without_bodies
from .compared import ALWAYS, Comparison, Difference, Property, assumptions, properties
from .log import Log
from .older import timing_of_older
from .outcome import Outcome, Word, worst
from .places import Places
from .sides import Sides, Source
from .signals import COLUMNS, Frame, is_x, named
from .simulator import Rejected, Simulator
from .stimulus import Dice, Hold, of_witness, with_other_start
from .testbench import Player, Playing, given_in
from .verilator import beside
from .words import NotReplayed, Unreadable

# What `$past` is before the first frame of a witness: x, then other values, as any is right.
PASTS = ("'bx", "0", "-1")
# So many values of the run itself are tried, too.
MOST_PASTS = 4
_OF_PAST = re.compile(r"(?:.*\.)?past(?:_\d+)+")
# In random runs, all registers of `$past` begin with 0 or with 1.
RANDOM_PASTS = ("0", "-1")
# The orders in which inputs change where a frame is no cycle.
ORDERS = (("first", "rest"), ("all",), ("rest", "first"))
# How often signals that are x get the value of the run, or a testbench is mended.
MOST_CHOICES = 8


class Replay:
    """A bundle, and the simulator that plays its runs. In random runs, some inputs may be held. A seed chooses them."""

    def __init__(self, bundle: Bundle, simulator: Simulator, stop: Stop, holds: Sequence[Hold] = (), seed: int = 0):
        self._bundle, self._simulator, self._stop, self._holds, self._seed = bundle, simulator, stop, holds, seed
        self._driven: List[Difference] = []
        top, defines = bundle.manifest["name"], bundle.manifest["options"]["defines"]
        look_at_words(top, defines)
        sources = {name: bundle.summed(f"sources/{name}").decode("latin-1") for name in bundle.manifest["sources"]}
        script = bundle.summed(SCRIPT_OF_YOSYS).decode("latin-1")
        self._circuit = Circuit(bundle.circuit())
        self._timing = self._timing_of(script, "\n".join(sources.values()))
        look_at_files(sources)
        names = [it for it in read_by_themselves(sources) if it not in bundle.manifest["options"].get("asserts", [])]
        self.translated = self._translated(sources, names)
        sources.update(self.translated)
        simulator.data = {name: text.encode("latin-1") for name, text in sources.items() if name not in names}
        defines = ["FORMAL", "YOSYS", *defines]
        text = simulator.preprocessed(sources, names, defines)
        modules, signals = modules_and_signals(bundle.manifest["options"].get("free", []))
        self._freed = {it.partition(".")[2] for it in signals}
        text = below(without_bodies(text, modules), top)
        adapted = Adapted(text)
        self._checks, self._places = adapted.checks, Places(text, top)
        inputs, both = (adapted.ports_of(top, [it]) for it in ("input", "inout"))
        instance = f"{top}{given_values(bundle.manifest['options'])}"
        self._source = Source(instance, adapted.text, defines, inputs, both, adapted.escaped)
        self._properties = properties(bundle.rows, self._checks)
        constraints = [it.name for it in self._circuit.entries if it.letter == "c"]
        self._assumptions = assumptions(constraints, self._checks) if all(constraints) else []
        self._steps = adapted.steps
        self._sides = self._sides_of(simulator)

    def _sides_of(self, simulator: Simulator) -> Sides:
        """Both sides in this simulator, or in Verilator where this one cannot read the sources."""
        try:
            return Sides(self._circuit, self._source, self._timing, simulator)
        except Unreadable as error:
            other = beside(simulator, error)
            if other is None:
                raise
            first = error
        self._source = replace(self._source, has_older_words=False)
        try:
            other.look_at(self._source.text, self._has_x)
            sides = Sides(self._circuit, self._source, self._timing, other)
        except NotReplayed as error:
            raise NotReplayed(f"{first}; {other.name} cannot play it either: {error}") from None
        self._simulator = other
        return sides

    @property
    def _has_x(self) -> bool:
        """Whether some x of the sources is a free input of the circuit."""
        own = {*self._source.inputs, *self._source.both}
        return any(it.letter == "i" and is_x(it.name) and it.name not in own for it in self._circuit.entries)

    @property
    def name(self) -> str:
        """The simulator that plays."""
        return self._simulator.name

    @property
    def limits(self) -> str:
        """What it does not tell of the design."""
        return self._simulator.limits

    def _translated(self, sources: Dict[str, str], names: Sequence[str]) -> Dict[str, str]:
        """The copies of sources with concurrent assertions, which the simulator does not read. Those in the bundle could be
        anything, so they are made again."""
        texts = {name: text.encode("latin-1") for name, text in sources.items()}
        try:
            found = copies(texts, names, self._bundle.manifest["options"], self._timing.is_cycle)
        except (ToolFailed, KeyError) as error:
            raise NotReplayed(str(error)) from None
        return {name: text.decode("latin-1") for name, text in found.played.items()}

    def _timing_of(self, script: str, text: str) -> Timing:
        facts = self._bundle.manifest["timing"]
        return of_facts(facts) if facts else timing_of_older(script, self._circuit, text)

    @property
    def left_out(self) -> Sequence[str]:
        """The signals of the circuit that are not compared."""
        return self._sides.left_out

    @property
    def asserted(self) -> Set[str]:
        """The names of the assertions, covers and assumptions of the circuit."""
        return {row.name for it in (*self._properties, *self._assumptions) for row in it.rows if row.kind != "condition"}

    # -- runs

    def random(self, frames: int, number: int) -> Outcome:
        """Plays a random run, and compares all values in each frame. The first run tells, too, which values the circuit
        leaves open and the sources do not."""
        run = Dice(self._circuit, self._timing, self._holds, self._stop, self._seed).run(frames, number)
        if number == 1:
            self._driven = list(self._not_free(run))
        return self._best(run, [RANDOM_PASTS[number % 2], PASTS[0]], None, None)

    def _not_free(self, run: Sequence[Frame]) -> Iterator[Difference]:
        """The values that are free in the circuit, and known in a simulation that does not set them."""
        player = self._sides.player
        freed = {at for it in player.free if it.path in self._freed for at in it.columns}
        asked = [*(it for it in player.free if not freed & set(it.columns)), *player.constants]
        if not asked or not self._simulator.has_x:
            return
        alone = replace(player, free=[], constants=[], shown=asked)
        try:
            said = self._source.run(Playing(alone, run, ORDERS[0]).text([]), PASTS[0], self._simulator)
        except Rejected:  # the run itself says why
            return
        for at, signal in enumerate(asked):
            values = (row[at] for row in Log(said, self._checks, self._timing.is_cycle).frames if len(row) > at)
            bits = (bit for value in values for bit, column in zip(value, signal.columns) if column >= 0)
            if {"0", "1"} & set(bits):
                yield Difference(ALWAYS, signal.path, "has a value in the sources", "is free")

    def row(self, row: Row, to: Optional[Path] = None) -> Outcome:
        """Plays the run of a row that fails or is reached, and writes its testbench. What the run leaves open may have any
        value, so it is played with several: 0, 1 and random ones. The worst outcome counts."""
        witness = self._bundle.summed(row.files["witness"])
        known = next(it for it in self._properties if row.position in [other.position for other in it.rows])
        dice = random.Random(f"{self._seed} {row.position}")
        values: Sequence[Callable[[], str]] = (lambda: "0", lambda: "1", lambda: dice.choice("01"))
        outcomes: List[Outcome] = []
        for value in values if has_free(witness) else values[:1]:
            try:
                run = of_witness(self._circuit, witness, self._stop, value)
            except NotReplayed as error:
                return Outcome(Word.NOT_REPLAYED, str(error))
            bench = to and to / f"{row.position}.tb.v" if not outcomes else None
            outcomes.append(self._best(run, [*PASTS, *self._pasts_of(run[0])], known, bench))
        return worst(outcomes)

    def _pasts_of(self, frame: Frame) -> List[str]:
        """The values that registers of `$past` have where a run begins."""
        latches = (it for it in named(self._circuit.entries) if it.letter == "l")
        found = (it for it in latches if _OF_PAST.fullmatch(it.path))
        values = ("".join(frame[0][at] for _, at in sorted(it.positions.items(), reverse=True)) for it in found)
        return list(dict.fromkeys(f"{len(bits)}'b{bits}" for bits in values))[:MOST_PASTS]

    def _best(self, run: Sequence[Frame], pasts: Sequence[str], known: Optional[Property],
              to: Optional[Path]) -> Outcome:
        """The best outcome of all ways to play a run that mean the same."""
        best: Optional[Outcome] = None
        ways = product(pasts if self._steps else pasts[:1], ORDERS[:1] if self._timing.is_cycle else ORDERS)
        for past, order in ways:
            try:
                told = self._played(Playing(self._sides.player, run, order), past, known, to if best is None else None)
            except NotReplayed as error:
                told = Outcome(Word.NOT_REPLAYED, str(error))
            if best is None or told.word.rank < best.word.rank:
                best = told
            if best.word is Word.AGREES:
                break
        assert best is not None
        return best

    def _played(self, playing: Playing, past: str, known: Optional[Property], to: Optional[Path]) -> Outcome:
        """Plays a run until no more x gets a value."""
        shown = self._sides.player.shown
        for _ in range(MOST_CHOICES):
            bench = playing.text(self._heading(len(playing.frames), past, known, to))
            try:
                said = self._source.run(bench, past, self._simulator)
            except Rejected as error:
                mended = self._mended(playing.player, bench, error)
                if mended == playing.player:
                    raise NotReplayed(f"{self._simulator.program}: {error}") from None
                self._sides.player = playing.player = mended
                continue
            log = Log(said, self._checks, self._timing.is_cycle)
            if len(log.frames) != len(playing.frames):
                raise NotReplayed(f"the simulation ends in frame {len(log.frames)}")
            found = Comparison(log, playing.frames, playing.player, self._checks)
            differences = found.of_signals()
            new = {shown[at].path for at in found.unknown if shown[at].is_whole} - playing.watched
            if not new:
                break
            playing.watched |= new
        if to:
            write_whole(to, self._source.behind(bench).encode("latin-1"))
        return self._told(found, differences, known)

    def _mended(self, player: Player, bench: str, error: Rejected) -> Player:
        """The player whose testbench the simulator may take: this one if there is no other."""
        lines = self._source.behind(bench).split("\n")
        typed = given_in([lines[at - 1] for at in error.casts if at <= len(lines)])
        return replace(player, wired=player.wired or error.is_double, fixed=player.fixed | error.fixed,
                       typed=player.typed | typed)

    def _heading(self, frames: int, past: str, known: Optional[Property], to: Optional[Path]) -> List[str]:
        """The first lines of a testbench: what it plays, and how."""
        if known is None or to is None:
            return []
        row, defines = known.rows[0], [*self._source.defines, f"{BEFORE}={past}"]
        macros = " ".join(shlex.quote(f"-D{it}") for it in defines)
        numbers = ", ".join(f"`aig value {it} {known.wrong} ..`" for it in sorted(known.numbers))
        return [f"The run of {plain(row.name)} ({row.file}:{row.last}). Play it with",
                f"  {self._simulator.command(macros, to.name)}",
                f"It {'happens' if row.kind == 'cover' else 'fails'} in frame {frames - 1}: {numbers} before "
                f"`aig frame {frames - 1}`. The design follows the testbench.", ""]

    # -- what it means

    def _told(self, found: Comparison, differences: List[Difference], known: Optional[Property]) -> Outcome:
        differences += [*self._driven, *found.of_own_values(self._sides.starts)]
        every = [*self._properties, *self._assumptions]
        if self._bundle.manifest["timing"]:  # older versions gave other names, and none to assumptions
            differences += found.of_names(every)
        if known is None or not self._steps:  # what `$past` is before a witness begins is not known here
            differences += found.of_properties([it for it in every if it is not known])
        placed = [self._placed(it) for it in sorted(differences, key=lambda it: it.frame)]
        decisive = self._decisive(found.frames) if placed else None
        if decisive is not None:
            return Outcome(Word.NOT_REPLAYED, f"the testbench cannot set {decisive}")
        counts = (placed, len(found.signals), len(found.asserted), found.values, found.unknown_values, found.seen,
                  found.places_without_row(every))
        if known is None:
            return Outcome(Word.DISAGREES if placed else Word.AGREES, "", *counts)
        broken, happens = found.broken(), found.happens_at_end(known)
        if happens and not broken:
            return Outcome(Word.BY_OTHER_VALUES if placed else Word.AGREES, "", *counts)
        if happens is None and not broken:
            return Outcome(Word.UNKNOWN, "it is x" if found.is_ever(known, "x") else "its block never runs", *counts)
        if self._reads_before(broken[1] if broken else len(found.frames) - 1):
            return Outcome(Word.UNKNOWN, "what `$past` is before the run decides it", *counts)
        why = f"it does not {'happen' if known.wrong == '1' else 'fail'}"
        if broken:
            why = f"the assumption of {broken[0].place} is broken in frame {broken[1]}"
        return Outcome(Word.DISAGREES, why, *counts)

    def _decisive(self, frames: Sequence[Frame]) -> Optional[str]:
        """A register that the testbench cannot set, if what is compared depends on such values: on all of them, or on half."""
        unset = list(self._sides.unset)
        wanted = self._compared_of(frames)
        for flipped in (unset, unset[::2], unset[1::2]):
            if flipped and self._compared_of(with_other_start(self._circuit, frames, flipped, self._stop)) != wanted:
                return self._sides.unset[flipped[0]]
        return None

    def _compared_of(self, frames: Sequence[Frame]) -> List[List[str]]:
        """The values of a run that are compared."""
        return [[*(it.bits(frame) for it in self._sides.player.shown), *frame[COLUMNS.index("b"):]] for frame in frames]

    def _reads_before(self, number: int) -> bool:
        """Whether some `$past` may read what was before the run in this frame."""
        return self._steps > 0 and (number <= self._steps or not self._timing.is_cycle)

    def _placed(self, it: Difference) -> Difference:
        if it.file:
            return it
        file, line = self._places.of(it.name)
        return it._replace(file=file, line=line)
