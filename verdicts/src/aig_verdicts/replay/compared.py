"""Compares what a simulation printed with a run of the circuit."""

from __future__ import annotations

import re
from dataclasses import dataclass, field
from typing import Dict, Iterable, Iterator, List, NamedTuple, Optional, Sequence, Set, Tuple

from ..audit.row import Row
from .adapted import Check
from .log import Key, Log, is_in
from .signals import COLUMNS, Frame, Signal
from .testbench import Player

TOP = "aig_tb.dut"


# What differs in each frame, as it is on one side alone.
ALWAYS = -1


class Difference(NamedTuple):
    """A value that is not the same on both sides. `name` is that of a signal, or of the row of an assertion."""

    frame: int
    name: str
    simulated: str
    circuit: str
    file: str = ""
    line: int = 0

    def said(self) -> str:
        place = f"{self.file}:{self.line}" if self.file else ""
        name = f"{self.name} ({place})" if place and not self.name.endswith(place) else self.name
        when = f" in frame {self.frame}" if self.frame != ALWAYS else ""
        return f"{name}{when}: {self.simulated}, and {self.circuit} in the circuit"


class Property(NamedTuple):
    """The rows that share their checks, as those of a loop do, and their checks."""

    rows: Sequence[Row]
    numbers: Set[int]
    scope: str

    @property
    def wrong(self) -> str:
        """The values of its expression of which one is there if the property of the circuit is 1."""
        return {"cover": "1", "assert": "0", "assume": "0"}.get(self.rows[0].kind, "01xz")

    @property
    def name(self) -> str:
        row = self.rows[0]
        return {"condition": "the `if` of ", "assume": "the assumption "}.get(row.kind, "") + row.name

    @property
    def words(self) -> Tuple[str, str]:
        """What a property does that is 0 or 1."""
        return {"cover": ("does not happen", "happens"), "assert": ("does not fail", "fails"),
                "assume": ("is kept", "is broken")}.get(self.rows[0].kind, ("0", "1"))


def properties(rows: Sequence[Row], checks: Sequence[Check]) -> List[Property]:
    """The assertions, covers and conditions of a bundle, with their checks in the sources."""
    found: Dict[Tuple[str, ...], Property] = {}
    for row in rows[1:]:
        label = re.sub(r"(#\d+|(\[\d+\])+)$", "", row.name)
        scope, _, label = label.rpartition(".") if not label.endswith(f"{row.file}:{row.last}") else ("", "", label)
        if label == f"{row.file}:{row.last}" or label.endswith(f":{row.file}:{row.last}"):
            scope = label[:-len(f"{row.file}:{row.last}")].rstrip(":")
        near = {at for at, it in enumerate(checks) if _is_check_of(it, row, label)}
        numbers = {at for at in near if checks[at].last == row.last} or near
        key = row.kind, scope, *sorted(map(str, numbers)), "" if numbers else row.label
        old = found.get(key)
        found[key] = Property([*(old.rows if old else []), row], numbers, f"{TOP}.{scope}" if scope else TOP)
    return list(found.values())


def assumptions(names: Sequence[str], checks: Sequence[Check]) -> List[Property]:
    """The assumptions of a circuit, with their checks in the sources."""
    found: Dict[Tuple[str, str], Property] = {}
    for position, name in enumerate(names):
        label = re.sub(r"(#\d+|(\[\d+\])+)$", "", name)
        place = re.search(r"(?:^|:)([^:]+:\d+)$", label)
        scope = label[:place.start()] if place else label.rpartition(".")[0]
        label = place[1] if place else label.rpartition(".")[2]
        numbers = {at for at, it in enumerate(checks)
                   if it.kind in ("assume", "restrict") and label == (it.label or it.place)}
        old = found.get((scope, label))
        row = Row(position=position, kind="assume", name=name)
        found[scope, label] = Property([*(old.rows if old else []), row], numbers, f"{TOP}.{scope}" if scope else TOP)
    return list(found.values())


def _is_check_of(check: Check, row: Row, label: str) -> bool:
    kind = "assert" if row.kind == "condition" else row.kind
    if check.kind != kind or check.file != row.file or not row.first <= check.last <= row.last:
        return False
    return not check.label or check.label == label


@dataclass
class Comparison:
    """A simulation beside the run that it plays.

    values    how many values were compared
    unknown_values  how many were x in the simulation
    signals   the signals of which a value was compared
    asserted  the assertions and covers of which a value was compared
    seen      the names of these, and of the assumptions
    unknown   the signals that were x in the simulation, and got no value of the run
    """

    log: Log
    frames: Sequence[Frame]
    player: Player
    checks: Sequence[Check]
    values: int = 0
    unknown_values: int = 0
    signals: Set[str] = field(default_factory=set)
    asserted: Set[str] = field(default_factory=set)
    seen: Set[str] = field(default_factory=set)
    unknown: Set[int] = field(default_factory=set)

    def of_signals(self) -> List[Difference]:
        """The first difference of each signal. The signals of which a value is x, and else the same, are `unknown`."""
        found: Dict[str, Difference] = {}
        for number, row in enumerate(self.log.frames):
            for at, (signal, simulated) in enumerate(zip(self.player.shown, row)):
                frame = self.player.wanted(signal, self.frames, number)
                if frame is None:
                    continue
                wanted = signal.bits(frame)
                same, has_x = _same(simulated, wanted)
                if same and (has_x or (number, at) in self.log.given):
                    self.unknown_values += 1
                else:
                    self.values += 1
                    self.signals.add(signal.path)
                if not same:
                    found.setdefault(signal.path, Difference(number, signal.path, simulated, wanted))
                elif has_x:
                    self.unknown.add(at)
        return list(found.values())

    def of_own_values(self, starts: Dict[str, str]) -> Iterator[Difference]:
        """The registers and words that the sources give another value at the start than the circuit, or that one of them
        leaves open."""
        own = dict(zip((it.path for it in self.player.shown), self.log.own))
        for path, wanted in starts.items():
            simulated = own.get(path, wanted).rjust(len(wanted), "0")
            if any(one != other for one, other in zip(simulated, wanted) if other != "?"):
                yield Difference(0, path, simulated, wanted)

    def of_names(self, known: Sequence[Property]) -> Iterator[Difference]:
        """The assertions, covers and assumptions that one side alone has."""
        for it in known:
            if not it.numbers:
                yield Difference(ALWAYS, it.name, "is not in the sources", "is there", it.rows[0].file, it.rows[0].last)
        for key in sorted(self._without_row(known) & self._with_value):
            check = self.checks[key[0]]
            yield Difference(ALWAYS, f"{check.kind} in {key[1].partition('.')[2]}", "is in the sources", "is not there",
                             check.file, check.last)

    def places_without_row(self, known: Sequence[Property]) -> Set[str]:
        """Where the sources have assertions or assumptions that the circuit does not have, though their blocks run. Perhaps
        an `if` around them is never true: they have no value."""
        return {self.checks[number].place for number, _ in self._without_row(known) - self._with_value}

    def _without_row(self, known: Sequence[Property]) -> Set[Key]:
        return set(self.log.ran) - {key for it in known for key in self._keys(it, self.log.ran)}

    @property
    def _with_value(self) -> Set[Key]:
        return {key for said in self.log.said for key, values in said.items() if values}

    def of_properties(self, known: Sequence[Property]) -> Iterator[Difference]:
        """The first difference of each assertion and cover."""
        for it in known:
            if self.is_unsteady(it):
                continue
            for number in range(len(self.log.said)):
                of_circuit = number - self._is_early(it)
                simulated = self.happens(it, number)
                if simulated is None or of_circuit < 0:
                    continue
                wanted = self._is_bad(it, of_circuit)
                self.values += 1
                self.asserted.update(row.label for row in it.rows if row.kind in ("assert", "cover"))
                self.seen.update(row.name for row in it.rows if row.kind != "condition")
                if simulated != wanted:
                    row = it.rows[0]
                    yield Difference(number, it.name, it.words[simulated], it.words[wanted], row.file, row.last)
                    break

    def is_unsteady(self, it: Property) -> bool:
        """Whether a block at a clock runs at other times, too: its values are not those of the clock's edge alone."""
        return any(key in self.log.unsteady for key in self._keys(it, self.log.ran))

    def happens(self, it: Property, number: int) -> Optional[bool]:
        """Whether the simulation says that it fails or is reached in a frame; None if that is not known."""
        keys = self._keys(it, self.log.ran)
        kinds = {self.checks[number].block for number, _ in keys}
        values = [value for key in keys for value in self.log.said[number].get(key, [])]
        if not keys or kinds & {"task", "initial"} or kinds == {"clock"} and number == 0:
            return None
        if set(values) & set(it.wrong):
            return True
        if set(values) - {"0", "1"}:
            return None
        has_run = any(self.log.ran[key] <= number for key in keys)
        return False if has_run or kinds == {"clock"} else None

    def happens_at_end(self, it: Property) -> Optional[bool]:
        """Whether it happens in the last frame, or at all if its values do not tell frames apart."""
        happens = self.happens(it, len(self.frames) - 1)
        if happens is not True and (happens is None or self.is_unsteady(it)) and self.is_ever(it, it.wrong):
            return True
        return happens

    def is_ever(self, it: Property, value: str) -> bool:
        """Whether a check of it has a value in any frame."""
        return any(value in said[key] for said in self.log.said for key in self._keys(it, said))

    def broken(self) -> Optional[Tuple[Check, int]]:
        """The first assumption that does not hold, and where."""
        for number, said in enumerate(self.log.said):
            for key, values in said.items():
                check = self.checks[key[0]]
                is_early = check.block == "clock" and number == 0
                if check.kind in ("assume", "restrict") and "0" in values and not is_early:
                    return check, number
        return None

    def _is_early(self, it: Property) -> bool:
        """Whether the circuit says of a cycle what the simulation says at its end: an assumption at the clock is about the
        values that the edge samples."""
        is_at_clock = {self.checks[number].block for number in it.numbers} == {"clock"}
        return it.rows[0].kind == "assume" and self.player.timing.is_cycle and is_at_clock

    def _is_bad(self, it: Property, number: int) -> bool:
        column, bad = ("c", "0") if it.rows[0].kind == "assume" else ("b", "1")
        return any(self.frames[number][COLUMNS.index(column)][row.position] == bad for row in it.rows)

    @staticmethod
    def _keys(it: Property, among: Iterable[Key]) -> Set[Key]:
        """Its checks in the scope of its rows, or in all scopes if it has none there."""
        keys = {key for key in among if key[0] in it.numbers}
        return {key for key in keys if is_in(key[1], it.scope)} or keys


def _same(simulated: str, wanted: str) -> Tuple[bool, bool]:
    """Whether two values are the same but for x, and whether the simulator has an x."""
    has_x = False
    for one, other in zip(simulated.rjust(len(wanted), "0"), wanted):
        if other == "?":
            continue
        if one in "xz":
            has_x = True
        elif one != other:
            return False, has_x
    return True, has_x
