"""What `aig-verdicts run` asks a simulator: to play each run, and random ones for a while."""

from __future__ import annotations

import os
from concurrent.futures import ThreadPoolExecutor
from typing import Dict, List, NamedTuple, Sequence, Union

from ..audit.bundle import Bundle
from ..audit.row import Row
from ..audit.sentences import DISAGREES, happens
from ..audit.simulated import AGREES, AsIn, Said, Simulated
from aig.tools import Clock, Stop
from .words import NotReplayed
from .outcome import Outcome, Word, named
from .replay import Replay
from .simulator import Simulator

# Random runs are played for so many seconds, or for a part of the search; at least three, of so many frames.
LEAST_SECONDS, PART = 2.0, 0.05
LEAST_RUNS, MOST_RUNS, FRAMES = 3, 100, 50


class Bounds(NamedTuple):
    """How long a search took, how many runs are played at once, and what chooses the random ones."""

    search_seconds: float
    jobs: int
    seed: int = 0


def simulated(bundle: Bundle, rows: Sequence[Row], program: str, bounds: Bounds, stop: Stop) -> Simulated:
    """What a simulator says of the circuit of a bundle, and of these rows."""
    simulator = Simulator(program, stop)
    try:
        replay = Replay(bundle, simulator, stop, seed=bounds.seed)
    except NotReplayed as error:
        return _silent(simulator.name, f"{simulator.name} cannot play the design: {error}")
    name, outcomes = replay.name, _random(replay, max(LEAST_SECONDS, PART * bounds.search_seconds))
    played = [row for row in rows if row.by == "run" and row.kind in ("assert", "cover")]
    with ThreadPoolExecutor(bounds.jobs or os.cpu_count() or 1) as pool:
        of_rows = list(zip(played, pool.map(replay.row, played)))
    said = {row.position: _said(told, row, name) for row, told in of_rows}
    against = next((it for it in [*outcomes, *(told for _, told in of_rows)] if it.is_against), None)
    if against is not None:
        for row in rows:
            differences = [it for it in against.differences if it.name == row.name and it.file == row.file]
            if differences and (row.position not in said or said[row.position].word != DISAGREES):
                said[row.position] = Said(DISAGREES, f"{name}: {named(differences)}")
        return Simulated(name, f"{name} disagrees with the circuit: {named(against.differences)}{_seed(bounds)}", False, said)
    denied = next(((row, told) for row, told in of_rows if told.word is Word.DISAGREES), None)
    if denied is not None:
        return Simulated(name, f"{name} disagrees with the circuit: {denied[0].name}: {denied[1].why}{_seed(bounds)}", False, said)
    unplayed = sum(told.word is Word.NOT_REPLAYED for _, told in of_rows)
    as_in = _as_in(outcomes, replay, bounds.seed, unplayed)
    if isinstance(as_in, str):
        return _silent(name, as_in, said)
    return Simulated(name, as_in.said, True, said, as_in)


def _silent(name: str, why: str, said: Dict[int, Said] = {}) -> Simulated:
    """A simulator that says nothing of the circuit."""
    return Simulated(name, why, None, said, why=why)


def _seed(bounds: Bounds) -> str:
    return f" (seed {bounds.seed})" if bounds.seed else ""


def _random(replay: Replay, seconds: float) -> List[Outcome]:
    """Random runs, until one disagrees or the time is over."""
    clock, outcomes = Clock(), []
    for number in range(1, MOST_RUNS + 1):
        outcomes.append(replay.random(FRAMES, number))
        if outcomes[-1].word is not Word.AGREES or number >= LEAST_RUNS and clock() > seconds:
            break
    return outcomes


def _as_in(outcomes: Sequence[Outcome], replay: Replay, seed: int, unplayed: int) -> Union[AsIn, str]:
    """What was compared in random runs, or why nothing was. How many more runs there are depends on the time."""
    played = outcomes[:LEAST_RUNS]
    silent = next((it for it in played if it.word is not Word.AGREES), None)
    if silent is not None:
        return f"{replay.name} did not play a random run: {silent.why}"
    values = sum(it.values for it in played)
    if not values:
        return f"Nothing of the circuit could be compared in {replay.name}"
    unasked = replay.asserted - {name for it in played for name in it.seen}
    rowless = sorted({place for it in played for place in it.without_row})
    return AsIn(replay.name, max(it.signals for it in played), values, sum(it.unknown for it in played), len(replay.left_out),
                len(unasked), tuple(rowless), unplayed, bool(replay.translated), seed, replay.limits)


def _said(told: Outcome, row: Row, name: str) -> Said:
    if told.word is Word.AGREES:
        return Said(AGREES, f"Played in {name}: {happens(row)} there, too")
    return Said(DISAGREES if told.word is Word.DISAGREES else "open", told.said(name))
