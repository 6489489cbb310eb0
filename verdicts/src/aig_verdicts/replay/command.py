"""The command `aig-verdicts replay`."""

from __future__ import annotations

import argparse
import sys
from pathlib import Path
from typing import List, Sequence

from ..audit.decisions import OPEN
from ..audit.recheck import recheck
from ..audit.row import Row
from ..audit.table import plain
from aig.tools import Stop, ToolFailed
from .words import NotReplayed
from .outcome import Outcome, Word
from .replay import Replay
from .simulator import Simulator

# How many random runs are played.
RANDOM_RUNS = 3


def replay(words: argparse.Namespace, stop: Stop) -> int:
    """Plays the runs of a bundle. Its status is 0 if each agrees and there are some, 5 if one disagrees, else 4."""
    if not words.bundle.exists():
        raise FileNotFoundError(f"there is no bundle {words.bundle}")
    bundle = recheck(words.bundle, stop=stop)
    if not bundle.manifest["sources"]:
        raise ToolFailed("the bundle has no sources")
    rows = _chosen(bundle.rows, words.only)
    simulator = Simulator(words.simulator, stop)
    try:
        playing = Replay(bundle, simulator, stop, words.hold)
    except NotReplayed as error:
        print(plain(f"not replayed: {error}"))
        return Word.NOT_REPLAYED.status
    name = Path(words.simulator).name if playing.name == simulator.name else playing.name
    if playing.limits:
        print(plain(playing.limits), file=sys.stderr)
    if playing.translated:
        print(plain(f"concurrent assertions are played as they were translated: {', '.join(playing.translated)}"))
    if words.to:
        words.to.mkdir(parents=True, exist_ok=True)
    outcomes: List[Outcome] = []
    for seed in range(1, RANDOM_RUNS + 1) if words.random else []:
        told = playing.random(words.random, seed)
        outcomes.append(told)
        print(plain(f"random run {seed} of {words.random} frames: {told.said_of_random(name)}"), flush=True)
    for row in rows:
        told = playing.row(row, words.to)
        outcomes.append(told)
        print(plain(f"{row.label}  {row.name}  {told.said(name)}"), flush=True)
    if words.verbose:
        for signal in playing.left_out:
            print(plain(f"not compared: {signal}"))
    left = f"; {len(playing.left_out)} signals were not compared" if playing.left_out else ""
    print(f"{len(outcomes)} runs in {playing.name}{left}", file=sys.stderr)
    return max((it.word.status for it in outcomes), default=OPEN)


def _chosen(rows: Sequence[Row], names: Sequence[str]) -> List[Row]:
    """The rows with a run, of these names or labels if there are any."""
    rows = [row for row in rows if row.kind in ("assert", "cover")]
    for name in names:
        if not any(name in (row.name, row.label) for row in rows):
            raise ToolFailed(f"there is no assertion {name}")
    return [row for row in rows if row.by == "run" and (not names or {row.name, row.label} & {*names})]
