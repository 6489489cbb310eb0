"""Which programs a run calls, by its arguments."""

from __future__ import annotations

import argparse
from dataclasses import replace
from typing import Callable, Dict, Optional, Tuple

from .task import ENGINES, PDR, Programs
from .solvers import writes_hints
from aig.tools import ToolFailed, missing


def lost_without(words: argparse.Namespace) -> Dict[str, str]:
    """What is lost without each program that is missing, by what to say of it. A cluster has its own programs."""
    found = {missing(words.solver): "nothing is shown to hold, and runs are those of ABC alone"}
    if words.abc and PDR in _engines(words):
        found[missing(words.abc)] = "no invariants and no long runs are found"
    return {said: lost for said, lost in found.items() if said and not words.dask}


def _engines(words: argparse.Namespace) -> Tuple[str, ...]:
    """What is tried: all engines, if none is named."""
    return tuple(it for it in ENGINES if it in words.engines) or ENGINES


def programs_of(words: argparse.Namespace) -> Programs:
    """The programs. Hints are those of `drat2lrat`, or else the solver's own. A cluster has its own programs."""
    without_hints = Programs(words.solver, words.abc or None, engines=_engines(words))
    if words.verb == "cores" or not words.hints and words.drat2lrat is None:
        return without_hints
    return replace(without_hints, drat2lrat=_hinting(words, "--hints"))


def _hinting(words: argparse.Namespace, what: str) -> Optional[str]:
    """The program that adds hints, which an option needs; none if the solver writes them."""
    name: str = words.drat2lrat if words.drat2lrat is not None else "drat2lrat"
    said = "" if words.dask else missing(name)
    if not said:
        return name
    if words.drat2lrat is None and writes_hints(words.solver):
        return None
    raise ToolFailed(f"{what}: {said}, and {words.solver} writes no LRAT; the sources of aig have it "
                     "(tests/hints/drat2lrat.cpp)")


def tracing(words: argparse.Namespace, say: Callable[[str], None]) -> Optional[str]:
    """The program that shows what a proof used; none if the solver does, or if it has to be tried."""
    try:
        return _hinting(words, "--drat2lrat")
    except ToolFailed as error:
        if words.drat2lrat is not None:
            raise
        if not words.quiet:
            say(f"{str(error).replace('--drat2lrat: ', '')}: what proofs need is found by trying, which takes longer")
        return None
