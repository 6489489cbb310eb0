"""What else changed between two versions, and lets assertions hold that did not: assumptions, and how the sources are
read. A verdict that holds under more assumptions says less."""

from __future__ import annotations

import re
from collections import Counter
from typing import Dict, Iterator, List, Sequence

from aig.program import run as aig
from aig.entries import listed
from .changes import Beside
from ..audit.decisions import GOOD, OPEN
from .matching import Version
from .texts import Words

MOST_LETTERS = 100
_LINE = re.compile(r":\d+(#\d+)?$")


def surroundings(old: Version, new: Version) -> List[Beside]:
    return [*_assumptions(old, new), *_kept(old, new), *_options(old, new)]


def _assumptions(old: Version, new: Version) -> Iterator[Beside]:
    """Assumptions whose texts or names are new or gone. Their lines may be others."""
    texts: List[Dict[Words, int]] = [it.texts.assumptions() for it in (old, new)]
    names = [_names(it) for it in (old, new)]
    more = [_shown(it) for it in Counter(texts[1]) - Counter(texts[0])] or [*(names[1] - names[0])]
    less = [_shown(it) for it in Counter(texts[0]) - Counter(texts[1])] or [*(names[0] - names[1])]
    for found, word, status in ((more, "new", OPEN), (less, "gone", GOOD)):
        if found:
            yield Beside(f"{_counted(len(found))} {word}: {found[0]}", status)


def _names(version: Version) -> Counter[str]:
    """The names of the assumptions in the circuit, without their lines."""
    entries = listed(aig("info", "--names", "--json", files=[version.circuit]))
    return Counter(_LINE.sub("", it.name) or "one without a name" for it in entries if it.letter == "c")


def _shown(words: Words) -> str:
    text = " ".join(words)
    return text if len(text) <= MOST_LETTERS else f"{text[:MOST_LETTERS]}.."


def _counted(count: int) -> str:
    return "an assumption is" if count == 1 else f"{count} assumptions are"


def _kept(old: Version, new: Version) -> Iterator[Beside]:
    """Whether it is still known that some run keeps the assumptions."""
    if _keeps(old) and not _keeps(new) and any(_names(new)):
        yield Beside("that a run keeps the assumptions is not known any more", OPEN)


def _keeps(version: Version) -> bool:
    row = next((row for row in version.rows if row.kind == "constraints"), None)
    claim = row and (row.checked.claim if row.checked else row.claim)
    return bool(claim and claim.by == "kept")


def _options(old: Version, new: Version) -> Iterator[Beside]:
    """How the sources are read."""
    if not (old.options and new.options):
        return
    if old.options.get("conditions") and not new.options.get("conditions"):
        yield Beside("whether the conditions of assertions are ever true is not asked any more", OPEN)
    for name, said in (("defines", "macros"), ("parameters", "parameters"), ("free", "free modules and signals")):
        was, now = (_list(it.options.get(name, [])) for it in (old, new))
        if was != now:
            yield Beside(f"the {said} are {now}, and were {was}", GOOD)
    if old.name != new.name:
        yield Beside(f"the top module is {new.name}, and was {old.name}", GOOD)


def _list(names: Sequence[str]) -> str:
    return ", ".join(names) or "none"
