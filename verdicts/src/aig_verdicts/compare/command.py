"""The command `compare`, and the difference of a run or a re-check to an earlier version."""

from __future__ import annotations

import argparse
import sys
from pathlib import Path
from typing import Dict, Optional

from ..audit.audited import audited, table_of
from ..audit.bundle import Bundle
from .difference import Difference, difference
from .page import DifferencePage
from ..audit.folder import write_whole
from ..audit.manifest import as_json
from .matching import Version
from ..audit.recheck import recheck
from .sides import CHECKED, Side, checked_side, side_of
from ..audit.simulated import Simulated, of_facts
from ..audit.table import plain
from aig.tools import Stop
from .again import Remade, same_design


def compare(words: argparse.Namespace, stop: Stop) -> int:
    """Checks two bundles, and says what changed from the first one to the second."""
    sides = []
    for path in (words.old, words.new):
        bundle = checked(path, words, stop)
        sides.append(checked_side(bundle, of_facts(bundle.manifest["simulated"])))
    found = difference(sides[0], sides[1], CHECKED)
    write(found, words.page, words.junit, {})
    if words.json:
        sys.stdout.write(as_json(found.json()).decode())
    else:
        sys.stdout.write(found.text(words.all))
    sys.stdout.flush()
    print(f"{last_line(found)}; {found.basis}", file=sys.stderr)
    return found.status


def against(words: argparse.Namespace, new: Side, of_new: Optional[Remade], stop: Stop) -> Difference:
    """What changed to a re-checked bundle from an older one, which is checked in the same way. Of neither is anything
    shown but names. `of_new` is what Yosys makes of the newer sources, if it was asked."""
    bundle = checked(words.since, words, stop)
    of_old = same_design(bundle, stop) if words.yosys else None
    shown = audited(bundle, "", Simulated(), False, words.yosys)
    old = side_of(Version.of(bundle), table_of(bundle, bundle.rows), shown.read)
    of_both = of_old if of_old is of_new else Remade.EQUAL
    return difference(old, new, CHECKED + (f", and {of_both.value}, of both" if of_both else ""))


def checked(path: Path, words: argparse.Namespace, stop: Stop) -> Bundle:
    if not path.exists():
        raise FileNotFoundError(f"there is no bundle {path}")
    return recheck(path, jobs=words.jobs, stop=stop, most_bytes=words.megabytes << 20)


def write(found: Difference, page: Optional[Path], junit: Optional[Path], seconds: Dict[int, float]) -> None:
    """Writes the page and the JUnit of a difference, if they are asked for."""
    if page:
        write_whole(page, DifferencePage(found).html().encode("utf-8", "replace"))
    if junit:
        write_whole(junit, found.junit(seconds).encode("utf-8", "replace"))


def last_line(found: Difference) -> str:
    beside = "".join(f"; {it.said}" for it in found.beside)
    return plain(f"{found.summary}{beside}")
