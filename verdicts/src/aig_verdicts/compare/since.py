"""A run that begins with what is known of an earlier version of the design, and says what changed since."""

from __future__ import annotations

from contextlib import suppress
from pathlib import Path
from typing import Collection, Dict, List, Optional, Sequence

from aig.errors import AigError
from ..audit.bundle import Bundle
from ..audit.checked import CONSTRAINTS, Claim, Wrong, expect
from .command import last_line, write
from ..search.task import Hint
from .difference import Difference, difference
from ..audit.folder import CHANGES
from .matching import Version, pairs_of
from ..search.renamed import Renamed
from ..audit.row import Row
from ..search.session import Session
from .sides import BASELINE, baseline_of, side_of
from ..audit.table import Table


class Since:
    """An earlier version, beside a run of the new one.

    name      what it is called
    is_asked  whether the run was asked for what changed; else it says one line of it
    """

    def __init__(self, bundle: Bundle, session: Session, name: str, is_asked: bool):
        self._bundle, self._session, self.name, self.is_asked = bundle, session, name, is_asked
        self._old = baseline_of(bundle, session.stop)
        design = session.design
        self._new = Version(design.name, session.rows, design.circuit, design.sources, design.options)
        self._pairs = pairs_of(self._old.version, self._new)

    def hints(self, keeps_open: bool) -> Dict[int, Hint]:
        """What the search begins with, by position. Bounds are enough if open rows are kept, and the old search went as
        far as this one."""
        try:
            renamed = Renamed(self._old.version.circuit, self._new.circuit)
        except AigError:  # the old one is no circuit
            return {}
        is_enough = keeps_open and not self._session.goes_further_than(self._bundle.manifest)
        found: Dict[int, Hint] = {}
        for row in self._session.waiting():
            was = self._was(row)
            if was is not None and was.claim is not None:
                with suppress(Wrong, ValueError, IndexError):  # a file is missing, or is not what its role says
                    files = self._files(was.claim, row.position, renamed)
                    found[row.position] = Hint(was.claim.by, was.claim.frames, files, is_enough)
        return found

    def _was(self, row: Row) -> Optional[Row]:
        """The old row of a row, also of a condition and of the constraints."""
        if row.of is not None:
            of = self._pairs.old.get(row.of)
            return next((it for it in self._bundle.rows if it.of is not None and it.of == of), None)
        position = CONSTRAINTS if row.kind == "constraints" else self._pairs.old.get(row.position)
        return next((it for it in self._bundle.rows if it.position == position), None)

    def _files(self, claim: Claim, position: int, renamed: Renamed) -> Dict[str, bytes]:
        """The files of an old row with the names of the new circuit, by their roles."""
        files: Dict[str, bytes] = {}
        for role, name in claim.named:
            data = self._bundle.summed(name)
            made = (renamed.witness(data, position) if role in ("witness", "concrete") else
                    renamed.certificate(data) if role == "certificate" else data)
            expect(made is not None, f"{name} says nothing of the new circuit")
            files[role] = made or b""
        return files

    def difference(self, table: Table, only: Optional[Collection[int]]) -> Difference:
        """What changed, of these rows of the run."""
        new = side_of(self._new, table, self._session.folder.read)
        found = difference(self._old, new, BASELINE, only)
        if self.is_asked:
            write(found, self._session.folder.path / CHANGES, None, {})
        return found

    def last_line(self, found: Difference) -> str:
        """What changed, and of how many rows the earlier version had what shows them."""
        origins: List[str] = [row.origin for row in self._session.rows if row.origin]
        counts = ", ".join(f"{origins.count(it)} by an {it}" for it in sorted(set(origins)))
        return f"since {self.name}: {last_line(found)}" + f"; found {counts}" * bool(counts)


def opened(path: Optional[Path], folder: Path) -> Optional[Bundle]:
    """The earlier version that a run names, which is not the folder that it writes."""
    if path is None:
        return None
    if not path.exists():
        raise FileNotFoundError(f"there is no bundle {path}")
    expect(path.resolve() != folder.resolve(),
           f"--since {path}: this run writes that folder: name another one with --out")
    return Bundle(path)


def since_of(named: Optional[Bundle], name: str, session: Session) -> Optional[Since]:
    """The earlier version that a run names, or the results of other sources that were in its folder."""
    (session.folder.path / CHANGES).unlink(missing_ok=True)
    if named is not None:
        return Since(named, session, name, True)
    with suppress(Wrong):
        before = session.folder.before()
        return Since(before, session, "the sources before", False) if before is not None else None
    return None
