"""Writes a folder of results, which is a bundle at each moment: files come before the manifest that names them."""

from __future__ import annotations

import errno
import json
import os
import shlex
import shutil
import zipfile
from contextlib import contextmanager, suppress
from pathlib import Path
from typing import IO, Any, Dict, Iterable, Iterator, List, Optional, Sequence, Set

try:
    import fcntl
except ImportError:  # no Unix
    fcntl = None  # type: ignore[assignment]

from .bundle import LOCK, MOST_BYTES, PLAIN_FILE, Bundle, PlainFolder, Wrong, sum_of
from .checked import CONSTRAINTS, CUT, NEEDED, Claim, expect
from .manifest import MANIFEST, as_json
from .needed import FOLDER as RUNS
from .row import Row

PAGE, SCRIPT, TIMES = "index.html", "recheck.sh", "times.json"
# The files that the run was given, by their paths from the folder. It is in no .zip.
FILES = "files.json"
# The page of what changed since another version.
CHANGES = "changes.html"
# What `recheck.sh` has in place of a circuit that another command writes.
STREAM = "/dev/stdin"
# The folder of the results of other sources, until all rows of these are there.
BEFORE = "before"
# Of the same year in each .zip, so that the same files give the same bytes.
_DATE = (1980, 1, 1, 0, 0, 0)


class BusyFolder(OSError):
    """Two runs may not write one folder."""


@contextmanager
def replaced(path: Path) -> Iterator[IO[bytes]]:
    """A new file, which takes the place of the old one at the end: at any moment the file has its old bytes or the new
    ones. No link is followed, as somebody else may have made the folder."""
    new = path.parent / f".{path.name}.new"
    try:
        new.unlink(missing_ok=True)
        with new.open("xb") as file:
            yield file
        os.replace(new, path)
    finally:
        with suppress(OSError):
            new.unlink()


def write_whole(path: Path, data: bytes) -> None:
    with replaced(path) as file:
        file.write(data)


class Folder:
    """A folder of results. No other run may write it until it is closed, and no file over `most` bytes is read."""

    def __init__(self, path: Path, most: int = MOST_BYTES):
        self.path, self._most = path, most
        self.sums: Dict[str, str] = {}
        path.mkdir(parents=True, exist_ok=True)
        flags = os.O_RDWR | os.O_CREAT | os.O_CLOEXEC | os.O_NOFOLLOW | os.O_NONBLOCK
        self._lock: Optional[int] = os.open(path / LOCK, flags, 0o666)
        if fcntl is not None:
            try:
                fcntl.flock(self._lock, fcntl.LOCK_EX | fcntl.LOCK_NB)
            except OSError as error:
                self.close()
                if error.errno not in (errno.EWOULDBLOCK, errno.EACCES):
                    raise
                raise BusyFolder(f"{path}: another run works in this folder") from None

    def close(self) -> None:
        if self._lock is not None:
            os.close(self._lock)
            self._lock = None

    def read(self, name: str) -> bytes:
        return PlainFolder(self.path).read(name, self._most)

    def has(self, name: str, data: bytes) -> bool:
        """Whether the folder has a file with these bytes."""
        try:
            return self.read(name) == data
        except (OSError, Wrong):
            return False

    def put(self, name: str, data: bytes) -> None:
        path = self.path / name
        if path.parent != self.path and path.parent.is_symlink():
            path.parent.unlink()
        path.parent.mkdir(exist_ok=True)
        write_whole(path, data)
        self.sums[name] = sum_of(data)

    def take(self, files: Dict[str, bytes]) -> None:
        """Writes these files."""
        for name, data in files.items():
            self.put(name, data)

    def remove(self, name: str) -> None:
        self.sums.pop(name, None)
        try:
            (self.path / name).unlink()
        except FileNotFoundError:
            pass

    def set_aside(self) -> None:
        """Copies the results that are here into a folder, as another circuit comes. Results that are there already
        stay: these here are of a run that was stopped."""
        to = self.path / BEFORE
        if to.exists() or to.is_symlink():
            return
        new = self.path / f".{BEFORE}.new"
        shutil.rmtree(new, ignore_errors=True)
        try:
            old = Bundle(self.path, self._most)
            for name in [MANIFEST, *old.sums]:
                (new / name).parent.mkdir(parents=True, exist_ok=True)
                (new / name).write_bytes(old.read(name) if name == MANIFEST else old.summed(name))
        except Wrong:
            shutil.rmtree(new, ignore_errors=True)
            return
        new.rename(to)

    def before(self) -> Optional[Bundle]:
        """The results of other sources, if they are here."""
        try:
            return Bundle(self.path / BEFORE, self._most)
        except Wrong:
            return None

    def forget_before(self) -> None:
        shutil.rmtree(self.path / BEFORE, ignore_errors=True)

    def note_files(self, files: Sequence[Path]) -> None:
        """Writes which files these results are of."""
        write_whole(self.path / FILES, (json.dumps(sorted(_from(self.path, files))) + "\n").encode())

    def clean(self) -> None:
        """Removes the files of results that have no row any more."""
        runs = self.path / RUNS
        if runs.is_symlink():
            runs.unlink()
        for path in [*self.path.iterdir(), *(runs.iterdir() if runs.is_dir() else ())]:
            is_of_row = path.name.endswith((".wit", ".drat", ".lrat", ".cert.aag", ".cuts", ".new"))
            if is_of_row and str(path.relative_to(self.path)) not in self.sums:
                path.unlink()

    def write(self, manifest: Dict[str, Any]) -> None:
        write_whole(self.path / MANIFEST, as_json({**manifest, "sums": dict(sorted(self.sums.items()))}))

    def write_last(self, rows: Iterable[Row], seconds: Dict[int, float]) -> None:
        """What a run writes at its end: the script, and the times."""
        write_whole(self.path / SCRIPT, script(rows))
        times = {str(key): round(value, 1) for key, value in sorted(seconds.items())}
        write_whole(self.path / TIMES, (json.dumps(times) + "\n").encode())


def folder_of(out: Optional[Path], name: str, files: Sequence[Path]) -> Path:
    """The folder of a run of these files: the one that it names, or NAME.verdicts. Results of another design of that name stay
    as they are: without files that were there before, it is another one."""
    if out is not None:
        return out
    path = Path(f"{name}.verdicts")
    old, new = _files_of(path), _from(path, files)
    expect(old is None or old <= new or new <= old, f"{path} has the results of other files: name another folder with --out")
    return path


def _from(folder: Path, files: Iterable[Path]) -> Set[str]:
    """The paths of files from a folder."""
    return {os.path.relpath(file.resolve(), folder.resolve()) for file in files}


def _files_of(path: Path) -> Optional[Set[str]]:
    """The files that results are of, by their paths from the folder, if it says them."""
    try:
        found = json.loads(PlainFolder(path).read(FILES, MOST_BYTES))
    except (OSError, Wrong, ValueError, RecursionError, MemoryError):
        return None
    return set(found) if type(found) is list and all(type(it) is str for it in found) else None


_SCRIPT = """\
#!/bin/sh
# Checks each verdict of this folder again. usage: sh recheck.sh   (AIG names another program aig)
case $0 in */*) CDPATH= cd -- "${0%/*}" || exit 3 ;; esac
aig=${AIG:-aig}
wrong=0
# check LINE WORD ..: aig has to print this line
check() {
    line=$1
    shift
    if [ "$("$aig" "$@")" = "$line" ]; then
        printf '%s: %s\\n' "$line" "$*"
    else
        printf 'WRONG: aig %s does not print "%s"\\n' "$*" "$line" >&2
        wrong=1
    fi
}
# cut CUTS LINE WORD ..: the same of the circuit without what a file cuts
cut() {
    cuts=$1
    line=$2
    shift 2
    if [ "$("$aig" cut --to aag --cuts "$cuts" circuit.aig | "$aig" "$@")" = "$line" ]; then
        printf '%s: cut --cuts %s, %s\\n' "$line" "$cuts" "$*"
    else
        printf 'WRONG: cut by %s, aig %s does not print "%s"\\n' "$cuts" "$*" "$line" >&2
        wrong=1
    fi
}
# of FILE PROPERTY LINES: the witness has to be for this property, and of this length
of() {
    if [ "$(sed -n 2p "$1")" != "$2" ] || [ "$(sed -n '$=' "$1")" != "$3" ]; then
        printf 'WRONG: %s is no witness of %s of this length\\n' "$1" "$2" >&2
        wrong=1
    fi
}
"""


def script(rows: Iterable[Row]) -> bytes:
    """The checks of `recheck` for a shell, without Python: `sh recheck.sh`."""
    lines: List[str] = []
    for row in rows:
        claim = row.checked.claim if row.checked is not None else row.claim
        for it in [claim, *([run.claim for run in row.runs] or row.needed)]:
            lines += _lines_of(it) if it is not None else []
    return (_SCRIPT + "\n".join([*lines, "exit $wrong"]) + "\n").encode()


def _lines_of(claim: Claim) -> List[str]:
    """The lines of the script that check a claim."""
    lines = []
    if claim.by == "run" or claim.by == NEEDED and claim.position != CONSTRAINTS:
        runs = [claim.files[role] for role in ("witness", "concrete") if role in claim.files]
        lines += [f"of {name} {claim.label} {claim.frames + 4}" for name in runs]
    call = f"cut {claim.files['cuts']}" if claim.cut else "check"
    return lines + [f"{call} {_of_shell([line, *(STREAM if it == CUT else it for it in words)])}"
                    for line, words in claim.commands()]


def _of_shell(words: Iterable[str]) -> str:
    return " ".join(map(shlex.quote, words))


def pack(folder: Path, to: Path) -> None:
    """The bundle as a .zip: the same files give the same bytes."""
    manifest = json.loads((folder / MANIFEST).read_bytes())
    more = {it for it in (SCRIPT, PAGE) if (folder / it).exists()}
    with replaced(to) as stream, zipfile.ZipFile(stream, "w", zipfile.ZIP_DEFLATED) as file:
        for name in sorted({MANIFEST, *manifest["sums"]} | more):
            entry = zipfile.ZipInfo(f"{folder.resolve().name}/{name}", _DATE)
            entry.external_attr, entry.compress_type = (PLAIN_FILE | 0o644) << 16, zipfile.ZIP_DEFLATED
            file.writestr(entry, (folder / name).read_bytes())
