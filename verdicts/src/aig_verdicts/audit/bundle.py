"""Reads a folder of results, or a .zip of it. Every byte of it may be hostile: names, links, sizes, texts."""

from __future__ import annotations

import io
import os
import stat
import zipfile
from contextlib import ExitStack
from pathlib import Path
from typing import Any, Dict, List, Optional, Union

from aig.program import OftenRead
from .checked import CIRCUIT, Wrong, expect, sum_of
from .manifest import MANIFEST, PLAIN, WITH_CUTS, files_of, parsed, row_of
from .row import Row
from .unread import Unread, of_sources

MOST_BYTES = 1 << 30
# Of all files of a .zip together, once they are unpacked.
MOST_UNPACKED = 1 << 34
MOST_OF_MANIFEST = 1 << 26
# A file of a .zip may be so large, or so many times as large as it is packed: 1 MB of a .zip can be 1 GB of zeros.
MOST_TIGHT, TIGHT_MANIFEST, MOST_TIMES = 1 << 26, 1 << 22, 100
_PIECE = 1 << 20
# Of the list of files in a .zip.
MOST_OF_LIST = 1 << 25
PLAIN_FILE = 0o100000
# By this file a run keeps others out of its folder. A .zip of the folder may have it, and nothing reads it.
LOCK = ".lock"
_ENCRYPTED = 1
_PACKED = (zipfile.ZIP_STORED, zipfile.ZIP_DEFLATED)

__all__ = ["Bundle", "PlainFolder", "Row", "Wrong", "sum_of"]


class PlainFolder:
    """The files of a folder. No link is followed, and nothing but a plain file is opened."""

    def __init__(self, path: Path):
        self._path = path

    def read(self, name: str, most: int) -> bytes:
        *folders, last = name.split("/")
        with ExitStack() as stack:

            def opened(path: Union[str, Path], flags: int, at: Optional[int] = None) -> int:
                descriptor = os.open(path, os.O_RDONLY | os.O_CLOEXEC | flags, dir_fd=at)
                stack.callback(os.close, descriptor)
                return descriptor

            at = opened(self._path, os.O_DIRECTORY)
            for folder in folders:
                at = opened(folder, os.O_DIRECTORY | os.O_NOFOLLOW, at)
            _expect_plain(name, os.stat(last, dir_fd=at, follow_symlinks=False))
            file = opened(last, os.O_NOFOLLOW | os.O_NONBLOCK, at)
            facts = os.fstat(file)
            _expect_plain(name, facts)
            expect(facts.st_size <= most, f"{name} is too large")
            with os.fdopen(os.dup(file), "rb") as stream:
                data = stream.read(facts.st_size + 1)
        return data


def _expect_plain(name: str, facts: os.stat_result) -> None:
    expect(stat.S_ISREG(facts.st_mode), f"{name} is no plain file")


class _Modest(io.BufferedReader):
    """A .zip, of which no more is read at once than the longest list of files."""

    def read(self, size: Optional[int] = -1, /) -> bytes:
        expect(size is None or size <= MOST_OF_LIST, "its list of files is too large")
        return super().read(MOST_OF_LIST if size is None or size < 0 else size)


class _Zip:
    """The files of a .zip, beside each other or in one folder."""

    def __init__(self, path: Path):
        stream = _Modest(io.FileIO(path))
        try:
            self._file = zipfile.ZipFile(stream)
        except Exception as error:  # of a broken .zip, each of its layers raises errors of its own
            stream.close()
            raise Wrong(f"{path.name} is neither a folder nor a .zip: {error}") from None
        entries = [entry for entry in self._file.infolist() if not entry.is_dir()]
        names = [entry.filename for entry in entries]
        tops = {name.split("/", 1)[0] for name in names}
        self._top = f"{tops.pop()}/" if len(tops) == 1 and MANIFEST not in names else ""
        expect(len(set(names)) == len(names), "the .zip has a name twice")
        expect(sum(entry.file_size for entry in entries) <= MOST_UNPACKED, "the .zip is too large")
        for entry in self._file.infolist():
            self._look(entry)

    def _look(self, entry: zipfile.ZipInfo) -> None:
        name = entry.filename.rstrip("/") if entry.is_dir() else entry.filename
        plain = name[len(self._top):] if name.startswith(self._top) else name
        is_plain = plain == LOCK or PLAIN.fullmatch(plain) is not None
        expect(is_plain and "\0" not in entry.orig_filename, f"the .zip has the name {name!r}")
        expect(not entry.flag_bits & _ENCRYPTED, f"{name} is encrypted")
        expect(entry.compress_type in _PACKED, f"{name} is packed in a strange way")
        kind = stat.S_IFMT(entry.external_attr >> 16)
        expect(kind in (0, PLAIN_FILE) or entry.is_dir(), f"{name} is no plain file")
        expect(not entry.is_dir() or entry.file_size == 0, f"{name} is a folder with bytes")

    def read(self, name: str, most: int) -> bytes:
        try:
            entry = self._file.getinfo(self._top + name)
            expect(entry.file_size <= most, f"{name} is too large")
            tight = TIGHT_MANIFEST if name == MANIFEST else MOST_TIGHT
            expect(entry.file_size <= max(tight, MOST_TIMES * entry.compress_size),
                   f"{name} has {entry.file_size >> 20:,} MB, over {MOST_TIMES} times as many as in the .zip: unpack it yourself")
            with self._file.open(entry) as file:
                return b"".join(iter(lambda: file.read(_PIECE), b""))
        except Wrong:
            raise
        except Exception as error:
            raise Wrong(f"{name}: {type(error).__name__}: {error}") from None


class Bundle:
    """A folder or a .zip with its manifest and its rows. Only their form is checked yet, and no row has a verdict."""

    def __init__(self, path: Path, most_bytes: int = MOST_BYTES):
        self._files: Union[PlainFolder, _Zip] = _Zip(path) if path.is_file() else PlainFolder(path)
        self._most = most_bytes
        self.manifest: Dict[str, Any] = parsed(self._read(MANIFEST, min(most_bytes, MOST_OF_MANIFEST)))
        self.rows: List[Row] = [row_of(value) for value in self.manifest["rows"]]
        self.unread: List[Unread] = of_sources(self.manifest["unread"])
        has_cuts = any(row.claim is not None and row.claim.cut for row in self.rows)
        expect((self.manifest["format"] == WITH_CUTS) == has_cuts, "format of MANIFEST.json")
        names = files_of(self.manifest, self.rows)
        expect(len(set(names)) == len(names), "a file belongs to two rows")
        expect(set(names) == set(self.sums), "the sums are not those of the files of the rows, each once")

    @property
    def sums(self) -> Dict[str, str]:
        sums: Dict[str, str] = self.manifest["sums"]
        return sums

    def read(self, name: str) -> bytes:
        """The bytes of a file, which has a plain name."""
        expect(PLAIN.fullmatch(name) is not None, f"the name {name!r}")
        return self._read(name, self._most)

    def _read(self, name: str, most: int) -> bytes:
        try:
            data = self._files.read(name, most)
        except (OSError, MemoryError) as error:
            raise Wrong(f"{name}: {getattr(error, 'strerror', None) or error or 'out of memory'}") from None
        expect(len(data) <= most, f"{name} is too large")
        return data

    def summed(self, name: str) -> bytes:
        """The bytes of a file, which has the sum of the manifest."""
        data = self.read(name)
        expect(sum_of(data) == self.sums.get(name), f"{name} has another sum")
        return data

    def circuit(self) -> bytes:
        return OftenRead(self.summed(CIRCUIT))

    def source(self, name: str) -> Optional[bytes]:
        """A source, if it is there."""
        try:
            return self.summed(f"sources/{name}")
        except Wrong:
            return None
