"""Circuits that Yosys made before, in a folder of the user's own, and not in that of results: a bundle may be of anybody. A
circuit is found again only if all that it was made of is the same, by sums: sources, options, Yosys, `aig` and this
package. `recheck` never looks here."""

from __future__ import annotations

import base64
import hashlib
import json
import os
import shutil
import tempfile
from contextlib import suppress
from functools import lru_cache
from pathlib import Path
from typing import Any, Dict, List, Mapping, Optional, Sequence

from aig.program import program
from aig.tools import Stop, version

# The last circuits are kept, as long as they have no more bytes than this together.
MOST_BYTES = 1 << 29
_PACKAGE = Path(__file__).resolve().parent.parent


def folder_of_user() -> Path:
    """The folder for what programs keep, as the XDG Base Directory Specification has it."""
    kept = os.environ.get("XDG_CACHE_HOME", "")
    return Path(kept if os.path.isabs(kept) else Path.home() / ".cache") / "aig-verdicts"


def sum_of(data: bytes) -> str:
    return hashlib.sha256(data).hexdigest()


@lru_cache(maxsize=1)
def _package() -> str:
    """A sum of this package."""
    files = sorted(_PACKAGE.rglob("*.py"))
    sums = (f"{it.relative_to(_PACKAGE)} {sum_of(it.read_bytes())}\n" for it in files)
    return sum_of("".join(sums).encode())


def _program(name: str) -> List[Any]:
    """Which file a program is."""
    path = os.path.realpath(shutil.which(name) or name)
    with suppress(OSError):
        facts = os.stat(path)
        return [path, facts.st_size, facts.st_mtime_ns]
    return [path]


def parts_of(texts: Mapping[str, bytes], read: Sequence[str], options: Mapping[str, Any], yosys: str,
             stop: Stop) -> Dict[str, Any]:
    """All that a circuit is made of."""
    return {"sources": [[name, sum_of(text)] for name, text in texts.items()], "read": list(read), "options": dict(options),
            "yosys": [version(yosys, stop), *_program(yosys)], "aig": _program(program()), "package": _package()}


def _text(value: Any) -> bytes:
    return json.dumps(value, sort_keys=True).encode()


class Store:
    """A folder of circuits. Where it cannot be read or written, nothing is found and nothing is kept."""

    def __init__(self, folder: Path):
        self._folder = folder

    def _path(self, parts: Mapping[str, Any]) -> Path:
        return self._folder / f"{sum_of(_text(parts))}.json"

    def find(self, parts: Mapping[str, Any]) -> Optional[Dict[str, Any]]:
        """What was kept of these parts. A file that is broken, or was made of others, is as none."""
        path = self._path(parts)
        with suppress(OSError, ValueError, TypeError, KeyError, RecursionError, MemoryError):
            sum, _, data = path.read_bytes().partition(b"\n")
            kept = json.loads(data)
            if sum.decode() == sum_of(data) and kept["parts"] == json.loads(_text(parts)):
                os.utime(path)
                found: Dict[str, Any] = kept["made"]
                return found
        return None

    def keep(self, parts: Mapping[str, Any], made: Dict[str, Any]) -> None:
        """Keeps what was made. The name of the file is there only once all of it is."""
        data = _text({"parts": parts, "made": made})
        if len(data) > MOST_BYTES:
            return
        with suppress(OSError):
            self._folder.mkdir(mode=0o700, parents=True, exist_ok=True)
            with tempfile.NamedTemporaryFile(dir=self._folder, prefix=".new-", delete=False) as file:
                file.write(sum_of(data).encode() + b"\n" + data)
            os.replace(file.name, self._path(parts))
            self._forget()

    def _forget(self) -> None:
        """Forgets all circuits but the last ones, and what a run that died left."""
        size = 0
        for path in sorted(self._folder.glob("*.json"), key=lambda it: it.stat().st_mtime_ns, reverse=True):
            size += path.stat().st_size
            if size > MOST_BYTES:
                path.unlink(missing_ok=True)
        for path in self._folder.glob(".new-*"):
            path.unlink(missing_ok=True)


def packed(data: bytes) -> str:
    return base64.b64encode(data).decode()


def unpacked(text: str) -> bytes:
    return base64.b64decode(text, validate=True)
