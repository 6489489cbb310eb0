"""A circuit on its way to those who work on its tasks: in this process, in another one, or on another machine."""

from __future__ import annotations

import threading
import zlib
from dataclasses import dataclass, field
from pathlib import Path
from typing import Dict, Optional

from aig.program import OftenRead
from aig.tools import ToolFailed

# The circuit that came last to this process, by its sum: the next tasks are most often about the same one.
_arrived: Dict[str, OftenRead] = {}
_arriving = threading.Lock()


@dataclass(frozen=True)
class Sent:
    """A circuit: its bytes, compressed, or the path of a file that has this sum. Where it was sent from it is there
    already, and no bytes are unpacked."""

    sum: str
    packed: bytes = b""
    path: str = ""
    here: Optional[OftenRead] = field(default=None, compare=False, repr=False)

    @staticmethod
    def of(circuit: bytes) -> Sent:
        known = OftenRead.of(circuit)
        return Sent(known.sum, zlib.compress(known, 1), here=known)

    @staticmethod
    def at(path: Path) -> Sent:
        return Sent(OftenRead(path.read_bytes()).sum, path=str(path.resolve()))

    def __getstate__(self) -> Dict[str, object]:
        return {**vars(self), "here": None}

    def circuit(self) -> OftenRead:
        """The circuit. Many tasks of a process get the same one: it is unpacked and summed once."""
        if self.here is not None:
            return self.here
        with _arriving:
            known = _arrived.get(self.sum)
            if known is None:
                known = OftenRead(Path(self.path).read_bytes() if self.path else zlib.decompress(self.packed))
                if known.sum != self.sum:
                    raise ToolFailed(f"{self.path or 'the circuit'} has another sum than when it was sent")
                _arrived.clear()
                _arrived[self.sum] = known
        return known
