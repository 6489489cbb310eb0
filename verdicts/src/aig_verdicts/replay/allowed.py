"""What sources may have where a simulator runs them. A bundle may be somebody else's: what it prints could be taken for the
values of its signals, and what it reads or ends is not the testbench's own."""

from __future__ import annotations

import re
import tempfile
from pathlib import Path
from typing import Dict, List

from ..reading.sources import Sources
from aig.tools import ToolFailed
from .words import NotReplayed

# The files that a run of the simulator writes into its folder.
OWN_FILES = ("aig_tb.v", "aig.vvp", "aig.pre.v", "aig.begin.v", "out", "err")
_INCLUDE = re.compile(r"`include\b(?:\s*\"(?P<name>[^\"\n]*)\")?")
_PLAIN = re.compile(r"[A-Za-z0-9_+-][A-Za-z0-9._+-]*")


def look_at_files(sources: Dict[str, str]) -> None:
    """That no source has the name of a file of the testbench, includes a file from elsewhere, or says of itself where its
    lines come from."""
    for name, text in sources.items():
        if name in OWN_FILES:
            raise NotReplayed(f"a source has the name {name}, which a testbench needs")
        if "`line" in text:
            raise NotReplayed(f"{name}: `line")
        for found in _INCLUDE.finditer(text):
            if found["name"] is None or not _PLAIN.fullmatch(found["name"]):
                line = text.count("\n", 0, found.start()) + 1
                raise NotReplayed(f"{name}:{line}: `include of a file that is not in the bundle")


def read_by_themselves(sources: Dict[str, str]) -> List[str]:
    """The sources that no other one includes or reads as data, in their order: those that Yosys reads."""
    with tempfile.TemporaryDirectory(prefix="aig-verdicts-") as folder:
        paths = [Path(folder, name) for name in sources]
        for path, text in zip(paths, sources.values()):
            path.write_bytes(text.encode("latin-1"))
        try:
            return [name for name in Sources(paths).read if name in sources]
        except ToolFailed as error:
            raise NotReplayed(str(error)) from None
