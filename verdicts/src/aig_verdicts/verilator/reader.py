"""From sources to a circuit, by a Verilator that reads the probe as it should."""

from __future__ import annotations

import re
from typing import List, NamedTuple, Optional, Sequence

from . import probe
from .circuit import Circuit
from .design import Design
from .dumps.dump import dumped, preprocessed, program, tree_of, version_of
from .dumps.schema import TRIED
from .dumps.source import Source, real
from .dumps.tree import NotRead, Tree

_UNEXPECTED = re.compile(r"%Error: (\S+?):(\d+):(\d+): (?:syntax error, unexpected|Unexpected) (\S+)")
# Words of SystemVerilog that Verilog has as names. Where one is a syntax error in a file of Verilog, it is escaped.
_NAMES = frozenset("""accept_on alias before bind bins bit break byte chandle checker class clocking const constraint context
    continue cross dist do endchecker endclass enum eventually expect export extends extern final first_match foreach
    forkjoin global iff ignore_bins implements implies import inside int interface intersect join_any join_none let local
    logic longint matches modport new nexttime null package packed priority program protected pure rand randc randcase ref
    reject_on return s_always shortint solve static string strong struct super tagged this throughout timeprecision
    timeunit type typedef union unique until untyped var virtual void wait_order weak wildcard with within""".split())
_MOST_ESCAPED = 9
_WORDS_BEFORE = 5


class Elaborated(NamedTuple):
    """The tree of sources, and what Verilator read."""

    tree: Tree
    source: Source


def elaborated(files: Sequence[str], defines: Sequence[str], top: str, version: str) -> Elaborated:
    """Reads sources."""
    source = Source(preprocessed([*files], [*defines]))
    for _ in range(_MOST_ESCAPED):
        try:
            return Elaborated(tree_of(dumped(source, top, version)), source)
        except NotRead as why:
            found = _UNEXPECTED.search(str(why))
            word = _blamed(source, found) if found else None
            if word is None:
                raise
            source.escape(word)
    raise NotRead("many words of SystemVerilog as names")


def _blamed(source: Source, found: "re.Match[str]") -> Optional[str]:
    """The word of SystemVerilog that an error of syntax is about: it, or one before it."""
    file, line, column, word = found[1], int(found[2]), int(found[3]), found[4]
    if not real(file).endswith(".v"):
        return None
    before = re.findall(r"(?<!\\)\b\w+", source.line(file, line)[:column - 1])
    return next((it for it in [word.strip(",':"), *before[:-_WORDS_BEFORE:-1]] if it in _NAMES), None)


def circuit_of(read: Elaborated, outputs: bool = False) -> Circuit:
    """The circuit of a tree."""
    return Circuit(Design(*read), outputs)


class Read(NamedTuple):
    """A circuit, and what to say of how it was read."""

    circuit: Circuit
    notes: List[str]


def circuit(files: Sequence[str], defines: Sequence[str] = (), top: str = "", outputs: bool = False) -> Read:
    """The circuit of sources. `outputs`: with the outputs of the top module. It needs a deep stack: see `command.deep`."""
    version = version_of()
    probe.ensure(lambda: circuit_of(elaborated([str(probe.FILE)], [], probe.TOP, version), True), program())
    read = elaborated(files, defines, top, version)
    made = circuit_of(read, outputs)
    notes = [*read.source.notes]
    if version not in TRIED:
        notes.append(f"Verilator {version} was not tried with this reader: {', '.join(TRIED)} were")
    return Read(made, notes)
