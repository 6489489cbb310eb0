"""Concurrent assertions inside of procedures: `always @(posedge clk) assert property (@(posedge clk) e);` is one about
the block's own clock, so it becomes an immediate one there."""

from __future__ import annotations

from typing import List, Optional

from .edits import Edit
from .expressions import HISTORY
from .model import KINDS, Module
from .words import EVENTUALLY, INFIX, PREFIX, Rejected, Word, closing, has_any, text_of

_LOOPS = frozenset({"for", "while", "repeat", "foreach", "forever", "do", "fork"})
_CLOCKED = ("always", "always_ff")


def procedural(words: List[Word], begin: int, end: int, module: Optional[Module]) -> List[Edit]:
    """What becomes of the concurrent assertions in a procedure."""
    edits: List[Edit] = []
    for k in range(begin, end):
        if words[k].text not in KINDS or words[k + 1].text not in ("property", "sequence"):
            continue
        inner = words[k + 3:closing(words, k + 2)]
        rest = inner[1:] if inner and inner[0].text in EVENTUALLY else inner
        if not rest or inner[0].text not in ("@", "disable") and not _is_temporal(rest, module):
            continue  # Yosys reads it
        edits += _own_clock(words, begin, end, k, module)
    return edits


def _is_temporal(words: List[Word], module: Optional[Module]) -> bool:
    return has_any(words, INFIX | PREFIX) or any(it.text in (module.named if module else {}) for it in words)


def _own_clock(words: List[Word], begin: int, end: int, at: int, module: Optional[Module]) -> List[Edit]:
    """An expression at the clock of its block. It is about values before the edge, and nothing else in the block may
    change these before it is looked at."""
    here = Rejected(words[at], "a concurrent assertion inside of a procedure")
    if words[begin].text not in _CLOCKED or words[begin + 1].text != "@" or words[begin + 2].text != "(":
        raise here
    if words[at + 1].text != "property" or words[at + 3].text != "@" or words[at + 4].text != "(":
        raise here
    of_block, of_assertion = closing(words, begin + 2), closing(words, at + 4)
    rest = words[of_assertion + 1:closing(words, at + 2)]
    if text_of(words[begin + 2:of_block + 1]) != text_of(words[at + 4:of_assertion + 1]):
        raise here
    is_plain = rest and not _is_temporal(rest, module) and not has_any(rest, HISTORY) and rest[0].text != "disable"
    changes = has_any(words[begin:end], _LOOPS) or any(it.text == "=" for it in words[begin:end])
    if not is_plain or changes:
        raise here
    return [Edit(at + 1, at + 1, ""), Edit(at + 3, of_assertion, "")]
