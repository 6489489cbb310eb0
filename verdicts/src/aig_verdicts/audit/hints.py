"""Proofs with hints (LRAT): how a proof shows that it has them, and the name that its file has then."""

from __future__ import annotations

import re
from typing import Callable, Mapping

from .checked import Claim
from .row import name_of

# The bytes of a proof that show its form.
LOOK = 32768
_WORD = re.compile(rb"[^ \t]+")


def has_hints(proof: bytes) -> bool:
    """Whether a proof is in LRAT, by its first line that is neither blank nor a comment."""
    for line in proof[:LOOK].split(b"\n"):
        words = _WORD.findall(line)
        if words and not line.startswith(b"c"):
            return words[0][:1].isdigit() and (words[1:] != [] and words[1][:1] == b"d" or b"0" in words[:-1])
    return False


def claim_of(position: int, by: str, frames: int, files: Mapping[str, bytes]) -> Claim:
    """The claim that these files, which are there by their roles, show a verdict."""
    named = tuple((role, name_of(position, role, has_hints(data))) for role, data in files.items())
    return Claim(position, by, frames, named)


def by_name(claim: Claim, files: Mapping[str, bytes]) -> Callable[[str], bytes]:
    """The bytes of the files of a claim by their names, where they are known by their roles."""
    return {name: files[role] for role, name in claim.named}.__getitem__
