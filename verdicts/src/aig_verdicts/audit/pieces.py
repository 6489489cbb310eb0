"""Pieces of a circuit, as `aig cut` takes them out, and what is left of them: what a proof needs. A claim is read from the
file of cuts and from the names of the circuit alone. Who audits what a `recheck` says of needs reads this file."""

from __future__ import annotations

import re
from functools import lru_cache
from typing import Any, Collection, Dict, FrozenSet, Iterable, List, NamedTuple, Optional, Sequence, Set, Tuple

from aig.program import run
from aig.entries import Entry, listed, readable
from .checked import Wrong, expect

# The first letters of the lines of a file of cuts: a next state that is free, a reset that is, an assumption that is
# dropped.
NEXT, RESET, ASSUMED = "f", "r", "c"
LETTERS = (NEXT, RESET, ASSUMED)
# A file of cuts, as `aig cut` takes it.
_FORM = re.compile(rb"(?:[frc] (?:0|[1-9][0-9]{0,9})\n)*")
_INDEX = re.compile(r"\[\d+\]$")
# Registers that Yosys made for an assertion, by their names: the value and the condition at a clock, and `$past`.
_OWN = re.compile(r"(?:.*\.)?(?:past|(?:value|when)(?:_assumed)?)(?:_\d+)+")
# A memory of more words than these is shown as one.
_MOST_WORDS = 2

# A line of a file of cuts: its letter, and the literal of a latch or the position of a constraint.
Cut = Tuple[str, int]


class Piece(NamedTuple):
    """What is cut as one: the next state of a register, its reset, or an assumption, with the name of it."""

    letter: str
    name: str


class Pieces:
    """The pieces of a circuit. All latches of a name are one register.

    cuts     the lines that cut each piece
    of       the piece of each line
    aliases  all names of each register
    """

    def __init__(self, entries: Iterable[Entry]):
        self.cuts: Dict[Piece, Set[Cut]] = {}
        self.of: Dict[Cut, Piece] = {}
        self.aliases: Dict[str, Set[str]] = {}
        for entry in entries:
            if entry.letter == "l" and entry.literal is not None:
                register, *others = _names(entry)
                self.aliases.setdefault(register, set()).update([register, *others])
                for letter in (NEXT, RESET):
                    self._add((letter, entry.literal), Piece(letter, register))
            if entry.letter == "c":
                self._add((ASSUMED, entry.position), Piece(ASSUMED, readable(entry.label)))
        order = sorted(self.of, key=lambda cut: (LETTERS.index(cut[0]), cut[1]))
        self._lines = [(cut, f"{cut[0]} {cut[1]}\n") for cut in order]

    def _add(self, cut: Cut, piece: Piece) -> None:
        self.cuts.setdefault(piece, set()).add(cut)
        self.of[cut] = piece

    @property
    def all(self) -> FrozenSet[Piece]:
        return frozenset(self.cuts)

    @property
    def has_assumptions(self) -> bool:
        return any(piece.letter == ASSUMED for piece in self.cuts)

    def without(self, kept: Collection[Piece]) -> bytes:
        """The file that cuts all pieces but these, in a fixed order."""
        left = {cut for piece in kept for cut in self.cuts[piece]}
        return "".join([line for cut, line in self._lines if cut not in left]).encode()

    def alone(self, piece: Piece) -> bytes:
        """The file that cuts one piece."""
        return "".join([line for cut, line in self._lines if cut in self.cuts[piece]]).encode()

    def only(self, cuts: FrozenSet[Cut]) -> Piece:
        """The piece that these lines cut, and nothing else. A Wrong says that they cut something else."""
        for piece in [self.of[cut] for cut in cuts if cut in self.of][:1]:
            if self.cuts[piece] >= cuts:
                return piece
        raise Wrong("a file of cuts is not about one piece")

    def kept(self, cuts: FrozenSet[Cut]) -> FrozenSet[Piece]:
        """The pieces of which some line is not there: these are needed."""
        return frozenset(piece for piece, lines in self.cuts.items() if not lines <= cuts)


@lru_cache(maxsize=4)
def pieces_of(circuit: bytes) -> Pieces:
    return Pieces(listed(run("info", "--names", "--json", files=[circuit])))


def _names(entry: Entry) -> List[str]:
    """The names of a latch without its index, the register's first. A word of a memory has a name of its own."""
    return [_INDEX.sub("", readable(word)) or entry.place for word in entry.words or [entry.place]]


def read_cuts(text: bytes) -> FrozenSet[Cut]:
    """The lines of a file of cuts, as `aig` reads them."""
    expect(_FORM.fullmatch(text) is not None, "a file of cuts has another form")
    words = text.split()
    return frozenset(zip(map(bytes.decode, words[::2]), map(int, words[1::2])))


class Needs(NamedTuple):
    """What a proof needs, by names: nothing else of the circuit is in it.

    registers    whose next states or resets are needed
    resets       those of them whose resets are needed
    assumptions  those that are demanded
    of_any       whether the circuit has assumptions
    every        the pieces that every proof needs, as far as a run without each alone is known
    """

    registers: Tuple[str, ...]
    resets: Tuple[str, ...]
    assumptions: Tuple[str, ...]
    of_any: bool
    every: FrozenSet[Piece] = frozenset()

    @staticmethod
    def of(pieces: Pieces, kept: Collection[Piece]) -> Needs:
        return Needs.named(kept, pieces.has_assumptions)

    @staticmethod
    def named(kept: Collection[Piece], of_any: bool) -> Needs:
        names = {letter: tuple(sorted(piece.name for piece in kept if piece.letter == letter)) for letter in LETTERS}
        registers = tuple(sorted({*names[NEXT], *names[RESET]}))
        return Needs(registers, names[RESET], names[ASSUMED], of_any)

    @property
    def is_trivial(self) -> bool:
        """Whether the row holds whatever registers and inputs do."""
        return not self.registers and not self.assumptions

    @property
    def of_every(self) -> Needs:
        """What every proof needs, as far as that is known."""
        return Needs.named(self.every, self.of_any)

    def facts(self) -> Dict[str, Any]:
        """What MANIFEST.json has of it, for readers."""
        named = {"registers": self.registers, "resets": self.resets, "assumptions": self.assumptions}
        found: Dict[str, Any] = {name: list(names) for name, names in named.items()}
        return {**found, "every_proof": self.of_every.facts()} if self.every else found


def needs_of(circuit: bytes, cuts: Optional[bytes]) -> Optional[Needs]:
    """What the proofs of a row need, if they are about the circuit without these cuts."""
    if cuts is None:
        return None
    pieces = pieces_of(circuit)
    return Needs.of(pieces, pieces.kept(read_cuts(cuts)))


def unneeded(circuit: bytes, proofs: Sequence[Needs]) -> Needs:
    """The registers and assumptions that none of some proofs needs. All of these together may be anything, as each
    proof is about a circuit in which they are cut."""
    every = Needs.of(pieces_of(circuit), pieces_of(circuit).all)
    registers = set().union(*(it.registers for it in proofs))
    assumptions = set().union(*(it.assumptions for it in proofs))
    return Needs(tuple(it for it in every.registers if it not in registers), (),
                 tuple(it for it in every.assumptions if it not in assumptions), every.of_any)


def is_own(register: str) -> bool:
    """Whether a register is one that Yosys made for an assertion, by its name."""
    return _OWN.fullmatch(register) is not None


def folded(registers: Iterable[str]) -> List[str]:
    """Names to show. The words of a memory are one, if they are many."""
    words: Dict[str, List[str]] = {}
    for name in registers:
        words.setdefault(_INDEX.sub("", name), []).append(name)
    found: List[str] = []
    for name, members in sorted(words.items()):
        found += [f"{name} ({len(members)} words)"] if len(members) > _MOST_WORDS else members
    return found
