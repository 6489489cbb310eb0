"""A reader of circuits that says what is wrong where a token is wrong."""

from __future__ import annotations

import re
from typing import Dict, Iterator, List, NamedTuple, Optional, Tuple

MOST, MOST_LITERAL = 4_194_303, 8_388_607
COUNTS = ("the maximum variable index M", "the number of inputs I", "the number of latches L",
          "the number of outputs O", "the number of gates A", "the number of bad state properties B",
          "the number of constraints C", "the number of justice properties J",
          "the number of fairness constraints F")
FORMAT = "`aag` or `aig`, and a space"
OVER = ("at most 4,194,303", "at most 8,388,607", "sizes with a sum of at most 4,194,303")
AFTER_C = "a newline, which begins the comment, or the position of a constraint"
WHOLE_DELTA = "a delta that ends before the file does"
UNNAMED = "the position of an entry that has no name yet"
NUMBER = re.compile(rb"[0-9]*")
# A gate as text, if its numbers are no longer than the largest literal. The reader takes it apart only if this fails.
GATE = re.compile(rb"(0|[1-9][0-9]{0,6}) (0|[1-9][0-9]{0,6}) (0|[1-9][0-9]{0,6})\n")
SYMBOL = re.compile(rb"([ilobcjf])(0|[1-9][0-9]{0,6}) ([^\n]+)\n|(c\n)")
LETTERS = {"input": "i", "latch": "l", "output": "o", "bad state property": "b", "constraint": "c",
           "the size of justice property": "j", "fairness constraint": "f"}


class Wrong(Exception):
    """The first wrong token: its place, what is wanted there, and what it is in."""

    def __init__(self, reader: Reader, wanted: str, at: Optional[int] = None):
        super().__init__(wanted)
        self.at = reader.at if at is None else at
        self.wanted, self.within, self.begin = wanted, reader.within, reader.begin


class Header(NamedTuple):
    """The header: which format it begins, M, and how many entries each section has."""

    is_binary: bool
    max_var: int
    inputs: int
    latches: int
    outputs: int
    gates: int
    bad: int
    constraints: int
    justice: int
    fairness: int

    def named(self, letter: str) -> int:
        """How many entries the section has whose symbols begin with this letter."""
        return {"i": self.inputs, "l": self.latches, "o": self.outputs, "b": self.bad, "c": self.constraints,
                "j": self.justice, "f": self.fairness}[letter]


class Entry(NamedTuple):
    """An entry: the literal that it defines, those that it uses, and its reset."""

    section: str
    position: int
    at: int
    defined: Optional[int] = None
    uses: Tuple[int, ...] = ()
    reset: Optional[int] = None


class Reader:
    """A place in the bytes of a circuit, and what is read there."""

    def __init__(self, data: bytes):
        self.data, self.at, self.within = data, 0, "in the first word"
        self.begin: Optional[int] = None  # of the symbols of a binary file

    # -- tokens

    def peek(self) -> bytes:
        return self.data[self.at : self.at + 1]

    def takes(self, byte: bytes) -> bool:
        is_there = self.peek() == byte
        self.at += is_there
        return is_there

    def byte(self, byte: bytes, wanted: str) -> None:
        if not self.takes(byte):
            raise Wrong(self, wanted)

    def number(self, most: int = MOST_LITERAL) -> int:
        match = NUMBER.match(self.data, self.at)
        digits = match[0] if match else b""
        if not digits:
            raise Wrong(self, "a number")
        if len(digits) > 1 and digits[:1] == b"0":
            raise Wrong(self, "a number without leading zeros")
        if len(digits) > 9 or int(digits) > most:
            raise Wrong(self, OVER[most == MOST_LITERAL])
        self.at += len(digits)
        return int(digits)

    def last(self) -> int:
        """The number that ends a line."""
        number = self.number()
        self.byte(b"\n", "a newline")
        return number

    def spaced(self) -> int:
        """A number and the space after it."""
        number = self.number()
        self.byte(b" ", "a space")
        return number

    def goes_on(self) -> bool:
        """Whether the line goes on after a number that may end it."""
        if self.takes(b" "):
            return True
        self.byte(b"\n", "a space or a newline")
        return False

    def delta(self, low: int, high: int) -> int:
        begin, value = self.at, 0
        for group in range(4):
            if self.at >= len(self.data):
                raise Wrong(self, WHOLE_DELTA, begin)
            byte = self.data[self.at]
            self.at += 1
            value += (byte % 128) << (7 * group)
            if byte < 128:
                if byte == 0 and group:
                    break
                if not low <= value <= high:
                    raise Wrong(self, f"a delta from {low} to {high}", begin)
                return value
        raise Wrong(self, "the shortest form of a delta, of at most four bytes", begin)

    # -- sections

    def header(self) -> Header:
        word = self.data[:4]
        if word not in (b"aag ", b"aig "):
            is_begun = b"aag ".startswith(word) or b"aig ".startswith(word)
            raise Wrong(self, FORMAT, len(word) if is_begun else 0)
        self.at, counts = 4, [0] * 9
        for number, name in enumerate(COUNTS):
            self.within = f"in the header, at {name}"
            counts[number] = self.number(MOST)
            if number < 4:
                self.byte(b" ", "a space")
            elif number == 8:
                self.byte(b"\n", "a newline")
            elif not self.goes_on():
                break
        return Header(word == b"aig ", *counts)

    def entries(self, header: Header) -> Iterator[Entry]:
        """The entries up to the symbols. The inputs of a binary file are not in it."""
        yield from () if header.is_binary else self.literals("input", header.inputs)
        yield from self.latches(header)
        yield from self.literals("output", header.outputs)
        yield from self.literals("bad state property", header.bad)
        yield from self.literals("constraint", header.constraints)
        sizes = 0
        for entry in self.sizes(header.justice):
            sizes += entry.uses[0]
            yield entry._replace(uses=())
        yield from self.literals("justice literal", sizes)
        yield from self.literals("fairness constraint", header.fairness)
        yield from self.binary_gates(header) if header.is_binary else self.text_gates(header)

    def literals(self, section: str, count: int) -> Iterator[Entry]:
        """Entries of one literal a line: an input defines it, others use it."""
        for position in range(count):
            self.within, at = f"in {section} {position}", self.at
            literal = self.last()
            if section == "input":
                yield Entry(section, position, at, literal)
            else:
                yield Entry(section, position, at, None, (literal,))

    def latches(self, header: Header) -> Iterator[Entry]:
        for position in range(header.latches):
            self.within, at = f"in latch {position}", self.at
            literal = 2 * (header.inputs + position + 1) if header.is_binary else self.spaced()
            following = self.number()
            yield Entry("latch", position, at, literal, (following,), self.last() if self.goes_on() else None)

    def sizes(self, count: int) -> Iterator[Entry]:
        """The sizes of the justice properties, each as what its entry uses."""
        total = 0
        for position in range(count):
            self.within, at = f"in the size of justice property {position}", self.at
            size = self.number()
            total += size
            if total > MOST:
                raise Wrong(self, OVER[2], at)
            self.byte(b"\n", "a newline")
            yield Entry("the size of justice property", position, at, None, (size,))

    def text_gates(self, header: Header) -> Iterator[Entry]:
        for position in range(header.gates):
            at, match = self.at, GATE.match(self.data, self.at)
            literals = [int(digits) for digits in match.groups()] if match else [MOST_LITERAL + 1]
            if match and max(literals) <= MOST_LITERAL:
                self.at = match.end()
            else:
                self.within = f"in gate {position}"
                literals = [self.spaced(), self.spaced(), self.last()]
            yield Entry("gate", position, at, literals[0], (literals[1], literals[2]))

    def binary_gates(self, header: Header) -> Iterator[Entry]:
        for position in range(header.gates):
            at, variable = self.at, header.inputs + header.latches + position + 1
            self.within = f"in gate {position}, which has variable {variable}"
            left = 2 * variable - self.delta(1, 2 * variable)
            yield Entry("gate", position, at, 2 * variable, (left, left - self.delta(0, left)))

    def symbols(self, header: Header, fault: int) -> None:
        """Reads the symbols. A position at the place of the fault, right otherwise, is that of an entry with a name."""
        self.within, self.begin = "in the symbols", self.at if header.is_binary else None
        while self.peek():
            at, letter = self.at, chr(self.data[self.at])
            self.at += 1
            if letter == "c" and not self.peek().isdigit():
                self.byte(b"\n", AFTER_C)
                return
            if letter not in "ilobcjf":
                raise Wrong(self, "a symbol (i l o b c j f), a comment (c), or the end of the file", at)
            self.symbol(header.named(letter), fault)

    def symbol(self, count: int, fault: int) -> None:
        """Reads a symbol after its letter."""
        at = self.at
        if self.number() >= count:
            raise Wrong(self, f"a position below {count}" if count else "no symbol of this section, which is empty", at)
        if at == fault:
            raise Wrong(self, UNNAMED, at)
        self.byte(b" ", "a space")
        end = self.data.find(b"\n", self.at)
        if end < 0:
            raise Wrong(self, "a newline after the name", len(self.data))
        if end == self.at:
            raise Wrong(self, "a name of at least one byte")
        self.at = end + 1


def header_of(data: bytes) -> Optional[Header]:
    """The header of a circuit, if it is right; none of no bytes."""
    try:
        return Reader(data).header()
    except Wrong:
        return None


def first_wrong(data: bytes, fault: int) -> Optional[Wrong]:
    """The first wrong token of a circuit. The program names the place of its fault."""
    reader = Reader(data)
    try:
        header = reader.header()
        for _ in reader.entries(header):
            pass
        reader.symbols(header, fault)
    except Wrong as wrong:
        return wrong
    return None


def free_latches_of(data: bytes) -> Optional[int]:
    """How many latches of a circuit are uninitialised. Gates need not be read for it."""
    reader = Reader(data)
    try:
        header = reader.header()
        for _ in () if header.is_binary else reader.literals("input", header.inputs):
            pass
        return sum(entry.reset == entry.defined for entry in reader.latches(header))
    except Wrong:
        return None


class Parts:
    """A circuit whose tokens up to the symbols are right: its entries, its names and its comment."""

    def __init__(self, data: bytes):
        reader = Reader(data)
        self.data, self.header = data, reader.header()
        self.entries: List[Entry] = [*reader.entries(self.header)]
        self.names: Dict[Tuple[str, int], bytes] = {}
        self.comment = b""
        at = reader.at
        while match := SYMBOL.match(data, at):
            at = match.end()
            if match[4]:
                self.comment = data[at:]
                break
            self.names.setdefault((match[1].decode(), int(match[2])), match[3])

    def told(self, entry: Entry) -> Tuple[str, int, bytes]:
        """The section and position of an entry, and its name."""
        return entry.section, entry.position, self.names.get((LETTERS.get(entry.section, ""), entry.position), b"")

    def defining(self, variable: int) -> List[Entry]:
        return [it for it in self.entries if it.defined is not None and it.defined // 2 == variable]


def parts_of(data: bytes) -> Optional[Parts]:
    try:
        return Parts(data)
    except Wrong:
        return None
