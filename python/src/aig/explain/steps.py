"""The steps of a proof or a model of a SAT solver: a walk through them, up to a step or a byte."""

from __future__ import annotations

import re
from typing import Iterator, NamedTuple, Optional, Tuple

from .kinds import BLOCK, first_line

TEXT, HINTED, BINARY = "text", "hinted", "binary"
SHOWN = 61  # one byte more than a line shows
WORD = re.compile(rb"[^ \t\n]+")
BINARY_NUMBER = re.compile(rb"[\x80-\xff]*[\x00-\x7f]")


def spelling_of(data: bytes) -> str:
    """How a proof is spelled: as text in DRAT, as text with hints (LRAT), or in the binary form. This is the rule of
    "Proof" in docs/FORMATS.md, and the only place of this package that has it."""
    block = data[:BLOCK]
    if block[:1] == b"a" or (block[:1] == b"d" and block[1:2] and (block[1:2] not in b" \t" or 0 in block)):
        return BINARY
    words = WORD.findall(first_line(block))
    if not words or not words[0][:1].isdigit():
        return TEXT
    is_hinted = (len(words) > 1 and words[1][:1] == b"d") or b"0" in words[:-1]
    return HINTED if is_hinted else TEXT


def number_of(word: bytes) -> int:
    """The number that a word spells after its sign; 0 if it spells none."""
    digits = word[word[:1] == b"-" :]
    return int(digits[:SHOWN]) if digits.isdigit() else 0


class Step:
    """A step as far as it was read: its clause as text, or in a proof with hints the numbers that it deletes."""

    def __init__(self, number: int, at: int, is_deletion: bool = False, own: int = 0):
        self.number, self.at, self.is_deletion, self.own = number, at, is_deletion, own
        self.clause, self.greatest, self.is_open, self.has_clause = b"", 0, True, False
        self.negative: Optional[Tuple[bytes, int]] = None  # the first number of a deletion that has a sign

    def add(self, literal: bytes, variable: int) -> None:
        if len(self.clause) < SHOWN:
            self.clause += b" " * (self.clause != b"") + literal[:SHOWN]
        self.greatest = max(self.greatest, variable)

    def take(self, word: bytes, at: int) -> bool:
        """Takes a word after the number of a step with hints: does it end the step?"""
        if word == b"0":
            is_end = self.is_deletion or self.has_clause
            self.has_clause = True
            return is_end
        if not self.has_clause and not self.clause and word == b"d":
            self.is_deletion = True
        elif not self.has_clause:
            self.add(word, number_of(word))
            if self.is_deletion and word[:1] == b"-" and not self.negative:
                self.negative = word, at
        return False


class Goal(NamedTuple):
    """Where a walk ends: after a step, which counts from 1, after the word with a byte, or at the end of the file."""

    step: Optional[int] = None
    byte: Optional[int] = None

    def is_within(self, number: int, end: int) -> bool:
        """Whether the first bytes of a proof, up to this end and with so many steps, may have the goal."""
        return (self.step is not None and number >= self.step) or (self.byte is not None and end >= self.byte)


def skipped_lines(data: bytes, goal: Goal, is_hinted: bool) -> Tuple[int, int]:
    """Passes lines of one whole step each, as solvers write them, and comments: where the first other line begins, or
    the one with the goal, and how many steps are before it."""
    begin = number = 0
    while True:
        end = data.find(b"\n", begin) + 1
        line = data[begin : end - 1]
        is_comment = line[:1] == b"c"
        zeros = 1 if is_hinted and line.split(b" ", 2)[1:2] != [b"d"] else 0
        is_step = line[:1] not in (b"", b" ", b"0") and line.endswith(b" 0") and line.count(b" 0 ") == zeros
        is_whole = end > 0 and (is_comment or (is_step and b"\t" not in line))
        if not is_whole or goal.is_within(number + (not is_comment), end):
            return begin, number
        begin, number = end, number + (not is_comment)


def skipped_binary(data: bytes, goal: Goal) -> Tuple[int, int]:
    """The same of the binary form, where a zero byte ends each step after its letter."""
    begin = number = 0
    while True:
        end = data.find(b"\0", begin + 1) + 1
        if end == 0 or goal.is_within(number + 1, end):
            return begin, number
        begin, number = end, number + 1


class Walk:
    """A walk up to a goal, which is over if the goal is reached: the last word, and the last step."""

    def __init__(self, data: bytes, goal: Goal, spelling: str = ""):
        self.data, self.goal, self.spelling = data, goal, spelling or spelling_of(data)
        is_binary, is_hinted = self.spelling == BINARY, self.spelling == HINTED
        begin, number = skipped_binary(data, goal) if is_binary else skipped_lines(data, goal, is_hinted)
        self.step, self.is_over, self.word, self.at = Step(number, begin), False, b"", 0
        self.step.is_open = False
        for word, at, end in self.binary(begin) if is_binary else self.text(begin):
            negative = self.step.negative if goal.byte in (end, end + 1) and not self.step.is_open else None
            self.is_over = self.is_over or negative is not None or (goal.byte is not None and goal.byte < end)
            if self.is_over:
                self.word, self.at = negative or (word[:SHOWN], at)
                break

    # -- what is at the goal

    @property
    def is_first_word(self) -> bool:
        return self.is_over and self.step.at == self.at

    @property
    def wanted(self) -> str:
        """What is wanted in place of a number of LRAT that the program does not take; nothing if the word is none."""
        if self.spelling == HINTED and self.is_first_word and self.word == b"0":
            return "the number of the clause that the step adds, which is greater than 0"
        if self.is_over and self.step.negative == (self.word, self.at):
            return "the number of a clause, which has no sign"
        return ""

    # -- steps

    def begin(self, at: int, is_deletion: bool, own: int = 0) -> None:
        self.step = Step(self.step.number + 1, at, is_deletion, own)

    def end(self) -> None:
        self.step.is_open = False
        self.is_over = self.goal.step is not None and self.step.number >= self.goal.step

    def text(self, begin: int) -> Iterator[Tuple[bytes, int, int]]:
        """The words from a line on, which are in no comment: each with its place and its end."""
        take = self.take_hinted if self.spelling == HINTED else self.take_text
        while begin < len(self.data):
            end = self.data.find(b"\n", begin)
            end = len(self.data) if end < 0 else end
            if self.data[begin : begin + 1] != b"c":
                for match in WORD.finditer(self.data, begin, end):
                    take(match[0], match.start())
                    yield match[0], match.start(), match.end()
            begin = end + 1

    def take_text(self, word: bytes, at: int) -> None:
        if not self.step.is_open:
            self.begin(at, word == b"d")
        if word == b"0":
            self.end()
        elif word != b"d":
            self.step.add(word, number_of(word))

    def take_hinted(self, word: bytes, at: int) -> None:
        if not self.step.is_open:
            self.begin(at, False, number_of(word))
        elif self.step.take(word, at):
            self.end()

    def binary(self, at: int) -> Iterator[Tuple[bytes, int, int]]:
        """The letters and the numbers of the binary form: each with its place and its end."""
        while at < len(self.data):
            self.begin(at, self.data[at : at + 1] == b"d")
            yield self.data[at : at + 1], at, at + 1
            at += 1
            while self.step.is_open:
                match = BINARY_NUMBER.match(self.data, at)
                if match is None:
                    return
                self.take_binary(match[0])
                yield match[0], at, match.end()
                at = match.end()

    def take_binary(self, number: bytes) -> None:
        value = sum((byte % 128) << (7 * group) for group, byte in enumerate(number[:SHOWN]))
        if value:
            self.step.add(b"%s%d" % (b"-" * (value % 2), value // 2), value // 2)
        else:
            self.end()
