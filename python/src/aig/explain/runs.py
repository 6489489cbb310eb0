"""Why a stimulus or a witness is rejected."""

from __future__ import annotations

import re
from typing import Optional

from .kinds import kind_of, push
from .lines import Lines, first, first_other, found, line_of
from .reader import Header, header_of
from .unrolled import push_bad_count

CR_LF = "lines end with CR LF, and only LF ends a line: tr -d '\\r' < FILE > NEW"
OTHER = "the witness may be for another circuit: compare it with aig info CIRCUIT"
BOUND = "a line with u says how far a model checker looked: sed '/^u/d' FILE > NEW"
NO_END = "the last line of a witness is `.`: the file may be cut off"
VERDICTS = (b"sat", b"unsat", b"unknown", b"SAT", b"UNSAT", b"UNKNOWN", b"s ", b"SATISFIABLE", b"UNSATISFIABLE",
            b"Verified")
# What a line of a witness may be or end with, and what to do with it.
REMEDIES = (
    (re.compile(rb"\r\Z"), CR_LF),
    (re.compile(rb"[ \t]\Z"), "no line ends with a blank: sed 's/[[:blank:]]*$//' FILE > NEW"),
    (re.compile(rb"\Ac"), "a witness has no comments: sed '/^c/d' FILE > NEW"),
    (re.compile(rb"\A#"), "a witness has no comments: sed '/^#/d' FILE > NEW"),
)


def push_width(lines: Lines, circuit: bytes) -> None:
    """How wide the rows of a stimulus have to be."""
    header = header_of(circuit)
    if header is None:
        lines.add("wanted: one of 0, 1 and x for each input of the circuit")
    elif header.inputs:
        lines.add(f"wanted: {header.inputs} of 0, 1 and x, one for each input of the circuit")
    else:
        lines.add("wanted: empty lines, because the circuit has no inputs")


def push_kind(lines: Lines, data: bytes) -> None:
    """What the file is, if it is no stimulus."""
    kind = kind_of(data)
    if kind not in (None, "empty", "stimulus"):
        push(lines, str(kind), "stimulus")


def push_stimulus(lines: Lines, circuit: bytes, data: bytes, fault: str) -> None:
    """Why a stimulus is rejected."""
    number = int(fault.split()[-1]) if fault[-1].isdigit() else 0
    line = line_of(data, number)
    if fault.startswith("character"):
        at = first_other(line)
        if at is None:
            return
        lines.add(f"line {number}, column {at + 1}: {found(line, at)}")
        push_width(lines, circuit)
        if line[at:] == b"\r":
            lines.add(CR_LF)
        push_kind(lines, data)
    elif fault.startswith("length"):
        lines.add(f"line {number} has the length {len(line)}")
        push_width(lines, circuit)
        push_kind(lines, data)
    elif fault == "unfinished":
        rest = data[data.rfind(b"\n") + 1:]
        lines.add(f"line {data.count(10) + 1}, the last one, has the length {len(rest)} and no newline",
                  "add the newline, if the line is whole: echo >> FILE")
    elif fault == "limit":
        lines.add(f"the stimulus has {data.count(10)} rows",
                  "wanted: at most 65,536 rows for bench; sim and wave take any number")


def values(width: Optional[int]) -> str:
    """What a line of so many values has."""
    if width is None:
        return "a line of 0, 1 and x"
    return f"{width} of 0, 1 and x" if width else "an empty line"


class WrongLine:
    """The first wrong line of a witness."""

    def __init__(self, number: int, line: bytes, is_ended: bool, width: Optional[int], is_over: bool):
        self.number, self.line, self.is_ended, self.width = number, line, is_ended, width
        self.part = "nothing" if is_over else {1: "status", 2: "property", 3: "start", 4: "first"}.get(number, "frame")

    def is_right(self) -> bool:
        line = self.line
        if self.part == "status":
            return line == b"1"
        if self.part == "property":
            return re.fullmatch(rb"b(0|[1-9][0-9]*)", line) is not None
        if self.part == "nothing":
            return not line
        is_row = first_other(line) is None and self.width in (None, len(line))
        return is_row or (self.part == "frame" and line == b".")

    def lacks_newline(self) -> bool:
        return not self.is_ended and self.line != b"" and self.part != "nothing" and self.is_right()

    def found(self) -> str:
        if not self.line and not self.is_ended:
            return f"line {self.number}: the file ends here"
        if self.lacks_newline():
            return f"line {self.number}: the file ends here, without a newline"
        at = first_other(self.line)
        if self.part in ("status", "property", "nothing"):
            return f"line {self.number} is `{first(self.line)}`"
        if at is None:
            return f"line {self.number} has the length {len(self.line)}"
        return f"line {self.number}, column {at + 1}: {found(self.line, at)}"

    def wanted(self) -> str:
        return {"status": "the line `1`", "property": "`b` and the position of a bad state property, as in `b0`",
                "start": f"the values of the latches, {values(self.width)}",
                "first": f"the values of the inputs in the first frame, {values(self.width)}",
                "frame": f"the values of the inputs in a frame, {values(self.width)}; or the last line, `.`",
                "nothing": "nothing after the line `.`"}[self.part]

    def remedy(self) -> str:
        """What to do, if it is known."""
        line = self.line
        if self.lacks_newline():
            return "add the newline: echo >> FILE" if line == b"." else NO_END
        known = next((text for pattern, text in REMEDIES if pattern.search(line)), "")
        if known:
            return known
        if self.part in ("status", "property") and re.fullmatch(rb"u(0|[1-9][0-9]*)", line):
            return BOUND
        if self.part == "status":
            return self.of_status()
        if self.part == "property":
            return self.of_property()
        if self.part == "nothing":
            several = "the file has several witnesses: keep one, for example: sed '/^\\.$/q' FILE > NEW"
            return several if line == b"1" else ""
        if not line and not self.is_ended:
            return NO_END
        at = first_other(line)
        if at is None:
            return OTHER
        return "x is a small letter: tr X x < FILE > NEW" if line[at:at + 1] == b"X" else ""

    def of_status(self) -> str:
        line = self.line
        if line.startswith(VERDICTS):
            return "this is a solver's verdict; the witness begins with the line `1` after it"
        if line in (b"0", b"2"):
            return "0 and 2 say that no run was found, so there is nothing to check"
        if len(line) > 1 and first_other(line) is None:
            return "it may be a run of ABC's write_cex -a: see \"Witness\" in man aig-formats"
        if b"=" in line:
            return "these may be values by name of ABC's write_cex: see \"Witness\" in man aig-formats"
        return ""

    def of_property(self) -> str:
        if self.line.startswith(b"j"):
            return "check has no justice properties (j)"
        if not self.line.startswith(b"b"):
            return ""
        if b"b" in self.line[1:] or b"j" in self.line:
            return "the witness names several properties: keep one of them"
        return "a position has no leading zeros" if re.fullmatch(rb"[0-9]{2,}", self.line[1:]) else ""


def first_wrong_line(data: bytes, header: Optional[Header]) -> Optional[WrongLine]:
    """The first line of a witness that is wrong, if one is."""
    pieces, is_over = data.split(b"\n"), False
    for number, line in enumerate(pieces, 1):
        is_ended = number < len(pieces)
        width = None if header is None else header.latches if number == 3 else header.inputs
        wrong = WrongLine(number, line, is_ended, width, is_over)
        if is_over and not is_ended and not line:
            return None
        if is_over or not is_ended or not wrong.is_right():
            return wrong
        is_over = number > 4 and line == b"."
    return None


def push_witness(lines: Lines, circuit: bytes, data: bytes, fault: str) -> None:
    """Why a witness is rejected."""
    header = header_of(circuit)
    if fault == "property":
        lines.add(f"line 2 names the bad state property {first(line_of(data, 2))}, counted from b0")
        push_bad_count(lines, header)
    elif fault == "limit":
        lines.add(f"the witness has {max(data.count(10) - 4, 0)} frames", "wanted: at most 65,536 frames")
    elif not data:
        push(lines, "empty", "witness")
    else:
        push_witness_text(lines, header, data)


def push_witness_text(lines: Lines, header: Optional[Header], data: bytes) -> None:
    """Which line of a witness is wrong. Without a circuit its widths are not known."""
    wrong = first_wrong_line(data, header)
    if wrong is None:
        if header is None:
            lines.add("wanted: in line 3 one value for each latch, and in the lines after it one for each input", OTHER)
        return
    lines.add(wrong.found())
    if not (wrong.lacks_newline() and wrong.line == b"."):
        lines.add(f"wanted: {wrong.wanted()}")
    kind = kind_of(data) if wrong.part == "status" else None
    if kind not in (None, "stimulus"):
        push(lines, str(kind), "witness")
    elif wrong.remedy():
        lines.add(wrong.remedy())
