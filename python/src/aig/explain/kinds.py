"""What a file is that is given in the place of another, and what to do with it."""

from __future__ import annotations

import re
from typing import List, Optional

from .lines import Lines

BLOCK = 32768
FIRST = ((b"\xef\xbb\xbf", "mark"), (b"\x1f\x8b", "gzip"), (b"aag ", "circuit"), (b"aig ", "circuit"), (b"aig2", "abc"),
         (b"aag2", "abc"), (b"1\nb", "witness"))
WHAT = {
    "empty": "the file is empty",
    "mark": "the file begins with a byte-order mark, three bytes that an editor added",
    "gzip": "the file is compressed with gzip",
    "circuit": "the file is a circuit",
    "abc": "the file is in a format of ABC's own (write_aiger -c)",
    "witness": "the file is a witness",
    "stimulus": "the file is a stimulus",
    "verilog": "the file is Verilog",
    "blif": "the file is BLIF",
    "formula": "the file is a CNF formula",
    "answer": "the file is what a solver prints: its answer, or a model",
    "frat": "the file is a proof in FRAT",
    "binary lrat": "the file is a proof in LRAT, in its binary form",
    "veripb": "the file is a proof of VeriPB",
    "proof": "the file may be a solver's proof",
    "crlf": "lines end with CR LF",
}
OF_PLACE = "name the file that the solver writes"
# What to do: for a kind and a place, for a kind, or for a place.
REMEDIES = {
    ("empty", None): "write the file again: the command that should write it may have failed",
    ("mark", None): "save the file without it, or: tail -c +4 FILE > NEW",
    ("gzip", "circuit"): "zcat FILE | aig COMMAND .. /dev/stdin",
    ("gzip", None): "zcat FILE > NEW, and name the new file",
    ("crlf", None): "only LF ends a line: tr -d '\\r' < FILE > NEW",
    ("circuit", "proof"): "the circuit comes first: aig refute --frames K CIRCUIT PROOF",
    ("circuit", "model"): "--model names what the solver printed, and CIRCUIT the circuit",
    ("circuit", "witness"): "CIRCUIT comes before WITNESS",
    ("circuit", None): "CIRCUIT comes before STIM",
    ("verilog", "circuit"): "convert it to AIGER, with write_aiger of yosys or ABC",
    ("blif", "circuit"): "convert it to AIGER, with write_aiger of yosys or ABC",
    ("abc", "circuit"): "write it with write_aiger, without -c",
    ("witness", "circuit"): "the circuit comes first: aig check CIRCUIT WITNESS",
    ("witness", "stimulus"): "aig wave --witness CIRCUIT WITNESS, or aig check CIRCUIT WITNESS",
    ("stimulus", "circuit"): "the circuit comes first: aig sim CIRCUIT STIM",
    ("formula", "circuit"): "name the circuit: aig reads no formula",
    ("formula", "witness"): "run a solver on it: aig witness --model makes a witness of a model",
    ("formula", "proof"): "run a solver on it, and name the file that the solver writes",
    ("formula", "model"): "run a solver on it, and name the file that the solver writes",
    ("answer", "proof"): "a proof is a file of its own, as in: cadical FORMULA PROOF",
    ("frat", "proof"): "aig reads DRAT (cadical without --frat); to make DRAT of it see \"Proof\" in man aig-formats",
    ("binary lrat", "proof"): "aig reads LRAT only as text: have the solver write it as text",
    ("veripb", None): "aig reads DRAT and LRAT: have the solver write one of them",
    ("proof", None): "aig refute checks a proof; --model names what the solver printed",
    (None, "proof"): OF_PLACE,
    (None, "model"): OF_PLACE,
    (None, "stimulus"): "name a stimulus: see \"Stimulus\" in man aig-formats",
    (None, "witness"): "name a witness: see \"Witness\" in man aig-formats",
    (None, "circuit"): "see \"Files of other tools\" in man aig-formats",
}
ANSWERS = re.compile(rb"s|v|(UN)?SAT(ISFIABLE)?|UNKNOWN|INDETERMINATE")


def push(lines: Lines, kind: str, wanted: str) -> None:
    """Adds what the file is, and what to do with it where another file is wanted."""
    keys = ((kind, wanted), (kind, None), (None, wanted))
    lines.add(WHAT[kind], next(REMEDIES[key] for key in keys if key in REMEDIES))


def first_line(data: bytes) -> bytes:
    """The first line that is neither blank nor a comment."""
    return next((line for line in data.split(b"\n") if line.strip(b" \t") and line[:1] != b"c"), b"")


def kind_of(data: bytes) -> Optional[str]:
    """What a file is that has these bytes, or begins with them, if it is known."""
    for start, kind in FIRST:
        if data.startswith(start):
            return kind
    if re.fullmatch(rb"[01x\n]*", data):
        return "stimulus" if data else "empty"
    if b"endmodule" in data:
        return "verilog"
    if re.search(rb"^[ \t\r\x0b\x0c]*\.model", data, re.MULTILINE):
        return "blif"
    return "formula" if first_line(data).startswith(b"p cnf ") else None


def kind_at(data: bytes, word: bytes) -> Optional[str]:
    """What a file is that is rejected at this word as a proof or a model."""
    block = data[:BLOCK]
    kind = kind_of(block)
    if kind not in (None, "stimulus"):
        return kind
    if 0 in block:
        return _binary(block[:block.rindex(0)].split(b"\0"))
    line = first_line(block)
    begin = line.split()[:1]
    known = _of_word(re.split(rb"[ \t]", line.lstrip(b" \t"))[0]) if begin else None
    if not known and line.endswith(b"\r"):
        return "crlf"
    return known or ("frat" if begin == [b"a"] else _of_word(word))


def _of_word(word: bytes) -> Optional[str]:
    if word.endswith(b"\r"):
        return "crlf"
    if ANSWERS.fullmatch(word):
        return "answer"
    return {b"p": "formula", b"o": "frat", b"pseudo-Boolean": "veripb"}.get(word)


def _binary(steps: List[bytes]) -> Optional[str]:
    """What a proof in a binary form is. Steps of FRAT have more letters than those of DRAT, and each addition of LRAT
    has hints after it, where DRAT has a letter."""
    if all(step[:1] in (b"a", b"d") for step in steps):
        return None
    if all(step[:1] and step[:1] in b"adolfr" for step in steps):
        return "frat"
    additions, last, is_hints = 0, 0, False
    for step in steps:
        if is_hints:
            is_hints = False
        elif step[:1] == b"a" and number_in(step[1:]) > last:
            last, additions, is_hints = number_in(step[1:]), additions + 1, True
        elif step[:1] != b"d":
            return None
    return "binary lrat" if additions > 1 else None


def number_in(groups: bytes) -> int:
    """The first number of the binary form."""
    value = 0
    for place, byte in enumerate(groups):
        value += (byte % 128) << (7 * place)
        if byte < 128:
            break
    return value
