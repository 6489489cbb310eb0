"""A second look at a run that failed: which files say why, and which lines they give."""

from __future__ import annotations

import os
import re
from typing import Callable, Dict, Optional, Sequence, Tuple, Union

from . import mapping, names, outputs, runs, unrolled
from .arguments import Arguments
from .circuit import push_circuit
from .files import Files, Hidden, push_unread
from .lines import Lines, first, line_of
from .proofs import FORMULAS, Formula, push_model, push_proof
from .reader import free_latches_of, header_of, parts_of

MEMORY = "out of memory: raise the memory limit (ulimit -v), or use a machine with more memory"
CHANGED = "a second look finds nothing wrong: the file may have changed"
PRINTS_NAMES = "aig info --names CIRCUIT prints the names of all entries"
WANTED_SYMBOL = ("wanted: `= LIT`, where LIT is a literal of CIRCUIT: aig info --names CIRCUIT prints its inputs and"
                 " latches")
LIMIT = ("a circuit has at most 4,194,303 variables and entries of a kind: the strengthened circuit, and for a formula"
         " the one of its two frames, would have more")
WANTED_CUT = ("wanted: `f L`, `r L` or `c P`, and a newline: L is the literal of a latch, or for f of a gate, and P the"
              " position of a constraint, counted from 0")
# The last line of a run that failed: the part, and what is wrong with it.
MESSAGE = re.compile(rb"(?:\A|\n)aig: (?:([a-z ]+): )?([^\n]*)\n\Z")


class Look:
    """A second look at the files of a run."""

    def __init__(self, arguments: Arguments, files: Files):
        self.arguments, self.files, self.lines = arguments, files, Lines()

    # -- files

    def seen(self, part: str) -> Union[bytes, Hidden]:
        """Adds the name of a part's file, and returns its bytes, or why they are not seen."""
        name = self.arguments.files.get(part)
        if name is None:
            return Hidden("the arguments name no such file")
        self.lines.name(name)
        try:
            return self.files.bytes_of(name)
        except Hidden as hidden:
            return hidden

    def circuit(self) -> Optional[bytes]:
        return self.files.bytes_or_none(self.arguments.circuit)

    def formula(self, about: str) -> Formula:
        given = self.arguments.options
        words = [word for option in ("--frames", "--property") if option in given for word in (option, given[option])]
        return Formula(about, words, self.circuit())

    # -- faults

    def of(self, part: str, fault: str) -> None:
        """Why a part was rejected."""
        arguments = self.arguments
        if fault == "input or output":
            self.of_output() if part == "output" else self.of_unread(part)
        elif part == "model":
            push_model(self.lines, self.seen(part), self.formula(arguments.about), fault)
        elif part in ("proof", "step proof"):
            about = "step" if part == "step proof" else arguments.about
            push_proof(self.lines, self.seen(part), self.formula(about), fault)
        elif part == "witness" and arguments.command == "witness":
            self.of_no_run(fault)
        elif part == "witness" and fault.startswith("of b"):
            self.of_other_property(fault)
        elif part == "certificate" and fault == "comment":
            self.of_mapping()
        elif part == "certificate" and fault.split()[0] == "symbol":
            self.of_symbol(fault)
        elif part == "cuts":
            self.of_cuts(fault)
        elif part in ("cut", "select", "property") or (fault in ("limit", "no frames") and arguments.has_certificate
                                                and part in ("strengthen", "cnf")):
            self.of_known(part, fault)
        elif part in ("stimulus", "witness", "bench") and fault != "frame":
            self.of_run(part, fault)
        else:
            self.of_contents(part, fault)

    def of_output(self) -> None:
        """A file of an option, or standard output, could not be written."""
        options, streams = self.arguments.options, (1, 2) if self.files.has_our_streams else ()
        kept = options.get("--circuit-out"), options.get("--stimulus-out")
        outputs.push_output(self.lines, kept[0], kept[1], streams)
        outputs.push_output(self.lines, kept[1], kept[0], streams)
        outputs.push_output(self.lines, options.get("--map"), self.arguments.circuit, streams)
        if kept == (None, None):
            self.of_standard_output()

    def of_standard_output(self) -> None:
        if self.files.has_our_streams:
            outputs.push_standard_output(self.lines)

    def of_unread(self, part: str) -> None:
        """A file could not be opened or read. With the part of a stimulus or of a script, standard output may not have
        been written: the second look at the file says which."""
        name, hidden = self.arguments.files.get(part), None
        if name is None:
            return
        try:
            self.files.opened(name).close()
        except Hidden as reason:
            hidden = reason
        push_unread(self.lines, name, hidden)
        if part in ("stimulus", "script") and (hidden is None or hidden.is_pipe):
            self.of_standard_output()

    def of_run(self, part: str, fault: str) -> None:
        """A stimulus or a witness, which depends on the circuit."""
        files = self.arguments.files
        run = self.seen("witness" if "witness" in files else "stimulus")
        circuit: Union[bytes, Hidden] = b""
        try:
            circuit = self.files.bytes_of(self.arguments.circuit)
        except Hidden as hidden:
            circuit = hidden
        known = b"" if isinstance(circuit, Hidden) else circuit
        if part == "bench":
            self.add_found(run, lambda data: unrolled.push_bench(self.lines, known, self.arguments.rows_of(data)))
        else:
            push = runs.push_stimulus if part == "stimulus" else runs.push_witness
            self.add_found(run, lambda data: push(self.lines, known, data, fault))
        if isinstance(circuit, Hidden):
            self.lines.name(self.arguments.circuit)
            self.lines.add(*circuit.lines)

    def of_contents(self, part: str, fault: str) -> None:
        """What the bytes of one file say."""
        is_frame = (part, fault) == ("why", "frame")
        named = ("witness" if "witness" in self.arguments.files else "stimulus") if is_frame else part
        file = named if is_frame or part in ("certificate", "names") else "circuit"
        pushes: Dict[str, Callable[[bytes], None]] = {
            "circuit": lambda data: push_circuit(self.lines, data, fault),
            "certificate": lambda data: push_circuit(self.lines, data, fault),
            "names": self.push_names,
            "why": self.push_frame if is_frame else self.push_name,
        }
        self.add_found(self.seen(file), pushes.get(part, lambda data: self.push_unrolled(part, fault, data)))
        if part == "names":
            self.lines.add("wanted: one line for each property that is written; an empty line gives it no name")
        elif part == "why" and not is_frame:
            self.lines.add(PRINTS_NAMES)

    def add_found(self, data: Union[bytes, Hidden], push: Callable[[bytes], None]) -> None:
        """Adds what the bytes of a file say, or why they are not seen."""
        before = len(self.lines.all)
        if isinstance(data, Hidden):
            self.lines.add(*data.lines)
        else:
            push(data)
        if len(self.lines.all) == before:
            self.lines.add(CHANGED)

    # -- what the bytes of a file say

    def push_names(self, data: bytes) -> None:
        self.lines.add(f"lines with an LF at their end: {data.count(10)}")
        if data and not data.endswith(b"\n"):
            self.lines.add("the last line has no LF at its end")

    def push_frame(self, data: bytes) -> None:
        if "--frame" in self.arguments.options:
            self.lines.add(f"T is {self.arguments.number('--frame')}, counted from 0")
        rows = self.arguments.rows_of(data)
        self.lines.add(f"the last frame is {rows - 1}" if rows else "the run has no frames")

    def push_name(self, data: bytes) -> None:
        entries = names.entries_of(self.files, self.arguments.circuit)
        names.push_name(self.lines, data, self.arguments.options.get("--of", ""), entries)

    def push_unrolled(self, part: str, fault: str, data: bytes) -> None:
        if fault == "property":
            self.lines.add(f"P is {self.arguments.number('--property')}, counted from 0")
            unrolled.push_bad_count(self.lines, header_of(data))
            return
        frames = self.arguments.number("--frames")
        is_step = part == "cnf" and "--step" in self.arguments.flags and fault == "limit"
        name = "K + 1" if is_step else "K" * (part == "cnf")
        unrolled.push_unroll(self.lines, data, frames + is_step, fault, name)

    # -- what needs no look at the bytes, or only at names

    def of_known(self, part: str, fault: str) -> None:
        self.lines.name(self.arguments.circuit)
        if part == "select" and fault == "limit":
            self.lines.add("a section has at most 4,194,303 properties")
        elif part == "select":
            self.lines.add("the section has no property at a position that --property names",
                           "positions count from 0: aig info --names CIRCUIT prints them",
                           "a circuit of AIGER 1.0 has outputs alone: --from outputs")
        elif part == "property":
            self.lines.add("the properties at these two positions have the name that --property gives"
                           if fault.startswith("twice") else
                           "no property of the section has the name that --property gives",
                           "aig info --names CIRCUIT prints the properties with their names:"
                           " 3 or b3 is the one at position 3")
        elif part == "cut":
            self.lines.add("a circuit has at most 4,194,303 variables and inputs: with one for each latch or gate that is"
                           " free, the cut circuit would have more")
        else:
            self.lines.name(self.arguments.files.get("certificate", ""))
            self.lines.add(LIMIT)

    def of_cuts(self, fault: str) -> None:
        """A line that names nothing which the circuit has."""
        data, number = self.seen("cuts"), int(fault.split()[-1])
        if isinstance(data, Hidden):
            self.lines.add(*data.lines)
        else:
            self.lines.add(f"line {number} is `{first(line_of(data, number))}`")
            if data.count(10) < number:
                self.lines.add("it has no newline at its end")
        self.lines.add(WANTED_CUT, PRINTS_NAMES)

    def of_mapping(self) -> None:
        """A certificate whose comment has a mapping that is wrong."""
        data, model = self.seen("certificate"), self.seen("circuit")
        own = None if isinstance(data, Hidden) else parts_of(data)
        other = None if isinstance(model, Hidden) else parts_of(model)
        line = mapping.first_wrong_line(own, other) if own and other else None
        if isinstance(data, Hidden):
            self.lines.add(*data.lines)
        elif line:
            self.lines.add(f"line {line.number} of its comment is `{first(line.text)}`")
        self.lines.add(mapping.WANTED)

    def of_symbol(self, fault: str) -> None:
        """A certificate of which a symbol does not say which literal it is about."""
        data = self.seen("certificate")
        place = fault.split()[-1]
        parts = None if isinstance(data, Hidden) else parts_of(data)
        symbol = parts.names.get((place[0], int(place[1:]))) if parts else None
        if isinstance(data, Hidden):
            self.lines.add(*data.lines)
        elif symbol:
            self.lines.add(f"the symbol of {place} is `{first(symbol)}`")
        self.lines.add(WANTED_SYMBOL)

    def of_no_run(self, fault: str) -> None:
        """A run that is made a witness, and does not reach the property."""
        arguments, lines = self.arguments, self.lines
        lines.name(arguments.circuit)
        if fault == "property":
            lines.add("the circuit has no bad state property at this position",
                      "positions count from 0: aig info CIRCUIT prints the number of properties")
        elif arguments.has_certificate:
            lines.add("no frame of the run that the model names breaks a claim",
                      f"it has to be of the formula of aig cnf {FORMULAS['certificate']}")
        elif arguments.number("--frames"):
            lines.add("no frame of the run that the model names reaches the property",
                      "it has to be of the formula of aig cnf for the same K, P and CIRCUIT")
        else:
            lines.add("no frame of the stimulus reaches the property, or a constraint was not 1 before",
                      "aig sim CIRCUIT STIM prints the run")
            free = free_latches_of(self.circuit() or b"")
            if free:
                lines.add(f"uninitialised latches, which start at x in this run: {free}",
                          "aig witness --model takes a run with their values from a solver's model of aig cnf")

    def of_other_property(self, fault: str) -> None:
        """A witness of another property than `check` is asked for."""
        found, asked = re.findall(r"b[0-9]+", fault)
        self.lines.name(self.arguments.files.get("witness", ""))
        self.lines.add(f"line 2 names the bad state property {self.property_of(found) or found}",
                       f"--property names {self.property_of(asked) or asked}",
                       f"aig check --property {found} checks this witness")

    def property_of(self, text: str) -> Optional[str]:
        return names.property_of(self.files, self.arguments.circuit, text)

    def verdict(self) -> None:
        """Names the property of a verdict. A file that is not seen again is passed over: the verdict is printed."""
        arguments = self.arguments
        if arguments.command not in ("check", "refute") or "--alive" in arguments.flags:
            return
        text = arguments.options.get("--property", "0")
        if arguments.command == "check":
            text = os.fsdecode(line_of(self.files.bytes_or_none(arguments.files.get("witness", "")) or b"", 2))
        named = self.property_of(text)
        if named:
            self.lines.add(f"property: {named}")


def message_of(said: bytes) -> Optional[Tuple[str, str]]:
    """The part and the fault that a run said at last, if it failed; the part is empty if it has none."""
    match = MESSAGE.search(said)
    return ((match[1] or b"").decode(), match[2].decode("latin-1")) if match else None


def explanation(words: Sequence[str], status: int, said: bytes, has_our_streams: bool = True) -> str:
    """The lines that explain a run of `aig` with these arguments: the exit status, and what it said on standard error.
    Where the run did not have this process's standard streams, nothing is said of them."""
    message = message_of(said)
    if message is None and status not in (0, 1):
        return ""  # wrong arguments, help, or a run that was killed
    look = Look(Arguments(words), Files(has_our_streams))
    if message is None:
        look.verdict()
    elif message[1] == "memory":
        look.lines.add(MEMORY)
    else:
        look.of(*message)
    return "".join(look.lines.all)
