"""Why a circuit is rejected."""

from __future__ import annotations

from typing import Dict, Iterator, List, Optional, Tuple

from .kinds import kind_of, push
from .lines import Lines, first, found, place
from .reader import AFTER_C, NUMBER, OVER, UNNAMED, WHOLE_DELTA, Entry, Parts, Wrong, first_wrong, header_of, parts_of

MOST_SHOWN = 8  # gates of a cycle


def push_place(lines: Lines, data: bytes, wrong: Wrong) -> None:
    """What is at the first wrong token. Lines of a binary file count from its symbols."""
    if "which has variable" in wrong.within:
        lines.add(f"byte {wrong.at}: {found(data, wrong.at)}")
    elif wrong.begin is not None:
        lines.add(f"after the gates, {place(data[wrong.begin:], wrong.at - wrong.begin)}: {found(data, wrong.at)}")
    else:
        lines.add(f"{place(data, wrong.at)}: {found(data, wrong.at)}")


def cause(data: bytes, wrong: Wrong) -> Tuple[str, ...]:
    """A known cause of a wrong token, and what to do."""
    is_cut = wrong.at >= len(data) or wrong.wanted == WHOLE_DELTA
    if data[wrong.at : wrong.at + 2] == b"\r\n":
        is_binary = data[:3] == b"aig"
        return ("lines end with CR LF",
                "copy the file again, as it is: a program has changed its newlines" if is_binary else
                "only LF ends a line: tr -d '\\r' < FILE > NEW")
    if wrong.wanted == AFTER_C and is_cut:
        return ("the file ends with `c` and no newline, as ABC writes it with -u",
                "echo >> FILE; or write it without -u of ABC's write_aiger")
    if wrong.wanted == AFTER_C:
        return ("ABC's &w and write_xaiger of yosys write records of their own after `c`",
                "write the file with write_aiger, or with -n of ABC's &w")
    return ("something is missing at the end", "write or copy the file again: it may be cut off") if is_cut else ()


def digits_at(data: bytes, at: int) -> bytes:
    match = NUMBER.match(data, at)
    return match[0] if match else b""


def push_text(lines: Lines, data: bytes, at: int) -> None:
    """Why the token at a place is wrong. The file may have changed, so that it is right or another one is wrong."""
    wrong = first_wrong(data, at)
    if not wrong or wrong.at != at or wrong.wanted in OVER:
        return
    push_place(lines, data, wrong)
    lines.add(f"wanted: {wrong.wanted} ({wrong.within})")
    if wrong.wanted == UNNAMED and wrong.begin is None:
        before = data.find(b"\n" + data[at - 1 : at] + digits_at(data, at) + b" ")
        lines.add(f"line {data.count(10, 0, before) + 2} names it already")
    kind = kind_of(data) if wrong.within == "in the first word" else None
    if kind:
        push(lines, kind, "circuit")
    else:
        lines.add(*cause(data, wrong))


def push_limit(lines: Lines, data: bytes) -> None:
    """Which number is over its limit."""
    wrong = first_wrong(data, -1)
    if not wrong or wrong.wanted not in OVER:
        return
    if wrong.begin is not None:
        push_place(lines, data, wrong)
    else:
        lines.add(f"{place(data, wrong.at)}: {first(digits_at(data, wrong.at))}")
    lines.add(f"wanted: {wrong.wanted} ({wrong.within})")


def push_counts(lines: Lines, data: bytes) -> None:
    """Why M does not fit the other counts of the header."""
    header = header_of(data)
    if not header:
        return
    total = header.inputs + header.latches + header.gates
    lines.add(f"line 1: M = {header.max_var}, I = {header.inputs}, L = {header.latches}, A = {header.gates};"
              f" I + L + A = {total}")
    if not header.is_binary:
        lines.add("wanted: M of at least I + L + A")
        return
    lines.add("wanted: M = I + L + A, in the binary format")
    if header.max_var > total:
        lines.add("some variables are unused: the text format (aag) allows this")


def shown(parts: Parts, entry: Entry) -> str:
    """An entry: its section, position and name, and its line unless it is a gate of a binary file."""
    section, position, name = parts.told(entry)
    text = f"{section} {position}" + (f" `{first(name)}`" if name else "")
    if parts.header.is_binary and section == "gate":
        return text
    return f"{text} (line {parts.data.count(10, 0, entry.at) + 1})"


def push_range(lines: Lines, parts: Parts) -> None:
    """The first literal that is over 2M + 1."""
    most = 2 * parts.header.max_var + 1
    for entry in parts.entries:
        over = [it for it in ((entry.defined or 0), *entry.uses) if it > most]
        if over:
            lines.add(f"{shown(parts, entry)}: literal {over[0]}",
                      f"wanted: literals of at most 2M + 1 = {most}, because M = {parts.header.max_var}")
            return


def push_definition(lines: Lines, parts: Parts) -> None:
    """The first definition of a literal that is odd or 0."""
    for entry in parts.entries:
        if entry.defined is not None and (entry.defined % 2 or not entry.defined):
            lines.add(f"{shown(parts, entry)}: it defines literal {entry.defined}",
                      "wanted: an even literal greater than 0")
            return


def push_undefined(lines: Lines, parts: Parts, variable: int) -> None:
    """The first use of a variable that nothing defines."""
    for entry in parts.entries:
        if any(use // 2 == variable for use in entry.uses):
            lines.add(f"{shown(parts, entry)} uses variable {variable} (literal {2 * variable})",
                      "no input, latch or gate defines it")
            return


def push_cycle(lines: Lines, parts: Parts, variable: int) -> None:
    """The gates of a cycle that a gate is on, or reads from."""
    cycle = cycle_from(parts, variable)
    if not cycle:
        return
    on = "is on a cycle" if variable in cycle else "reads from a cycle"
    literals = " -> ".join(str(2 * it) for it in cycle[:MOST_SHOWN]) + " -> .." * (len(cycle) > MOST_SHOWN)
    lines.add(f"{shown(parts, parts.defining(variable)[0])}, of variable {variable}, {on}",
              f"each of these gates reads the next: {literals}", "a cycle has to go through a latch")


def cycle_from(parts: Parts, variable: int) -> List[int]:
    """The variables of a cycle that a gate is on, or leads to: the last one is the first again."""
    gates = [it for it in parts.entries if it.section == "gate"]
    sides = {it.defined // 2: [use // 2 for use in it.uses] for it in gates if it.defined}
    if variable not in sides:
        return []
    path, is_done = {variable: 0}, set()
    left: Dict[int, Iterator[int]] = {variable: iter(sides[variable])}
    while path:
        gate = next(reversed(path))
        side = next(left[gate], None)
        if side is None:
            is_done.add(gate)
            del path[gate]
        elif side in path:
            return [*path][path[side]:] + [side]
        elif side in sides and side not in is_done:
            path[side] = len(path)
            left[side] = iter(sides[side])
    return []


def push_parts(lines: Lines, parts: Parts, fault: str, variable: int) -> None:
    """What is wrong with a circuit whose tokens are right."""
    names = f"variable {variable} (literal {2 * variable})"
    defining = parts.defining(variable)
    if fault == "range":
        push_range(lines, parts)
    elif fault == "definition":
        push_definition(lines, parts)
    elif fault == "undefined":
        push_undefined(lines, parts, variable)
    elif fault == "cycle":
        push_cycle(lines, parts, variable)
    elif fault == "redefined" and len(defining) > 1:
        lines.add(f"{names} has two definitions:", *(shown(parts, it) for it in defining[:2]))
    elif fault == "reset" and defining:
        lines.add(f"{shown(parts, defining[0])} has the reset {defining[0].reset}",
                  f"wanted: 0, 1, or its own literal {2 * variable}, which means uninitialised")


def push_circuit(lines: Lines, data: bytes, fault: str) -> None:
    """Why the bytes are no circuit."""
    kind, _, number = fault.partition(" ")
    if kind == "text":
        push_text(lines, data, int(number.split()[-1]))
    elif kind == "limit":
        push_limit(lines, data)
    elif kind == "counts":
        push_counts(lines, data)
    else:
        parts: Optional[Parts] = parts_of(data)
        if parts:
            push_parts(lines, parts, kind, int(number or 0))
