"""Names for what Yosys leaves without one, and the circuit with its properties in the order of the sources."""

from __future__ import annotations

import re
from collections import Counter
from dataclasses import dataclass
from typing import Any, Dict, Iterator, List, Mapping, Sequence, Set, Tuple

from aig.program import run as aig
from .hashed import Gate, Hashed
from aig.waves.ranges import Ranges
from .registers import plain

_SAMPLED = re.compile(r"\$auto\$clk2fflogic\.cc:\d+:sample_\w+\$(.+)#sampled\$\d+")
_PORT = re.compile(r"\$auto\$clk2fflogic\.cc:\d+:execute\$(.+)#(\d+)#(\w+)_q\$\d+")
_PAST_CLOCK = re.compile(r"\$auto\$clk2fflogic\.cc:\d+:execute\$.+#\d+#past_clk#(.+)\$\d+")
_NEXT = re.compile(r"(.*)\$0(?:\\|(?=\$))(.+?)(?:\[\d+:\d+\])?(?:\$\d+)?")

Entry = Tuple[str, int]  # the letter of a section, and a position there


def shown_name(wire: str, registers: Mapping[str, str]) -> str:
    """A name that a waveform can show, for a wire that Yosys made: one of `registers`, or `q_before` for what a register of
    several clocks remembers. It is empty if there is none."""
    wire = plain(wire)
    if wire in registers:
        return registers[wire]
    if wire.startswith("\\") or "$" not in wire:
        return re.sub(r"[:\[\]]+", "_", wire.lstrip("\\")).rstrip("_") if re.fullmatch(r"\\?[A-Za-z_][^{}']*", wire) else ""
    match = _SAMPLED.fullmatch(wire) or _PAST_CLOCK.fullmatch(wire)
    if match:
        inner = shown_name(match[1], registers)
        return inner and f"{inner}_before"
    match = _PORT.fullmatch(wire)
    if match:
        return f"{match[1]}_{match[3]}{match[2] if match[2] != '0' else ''}_before"
    match = _NEXT.fullmatch(wire)
    if match and not wire.startswith("$auto"):
        inner = shown_name(match[2], registers)
        return inner and f"{match[1]}{inner}_next"
    return ""


def hidden_names(listed: str, lines_of_x: Dict[str, List[int]], made: Dict[Tuple[str, int], str],
                 registers: Mapping[str, str]) -> Dict[int, str]:
    """Names of literals whose wires Yosys made. `listed` is what `write_aiger -vmap` wrote; `lines_of_x` has the lines of
    the sources that read the bits of a free wire: their names are `x_12`. `made` has names of bits of wires, and
    `registers` those of wires."""
    best: Dict[int, Tuple[bool, str, str, int]] = {}
    wide: Set[str] = set()
    result: Dict[int, str] = {}
    for line in listed.splitlines():
        words = line.split(" ", 3)
        if words[0] != "wire" or not words[-1].startswith("$"):
            continue
        literal, bit, wire = int(words[1]), int(words[2]), words[3]
        if (wire, bit) in made:
            result[literal] = made[wire, bit]
            continue
        if wire in lines_of_x:
            name = f"x_{lines_of_x[wire][bit]}" if bit < len(lines_of_x[wire]) and lines_of_x[wire][bit] else "x"
        else:
            name = shown_name(wire, registers)
        rank = (name.endswith("_next"), name, wire, bit)
        if name and (literal not in best or rank < best[literal]):
            best[literal] = rank
        if bit:
            wide.add(wire)
    bases: Dict[Tuple[str, str], str] = {}
    counts: Dict[str, int] = {}
    for literal, (_, name, wire, bit) in sorted(best.items(), key=lambda it: (it[1][1:], it[0])):
        if literal in result:
            continue
        if (name, wire) not in bases:
            counts[name] = counts.get(name, 0) + 1
            bases[name, wire] = name if counts[name] == 1 else f"{name}_{counts[name]}"
        result[literal] = f"{bases[name, wire]}[{bit}]" if wire in wide else bases[name, wire]
    return result


def lines_of_x(clocked: Dict[str, Any]) -> Dict[str, List[int]]:
    """For each wire that is free, the line of the first cell that reads a bit of it, or 0."""
    module = next(iter(clocked.values()))
    free = {cell["connections"]["Y"][0]: cell["connections"]["Y"] for cell in module["cells"].values() if cell["type"] == "$anyseq"}
    lines = {bit: 0 for bits in free.values() for bit in bits}
    for cell in module["cells"].values():
        place = re.search(r":(\d+)\.\d+-\d+\.\d+$", cell["attributes"].get("src", ""))
        for port, bits in cell["connections"].items():
            if place and cell["port_directions"].get(port) != "output":
                for bit in bits:
                    if lines.get(bit) == 0:
                        lines[bit] = int(place[1])
    wires = {}
    for name, wire in module["netnames"].items():
        if wire["bits"] and wire["bits"][0] in free:
            wires[name] = [lines.get(bit, 0) for bit in wire["bits"]]
    return wires


_ASYNCHRONOUS = "$auto$async2sync.cc"
_CONTROL = re.compile(r"\$auto\$clk2fflogic\.cc:\d+:sample_control\w*\$(\$.+)#sampled\$\d+")


def made_names(clocked: Dict[str, Any], registers: Mapping[str, str]) -> Dict[Tuple[str, int], str]:
    """The names of registers that Yosys made, by the bits of their wires. `q_kept` is what a register q with an asynchronous
    set or reset keeps, or a latch q: the value of q is this one, or that of the set, reset or open latch. `not_rst_before`
    is for several clocks what the inverted reset was."""
    module = next(iter(clocked.values()))
    public = _shown_bits(module, registers)
    inverted = {cell["connections"]["Y"][0]: cell["connections"]["A"][0] for cell in module["cells"].values()
                if cell["type"] in ("$not", "$logic_not") and len(cell["connections"]["A"]) == 1}
    follows = _follows(module)
    found = {}
    for name, wire in module["netnames"].items():
        for k, bit in enumerate(wire["bits"] if name.startswith(_ASYNCHRONOUS) else []):
            *_, source, at = next((public[it] for it in _reached(bit, follows) if it in public), (False, 0, "", 0))
            if source:
                found[name, k] = _bit(f"{source}_kept", at)
        match = _CONTROL.fullmatch(name)
        read = inverted.get(module["netnames"][match[1]]["bits"][0]) if match and match[1] in module["netnames"] else None
        if read in public:
            *_, source, at = public[read]
            found[name, 0] = _bit(f"not_{source}_before", at)
    return found


def _shown_bits(module: Dict[str, Any], registers: Mapping[str, str]) -> Dict[Any, Tuple[bool, int, str, int]]:
    """The name and the index of each bit: that of a wire which is nearest to the top module, or of an assertion's register."""
    shown: Dict[Any, Tuple[bool, int, str, int]] = {}
    counts: Dict[str, int] = {}
    for wire, facts in sorted(module["netnames"].items()):
        is_made = wire.startswith("$")
        name = registers.get(plain(wire), "") if is_made else wire
        if is_made and name:
            counts[name] = counts.get(name, 0) + 1
            name = name if counts[name] == 1 else f"{name}_{counts[name]}"
        for k, bit in enumerate(facts["bits"] if name else []):
            word = is_made, name.count("."), name, k if len(facts["bits"]) > 1 else -1
            shown[bit] = min(shown.get(bit, word), word)
    return shown


def _follows(module: Dict[str, Any]) -> Dict[Any, List[Any]]:
    """The bits that depend on a bit by a cell that makes an asynchronous value."""
    follows: Dict[Any, List[Any]] = {}
    for name, cell in module["cells"].items():
        for port in ("A", "B") if name.startswith(_ASYNCHRONOUS) else ():
            for bit, to in zip(cell["connections"].get(port, []), cell["connections"].get("Y", [])):
                follows.setdefault(bit, []).append(to)
    return follows


def _reached(bit: Any, follows: Dict[Any, List[Any]]) -> List[Any]:
    """The bits that follow a bit, the nearest first."""
    found = [bit]
    for it in found:
        found += [to for to in follows.get(it, []) if to not in found]
    return found


# -- the circuit


def _wire(word: str) -> Tuple[str, int]:
    """The wire and the bit of a name; a wire of one bit has none."""
    match = re.fullmatch(r"(.+)\[(\d+)\]", word)
    return (match[1], int(match[2])) if match else (word, -1)


def _words(symbol: bytes) -> List[str]:
    return [word for word in symbol.decode("latin-1").split(" ") if word]


class _Parts:
    """The lines of an ASCII file by their sections."""

    def __init__(self, circuit: bytes):
        lines = aig("toaig", "--to", "aag", files=[circuit]).split(b"\n")
        counts = [int(word) for word in lines[0].split()[1:]] + [0] * 9
        self.most, self.sections, at = counts[0], {}, 1
        for letter, count in zip("iloabc", [*counts[1:4], 0, *counts[5:7]]):
            self.sections[letter] = lines[at : at + count]
            at += count
        if counts[7] or counts[8]:
            raise ValueError("justice and fairness")
        self.sections["a"] = lines[at : at + counts[4]]
        at += counts[4]
        self.symbols: Dict[Entry, bytes] = {}
        while at < len(lines) and lines[at] != b"c" and lines[at]:
            place, _, symbol = lines[at].partition(b" ")
            self.symbols[chr(place[0]), int(place[1:])] = symbol
            at += 1

    def hash(self) -> None:
        """Leaves out gates that are twice there or constant, and gates and latches that no output, property or assumption
        needs."""
        hashed = Hashed([_gate(line) for line in self.sections["a"]])
        for letter in "olbc":
            self.sections[letter] = [_with_literals(line, hashed, letter == "l") for line in self.sections[letter]]
        latches = {int(line.split(b" ")[0]): int(line.split(b" ")[1]) for line in self.sections["l"]}
        needed = hashed.read_by((int(line) for letter in "obc" for line in self.sections[letter]), latches)
        self.sections["a"] = [b"%d %d %d" % gate for gate in hashed.gates(needed)]
        left = [k for k, literal in enumerate(latches) if literal in needed]
        self.sections["l"] = [self.sections["l"][k] for k in left]
        names = {("l", at): self.symbols[("l", k)] for at, k in enumerate(left) if ("l", k) in self.symbols}
        self.symbols = {**{entry: name for entry, name in self.symbols.items() if entry[0] != "l"}, **names}

    def words(self) -> Iterator[Tuple[Entry, str]]:
        """Each name of each entry."""
        return ((entry, word) for entry, symbol in self.symbols.items() for word in _words(symbol))

    def read(self) -> Set[bytes]:
        """The positive literals that anything reads."""
        words = (word for letter in "olbca" for line in self.sections[letter] for word in line.split(b" ")[letter in "la" :])
        return {b"%d" % (int(word) & ~1) for word in words}

    def file(self) -> bytes:
        heading = [len(self.sections[letter]) for letter in "iloabc"]
        lines = [f"aag {self.most} {' '.join(map(str, heading))}".encode()]
        for letter in "ilobca":
            lines += self.sections[letter]
        lines += [f"{letter}{k} ".encode() + symbol for (letter, k), symbol in sorted(self.symbols.items(), key=_symbol_order) if symbol]
        return aig("toaig", "--to", "aig", files=[b"\n".join([*lines, b""])])


def _gate(line: bytes) -> Gate:
    literal, one, other = map(int, line.split(b" "))
    return literal, one, other


def _with_literals(line: bytes, hashed: Hashed, is_latch: bool) -> bytes:
    """An output, a property or an assumption of gates that are there, or a latch with such a next state."""
    words = line.split(b" ")
    words[is_latch] = b"%d" % hashed.literal(int(words[is_latch]))
    return b" ".join(words)


def _symbol_order(item: Tuple[Entry, bytes]) -> Tuple[int, int]:
    return "ilobc".index(item[0][0]), item[0][1]


def _natural(word: str) -> str:
    return re.sub(r"\d+", lambda it: it[0].zfill(9), word)


@dataclass(frozen=True)
class Naming:
    """What the entries of a circuit are to be called.

    hidden       names of literals whose wires Yosys made
    ports        those of the design, in its order
    properties   their positions in the circuit and their symbols, in the order that they get
    assumptions  their names, in the order of the circuit
    ranges       those by which the sources declare wires
    """

    hidden: Mapping[int, str]
    ports: Sequence[str]
    properties: Sequence[Tuple[int, str]]
    assumptions: Sequence[str]
    ranges: Ranges


def named(circuit: bytes, naming: Naming) -> bytes:
    """The circuit with a name for each signal, and without free values that nothing reads. The outputs are the output
    ports of the design, and then the named wires that are no inputs, latches or other wires. Bits are in the order of
    their weight, so those of a vector [2:9] have falling indices, and are no vector for `aig`: it would show their
    value turned around."""
    parts, hidden = _Parts(circuit), naming.hidden
    parts.hash()
    rank = {port: k for k, port in enumerate(naming.ports)}
    known: Dict[str, bytes] = {}
    read, widths = parts.read(), Counter(_wire(word)[0] for (letter, _), word in parts.words() if letter == "o")
    wires: Dict[bytes, List[str]] = {}
    for (letter, k), word in parts.words():
        if letter == "o":
            wires.setdefault(parts.sections["o"][k], []).append(word)
    for letter in "il":
        rows = []
        bits = Counter(_wire(word)[0] for (its, _), word in parts.words() if its == letter)

        def order(word: str) -> Tuple[int, bool, int, bool, str]:
            """Nearest to the top module; of vectors with all of their bits here; of wide ones."""
            wire = _wire(word)[0]
            return word.count("."), bits[wire] < widths[wire], -bits[wire], word.endswith("]"), word

        for k, line in enumerate(parts.sections[letter]):
            literal = line.split(b" ")[0]
            words = _words(parts.symbols.pop((letter, k), b""))
            if not words and not hidden.get(int(literal)):  # a wire that is a free value, as an output of a box
                words = wires.get(literal, [])
            words.sort(key=order)
            if words or literal in read or letter == "l":
                shown = words or [hidden.get(int(literal), "")]
                rows.append((not words, not shown[0], rank.get(_wire(shown[0])[0], len(rank)), shown[0].count("."), _natural(shown[0]), k, line, shown))
                known.update((word, literal) for word in words)
        rows.sort(key=lambda row: row[:-2])
        parts.sections[letter] = [row[-2] for row in rows]
        for k, row in enumerate(rows):
            parts.symbols[letter, k] = " ".join(row[-1]).encode("latin-1", "replace")
    _outputs(parts, known, rank)
    parts.sections["b"] = [parts.sections["b"][position] for position, _ in naming.properties]
    for k, (_, text) in enumerate(naming.properties):
        parts.symbols["b", k] = text.encode()
    for entry, symbol in parts.symbols.items():
        if entry[0] in "ilo":
            parts.symbols[entry] = " ".join(map(naming.ranges.declared, _words(symbol))).encode("latin-1", "replace")
    for k, name in enumerate(naming.assumptions):
        parts.symbols["c", k] = name.encode()
    return parts.file()


def _outputs(parts: _Parts, known: Dict[str, bytes], rank: Dict[str, int]) -> None:
    """Each wire once, under the name that is nearest to the top module; its other names come after that one."""
    wires: Dict[str, List[Tuple[int, bytes]]] = {}
    for k, literal in enumerate(parts.sections["o"]):
        wire, bit = _wire(parts.symbols.pop(("o", k)).decode("latin-1"))
        wires.setdefault(wire, []).append((bit, literal))
    kept: List[List[str]] = []
    same: Dict[Tuple[bytes, ...], List[str]] = {}
    for wire in sorted(wires, key=lambda it: (rank.get(it, len(rank)), it.count("."), _natural(it))):
        wires[wire].sort()
        literals = tuple(literal for _, literal in wires[wire])
        if wire in rank:
            kept.append([wire])
        elif all(known.get(_bit(wire, bit)) == literal for bit, literal in wires[wire]):
            continue
        elif literals in same:
            same[literals].append(wire)
        else:
            kept.append([wire])
        same.setdefault(literals, kept[-1])
    parts.sections["o"] = []
    for names in kept:
        for position, (_, literal) in enumerate(wires[names[0]]):
            words = [_bit(wire, wires[wire][position][0]) for wire in names]
            parts.symbols["o", len(parts.sections["o"])] = " ".join(words).encode("latin-1")
            parts.sections["o"].append(literal)


def _bit(wire: str, bit: int) -> str:
    return wire if bit < 0 else f"{wire}[{bit}]"
