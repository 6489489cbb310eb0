"""Why a literal of a run is what it is, in lines of text, by the values of a plain simulator. It shares nothing with
the toolkit."""

import collections
import copy
import re
from typing import NamedTuple, Optional

from library.reference import Parts, literal, values

MOST = 2 ** 30
LETTERS = "ilobc"
INDEXED = re.compile(r"(.+)\[(0|[1-9][0-9]*)\]", re.DOTALL)

# A run of neighbours of a section, from bit 0 up: its name, the letter of the section, and the positions.
Signal = collections.namedtuple("Signal", "name letter positions")


class Names:
    """The names of a circuit's entries and vectors. An entry is a letter and a position."""

    def __init__(self, text, parts):
        self.sections = {"i": parts.inputs, "l": [latch[0] for latch in parts.latches], "o": parts.outputs,
                         "b": parts.bad,
                         "c": parts.constraints}
        body = re.split(r"(?m)^c$", text)[0]
        self.words = {(letter, int(position)): [self.readable(word) for word in name.split(" ") if word]
                      for letter, position, name in re.findall(r"(?m)^([ilobc])(\d+) (.*)$", body)}
        self.signals, self.signal_of = [], {}
        for letter in LETTERS:
            self.add_signals(letter)
        self.known = {}
        self.learn()

    @staticmethod
    def readable(word):
        return re.sub(r"[^!-~]", "_", word)

    def first(self, entry):
        words = self.words.get(entry, [])
        return words[0] if words else f"{entry[0]}{entry[1]}"

    def entries(self):
        return [(letter, position) for letter in LETTERS for position in range(len(self.sections[letter]))]

    def add_signals(self, letter):
        names = [self.first((letter, position)) for position in range(len(self.sections[letter]))]
        runs = []
        for position, name in enumerate(names):
            before = INDEXED.fullmatch(names[position - 1]) if position else None
            if before and name == f"{before[1]}[{int(before[2]) + 1}]":
                runs[-1].append(position)
            else:
                runs.append([position])
        bases = collections.Counter(INDEXED.fullmatch(names[run[0]])[1] for run in runs if len(run) > 1)
        for run in runs:
            name = names[run[0]]
            if len(run) > 1:
                base, first = INDEXED.fullmatch(name).groups()
                last = int(first) + len(run) - 1
                name = base if first == "0" and bases[base] == 1 else f"{base}[{last}:{first}]"
            for bit, position in enumerate(run):
                self.signal_of[letter, position] = len(self.signals), bit
            self.signals.append(Signal(name, letter, run))

    def learn(self):
        """What each name is that of; what is learned first stays."""
        for entry in self.entries():
            self.known.setdefault(self.first(entry), [entry])
        for signal in self.signals:
            self.known.setdefault(signal.name, [(signal.letter, position) for position in signal.positions])
        indexed = {}
        for entry in self.entries():
            for word in self.words.get(entry, [])[1:]:
                self.known.setdefault(word, [entry])
            for word in self.words.get(entry, []):
                found = INDEXED.fullmatch(word)
                if found:
                    indexed.setdefault(found[1], {}).setdefault(int(found[2]), entry)
        for base, bits in indexed.items():
            if max(bits) - min(bits) + 1 == len(bits):
                self.known.setdefault(base, [bits[bit] for bit in sorted(bits)])
        for letter, position in self.entries():
            self.known.setdefault(f"{letter}{position}", [(letter, position)])

    def literals(self, name, parts):
        """The literals of a name, from bit 0 up; nothing where it means none."""
        if name in self.known:
            return [self.sections[letter][position] for letter, position in self.known[name]]
        if re.fullmatch("0|[1-9][0-9]*", name) and parts.is_defined(int(name)):
            return [int(name)]
        if name.startswith("!") and not name.startswith("!!"):
            plain = self.literals(name[1:], parts)
            return plain and [each ^ 1 for each in plain]
        return None

    def spelled(self, found):
        """Words `NAME=VALUE` of entries with their values, in the order of the circuit."""
        groups = {}
        for entry, value in found.items():
            place, bit = self.signal_of[entry]
            groups.setdefault(place, {})[bit] = value
        return [f"{self.signals[place].name}={number([bits.get(bit, '?') for bit in range(len(self.signals[place].positions))])}"
                for place, bits in sorted(groups.items())]


def number(bits):
    """Bits from bit 0 up, as Verilog writes them."""
    text = "".join(reversed(bits))
    if len(text) == 1 or set(text) == {"x"}:
        return text[0]
    if set(text) <= {"0", "1"}:
        return f"{len(text)}'h{int(text, 2):0{(len(text) + 3) // 4}x}"
    return f"{len(text)}'b{text}"


class Run:
    """A run of a circuit: its values by frame, and which side of a gate leads on."""

    def __init__(self, parts, start, rows):
        self.parts, self.start = parts, start
        run = copy.copy(parts)
        run.latches = [[lit, following, {"0": 0, "1": 1, "x": lit}[value]]
                       for (lit, following, _), value in zip(parts.latches, start)]
        self.values = values(run, rows)
        self.order = parts.order()
        self.sources = {lit: ("i", at) for at, lit in enumerate(parts.inputs)}
        self.sources.update({latch[0]: ("l", at) for at, latch in enumerate(parts.latches)})

    def weights(self, frame):
        """The weight of each variable at a frame, by its even literal."""
        now = self.values[frame]
        weights = {0: 0, **{lit: 1 for lit in self.sources}}
        for lhs in self.order:
            sides = self.parts.gates[lhs]
            if now[lhs] == "0":
                weights[lhs] = min(weights[side & ~1] for side in sides if literal(now, side) == "0")
            else:
                weights[lhs] = min(MOST, sum(weights[side & ~1] for side in sides if literal(now, side) == now[lhs]))
        return weights

    def chosen(self, frame, weights, lhs, is_met):
        """The side of a gate that is 0 by both: the lighter, but the other where it alone is met already."""
        first, second = self.parts.gates[lhs]
        light, heavy = (second, first) if weights[second & ~1] < weights[first & ~1] else (first, second)
        return heavy if is_met(heavy) else light

    def sides(self, frame, weights, lhs, is_met):
        """The sides that a gate's value comes of."""
        now = self.values[frame]
        equal = [side for side in self.parts.gates[lhs] if literal(now, side) == now[lhs]]
        if now[lhs] == "0" and len(equal) == 2:
            return [self.chosen(frame, weights, lhs, is_met)]
        return equal

    def causes(self, frame, weights, literals, named):
        """The inputs and latches that these literals are explained by, with their values. Named ones are those of
        earlier lines of the frame; they grow."""
        now, found, seen = self.values[frame], {}, set()

        def is_met(side):
            return side & ~1 in seen or self.sources.get(side & ~1) in found or self.sources.get(side & ~1, 0) in named

        waiting = [each & ~1 for each in reversed(literals)]
        while waiting:
            variable = waiting.pop()
            if variable in seen or variable == 0:
                continue
            seen.add(variable)
            if variable in self.sources:
                found[self.sources[variable]] = now[variable]
            else:
                waiting += [side & ~1 for side in reversed(self.sides(frame, weights, variable, is_met))]
        named.update(found)
        return found


class Explanation:
    """The lines that explain literals at a frame, down to the frame at which they end."""

    def __init__(self, names, run):
        self.names, self.run = names, run
        self.lines = []

    def add(self, head, found):
        self.lines.append(f"{head}: {' '.join(self.names.spelled(found)) or 'always'}")

    def explain(self, label, literals, last, depth=None):
        frame = last
        named = self.first_line(label, literals, last)
        while frame > 0 and named and (depth is None or last - frame < depth):
            named = self.step(named, frame)
            frame -= 1
        if named and frame > 0:
            self.add(f"at {frame}, not explained", named)
        elif named:
            self.starts(named)
        return self.lines

    def first_line(self, label, literals, frame):
        run, now = self.run, self.run.values[frame]
        own = [run.sources.get(each) for each in literals]
        if all(each and each[0] == "l" for each in own):
            return {entry: now[each] for entry, each in zip(own, literals)}
        found = run.causes(frame, run.weights(frame), literals, set())
        self.add(f"{label}={number([literal(now, each) for each in literals])} at {frame}", found)
        return latches_of(found)

    def step(self, named, frame):
        """The lines of the latches that are named at a frame, and those that they name at the one before."""
        run, before, mentioned, groups = self.run, {}, set(), {}
        weights = run.weights(frame - 1)
        for entry in sorted(named):
            groups.setdefault(self.names.signal_of[entry][0], []).append(entry)
        for _, group in sorted(groups.items()):
            here = {entry: named[entry] for entry in group}
            found = run.causes(frame - 1, weights, [run.parts.latches[at][1] for _, at in group], mentioned)
            if found != here:
                self.add(f"{self.names.spelled(here)[0]} at {frame}, by {frame - 1}", found)
            before.update(latches_of(found))
        return before

    def starts(self, named):
        resets = {entry: value for entry, value in named.items() if str(self.run.parts.latches[entry[1]][2]) == value}
        others = {entry: value for entry, value in named.items() if entry not in resets}
        for words, found in (("reset", resets), ("start", others)):
            if found:
                self.add(f"at 0, by {words}", found)


def latches_of(found):
    return {entry: value for entry, value in found.items() if entry[0] == "l"}


def resets_of(parts):
    return "".join({0: "0", 1: "1"}.get(reset, "x") for _, _, reset in parts.latches)


class Asked(NamedTuple):
    """What `aig why` is asked: a name as it was typed, or by default that of a property, a frame and a depth."""

    name: str
    last: int
    depth: Optional[int] = None


def explained(text, start, rows, asked):
    """The text of `aig why` about a circuit in text."""
    parts = Parts(text)
    names = Names(text, parts)
    literals = names.literals(asked.name, parts)
    run = Run(parts, start, rows)
    return "".join(line + "\n" for line in Explanation(names, run).explain(asked.name, literals, asked.last,
                                                                           asked.depth))
