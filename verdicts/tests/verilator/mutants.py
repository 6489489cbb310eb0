"""Dumps that are changed in one place: the reader stops, or the probe notices, or the circuit is the same. No change gives
another circuit in silence."""

from __future__ import annotations

import collections
import random
import re

from aig_verdicts.verilator import btor2
from aig_verdicts.verilator.dumps.tree import NotRead

from .changes import Probed
from .shared import need

COUNT = 12
_NODE = re.compile(r"    ([\d:]+):? ([A-Z][A-Z0-9_]*) ")
_RANGE = re.compile(r" range=\[[^\]]*\]")
_TYPE = re.compile(r" @dt=0x\w+@\S+")


class Mutants:
    """Changes of the lines of a dump as text."""

    def __init__(self, text, seed):
        self._lines = text.split("\n")
        self._random = random.Random(seed)
        self._nodes = [k for k, line in enumerate(self._lines) if _NODE.match(line)]
        self._by_type = collections.defaultdict(list)
        for k in self._nodes:
            self._by_type[_NODE.match(self._lines[k])[2]].append(k)

    def _with(self, at, line):
        return "\n".join([*self._lines[:at], line, *self._lines[at + 1:]])

    def _one(self, fits=lambda line: True):
        """A line: of each type of node as often."""
        lines = [k for k in self._by_type[self._random.choice(sorted(self._by_type))] if fits(self._lines[k])]
        return self._random.choice(lines) if lines else self._one(fits)

    def unknown_node(self):
        """A node with another name."""
        at = self._one()
        return self._lines[at], self._with(at, re.sub(r"^(    [\d:]+ )([A-Z0-9_]+)", r"\1\2X", self._lines[at]))

    def unknown_attribute(self):
        """A node that says something new."""
        at = self._one()
        return self._lines[at], self._with(at, self._lines[at] + " [NEW]")

    def other_operand(self):
        """A node at another operand."""
        at = self._one()
        digit = self._random.randint(1, 3)

        def moved(it):
            return f"{it[1]}{(int(it[2]) + digit - 1) % 4 + 1}{it[3]}"
        return self._lines[at], self._with(at, re.sub(r"^(    [\d:]*?)(\d)(:? [A-Z])", moved, self._lines[at]))

    def no_range(self):
        """A type without its range."""
        at = self._one(lambda line: _RANGE.search(line) and "[GENERIC]" not in line)
        return self._lines[at], self._with(at, _RANGE.sub("", self._lines[at]))

    def no_type(self):
        """A node without its type."""
        at = self._one(_TYPE.search)
        return self._lines[at], self._with(at, _TYPE.sub("", self._lines[at], 1))

    def other_type(self):
        """A node with the type of another one."""
        at, other = self._one(_TYPE.search), self._one(_TYPE.search)
        return self._lines[at], self._with(at, _TYPE.sub(_TYPE.search(self._lines[other])[0], self._lines[at], 1))


KINDS = ("unknown_node", "unknown_attribute", "other_operand", "no_range", "no_type", "other_type")


def dumps(program, tally, chosen):
    """Changed dumps of the probe: --mutants says how many, --seed which."""
    need("verilator")
    probed = Probed()
    if probed.dump.json is not None:
        return "the dump is JSON: none, "
    faults, circuit = probed.faults()
    wanted = btor2.written(circuit)
    tally.compare("the probe", faults, [])
    made, counts = Mutants(probed.dump.text, chosen.seed), collections.Counter()
    for k in range(chosen.mutants):
        kind = KINDS[k % len(KINDS)]
        line, text = getattr(made, kind)()
        outcome = _outcome(probed, text, wanted)
        counts[outcome] += 1
        tally.check(f"{kind}: {line.strip()[:90]}", outcome != "another circuit", outcome)
    tally.check("some changes stop", counts["stops"] * 4 >= chosen.mutants, counts)
    return ", ".join(f"{count} {outcome}" for outcome, count in sorted(counts.items())) + ", "


def _outcome(probed, text, wanted):
    try:
        faults, circuit = probed.faults(probed.dump._replace(text=text))
    except NotRead:
        return "stops"
    except Exception:  # a fault of the reader: no circuit
        return "stops with a fault"
    return "noticed" if faults else "the same" if btor2.written(circuit) == wanted else "another circuit"
