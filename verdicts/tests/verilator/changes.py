"""Changes of the reader's meaning: the probe has to notice each. Some change nothing, and are listed."""

from __future__ import annotations

import random
from unittest import mock

from aig_verdicts.verilator import design, first_values, instances, probe, reader, registers
from aig_verdicts.verilator.command import deep
from aig_verdicts.verilator.dumps.dump import dumped, preprocessed, tree_of, version_of
from aig_verdicts.verilator.dumps.source import Source
from aig_verdicts.verilator.dumps.tree import Shape, Tree
from aig_verdicts.verilator.meaning import choices, expressions, operators, parts, processes, routines, sampled
from aig_verdicts.verilator.meaning import statements, writes
from aig_verdicts.verilator.meaning.values import Meaning
from aig_verdicts.verilator.meaning.words import Words

from .shared import need

# An operator that is read as another one.
OTHERS = """add:sub sub:add mul:add muls:mul and:or or:and xor:or eq:neq neq:eq lt:lte gt:gte gte:gt lte:lt lts:lt
    gts:gt gtes:gte ltes:lte shiftl:shiftr shiftr:shiftrs shiftrs:shiftr logand:logor logor:logand logif:logand
    logeq:logand not:signed negate:signed lognot:redor redand:redor redor:redand redxor:redor onehot:onehot0
    onehot0:onehot countones:clog2 extend:extends extends:extend streaml:signed""".split()
STRICT = {"lts": "ltes", "gts": "gtes", "gtes": "gts", "ltes": "lts"}
DIVISIONS = {"div": "sdiv", "divs": "udiv", "moddiv": "srem", "moddivs": "urem"}
# Changes that are none: Verilator 5.006 writes no such node, or two names are one operator.
NONE = frozenset(("muls:mul", "logeq:logand", "no cut around outputs"))
# What the probe does not notice yet: it has no routine with a variable that has an initial value.
OPEN = frozenset(("no automatic",))
SAMPLED = 10


def _shape(**changed):
    """Types with something else."""
    whole = Tree._measured

    def measured(self, kind):
        it = whole(self, kind)
        values = {"width": it.width, "depth": it.depth, "signed": it.signed, "two_valued": it.two_valued, **changed}
        return Shape(**values)
    return mock.patch.object(Tree, "_measured", measured)


def _matches(change):
    """Wildcards that are others."""
    whole = expressions.matches
    return mock.patch.multiple(choices, matches=lambda m, subject, bits, wild: whole(m, subject, bits, change(wild)))


def _at_once(m, to, value, run, later):
    writes.write(m, to, value, run, False)


def _turned(m, node, run):
    return m.words.concat(*reversed(m.words_of(node.children, run)))


def changes():
    """Each change by its name."""
    table, statement = expressions.TABLE, statements.TABLE
    made = {it: mock.patch.dict(table, {it.split(":")[0]: table[it.split(":")[1]]}) for it in OTHERS}
    made.update({f"{k}:strict": mock.patch.dict(table, {k: table[it]}) for k, it in STRICT.items() if k != "lts"})
    made.update({f"{k}:inverted": mock.patch.dict(operators.EQUALS, {k: not it}) for k, it in operators.EQUALS.items()})
    made.update({f"{k}:sign": mock.patch.dict(operators.DIVISIONS, {k: it}) for k, it in DIVISIONS.items()})
    made.update({
        "concat:turned": mock.patch.dict(table, {"concat": _turned}),
        "zeros for signs": mock.patch.object(Words, "sext", Words.uext),
        "signs for zeros": mock.patch.object(Words, "uext", Words.sext),
        "no cut of Verilator in an index": mock.patch.object(parts, "made_by_verilator", lambda node: False),
        "each part a cut": mock.patch.object(parts, "made_by_verilator", lambda node: node.tag == "sel"
                                             and node.children[1].tag == "const"),
        "no cut around arguments": mock.patch.object(routines, "made_by_verilator", lambda node: False),
        "no cut around outputs": mock.patch.object(instances, "made_by_verilator", lambda node: False),
        "no wildcards": _matches(lambda wild: ""), "casez is casex": _matches(lambda wild: "xz" if wild else ""),
        "case is casez": _matches(lambda wild: wild or "z"),
        "the first word": mock.patch.object(Source, "word", lambda self, node, expected: expected[0]),
        "the last word": mock.patch.object(Source, "word", lambda self, node, expected: expected[-1]),
        "no case inside": mock.patch.object(Source, "is_inside", lambda self, node: False),
        "the first sign": mock.patch.object(Source, "sign", lambda self, node, expected: expected[0]),
        "no automatic": mock.patch.object(Source, "says", lambda self, node, word: False),
        "no jumps": mock.patch.dict(statement, {"jumpgo": processes.nothing}),
        "no outputs": mock.patch.object(routines, "give_back", lambda p, actual, value, signed, run: None),
        "outputs by the other sign": _outputs(), "<= is =": mock.patch.object(statements, "write", _at_once),
        "no two values": _shape(two_valued=False), "all two values": _shape(two_valued=True),
        "no signs of types": _shape(signed=False), "all types signed": _shape(signed=True),
        "x is 0": mock.patch.object(Meaning, "free", lambda self, width, node: self.words.const(0, width)),
        "no resets": mock.patch.object(registers, "forcing", lambda *given: []),
        "no initial values": mock.patch.object(first_values, "run_once", lambda design: None),
        "a property without its past": mock.patch.object(sampled, "_condition", lambda m, node, off, run: m.words.one),
        "whole values for each copy": mock.patch.object(instances, "_names", lambda instance: [instance.name]),
        "no initial blocks": mock.patch.object(design, "_STARTS", ("initialstatic",)),
    })
    return made


class Probed:
    """The dump of the probe, made once."""

    def __init__(self):
        version = version_of()
        self.source = Source(preprocessed([str(probe.FILE)], []))
        self.dump = dumped(self.source, probe.TOP, version)

    def faults(self, dump=None):
        """What the probe says of the reader as it is now."""
        def read():
            made = reader.circuit_of(reader.Elaborated(tree_of(dump or self.dump), self.source), True)
            return probe.wrong(made), made
        return deep(read)


def meaning(program, tally, chosen):
    """Changes of meaning, of which the probe notices each: a sample, or all with --all."""
    need("verilator")
    probed, found = Probed(), changes()
    tally.compare("the probe", probed.faults()[0], [])
    names = sorted(set(found) - NONE - OPEN)
    for name in names if chosen.all else random.Random(chosen.seed).sample(names, SAMPLED):
        with found[name]:
            tally.check(f"{name}: noticed", _is_noticed(probed))
    return f"of {len(names)} changes, "


def _is_noticed(probed):
    try:
        return bool(probed.faults()[0])
    except Exception:  # it stops: that is noticed, whatever it says
        return True


def _outputs():
    whole = routines.give_back

    def other(p, actual, value, signed, run):
        whole(p, actual, value, not signed, run)
    return mock.patch.object(routines, "give_back", other)
