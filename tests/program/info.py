"""Rows of `aig info`: each fact, both formats, the examples beside a plain reader, refusals; and the names of entries."""

from library.circuits import TEXTS, write_all
from library.plain_reader import Reader
from library.runs import EXAMPLES, contents
from program.rows import Rows, data

NAMES = ("format variables inputs latches outputs gates bad constant constraints impossible justice fairness "
         "uninitialised resets levels fanout symbols comment ready").split(" ")

# Circuits, and their facts in the order of the names.
FACTS = (
    ("the empty circuit", "aag 0 0 0 0 0\n", "aag 0 0 0 0 0 0 0 0 0 0 0 0 0 0 0 0 0 yes"),
    ("the empty binary circuit", "aig 0 0 0 0 0\n", "aig 0 0 0 0 0 0 0 0 0 0 0 0 0 0 0 0 0 yes"),
    ("one gate, with its right sides swapped", TEXTS["one_gate"], "aag 3 2 0 1 1 0 0 0 0 0 0 0 0 1 1 0 0 no"),
    ("one gate in binary", "aig 3 2 0 1 1\n6\n\x02\x02", "aig 3 2 0 1 1 0 0 0 0 0 0 0 0 1 1 0 0 yes"),
    ("a gate whose sides are of one variable", "aag 2 1 0 1 1\n2\n4\n4 2 3\n",
     "aag 2 1 0 1 1 0 0 0 0 0 0 0 0 1 1 0 0 no"),
    ("a gate of constants", "aag 1 0 0 1 1\n2\n2 1 0\n", "aag 1 0 0 1 1 0 0 0 0 0 0 0 0 1 1 0 0 yes"),
    ("variables without a definition", TEXTS["unused"], "aag 7 1 0 1 2 0 0 0 0 0 0 0 0 2 2 0 0 no"),
    ("the deepest gate in the middle", "aag 5 2 0 1 3\n2\n4\n10\n6 4 2\n10 6 2\n8 4 2\n",
     "aag 5 2 0 1 3 0 0 0 0 0 0 0 0 2 3 0 0 no"),
    ("an uninitialised latch", TEXTS["feedback"], "aag 3 1 1 1 1 0 0 0 0 0 0 1 0 1 1 0 0 yes"),
    ("latches with each reset", "aag 3 0 3 0 0\n2 2\n4 2 1\n6 2 6\n", "aag 3 0 3 0 0 0 0 0 0 0 0 1 1 0 0 0 0 yes"),
    ("all sections", TEXTS["sections"], "aag 3 1 1 1 1 1 0 1 0 1 1 1 0 1 1 2 3 yes"),
    ("bad state properties that are constants", "aag 1 1 0 0 0 4\n2\n0\n3\n1\n0\n",
     "aag 1 1 0 0 0 4 3 0 0 0 0 0 0 0 0 0 0 yes"),
    ("constants that are no bad state properties", "aag 1 1 0 1 0 1 1\n2\n0\n2\n1\n",
     "aag 1 1 0 1 0 1 0 1 0 0 0 0 0 0 0 0 0 yes"),
    ("constraints that no run keeps", "aag 1 1 0 0 0 1 5\n2\n0\n0\n1\n2\n3\n0\n",
     "aag 1 1 0 0 0 1 1 5 2 0 0 0 0 0 0 0 0 yes"),
    ("justice properties, not their literals", "aag 1 1 0 0 0 0 0 2 0\n2\n1\n2\n2\n2\n3\n",
     "aag 1 1 0 0 0 0 0 0 0 2 0 0 0 0 0 0 0 yes"),
    ("an empty comment", "aag 1 1 0 0 0\n2\nc\n", "aag 1 1 0 0 0 0 0 0 0 0 0 0 0 0 0 0 0 yes"),
    ("a comment of more lines, and of bytes over 126", b"aag 0 0 0 0 0\nc\na\nb\xff",
     "aag 0 0 0 0 0 0 0 0 0 0 0 0 0 0 0 0 4 yes"),
    ("the greatest variable", TEXTS["many"], "aag 4194303 0 0 0 0 0 0 0 0 0 0 0 0 0 0 0 0 no"),
    ("the greatest fan-out is the constant's", "aag 4 2 0 0 2\n2\n4\n6 2 1\n8 4 0\n",
     "aag 4 2 0 0 2 0 0 0 0 0 0 0 0 1 2 0 0 yes"),
)

# Circuits, and the lines of `info --names`: the letter, position and literal of each entry, and its name.
ENTRIES = (
    ("the empty circuit", "aag 0 0 0 0 0\n", ""),
    ("one gate, without names", TEXTS["one_gate"], "i 0 2 \ni 1 4 \no 0 6 \n"),
    ("one gate in binary", "aig 3 2 0 1 1\n6\n\x02\x02", "i 0 2 \ni 1 4 \no 0 6 \n"),
    ("all sections", TEXTS["sections"], "i 0 2 in\nl 0 4 state\no 0 6 \nb 0 6 \nc 0 4 \nj 0 - \nf 0 4 \n"),
    ("names in another order, of words and of other bytes",
     b"aag 2 2 0 1 0 1 1 2 1\n4\n2\n5\n1\n2\n1\n0\n3\n0\nj1 last\nf0 f\ni1 a b\nb0 - 0\nj0 \xff\x01\no0 i0\nc0 c\n",
     b"i 0 4 \ni 1 2 a b\no 0 5 i0\nb 0 1 - 0\nc 0 2 c\nj 0 - \xff\x01\nj 1 - last\nf 0 0 f\n"),
    ("latches of each reset, by their literals", "aag 6 0 3 0 0\n12 4\n4 12 1\n6 6 6\nl2 c\nl0 a\n",
     "l 0 12 a\nl 1 4 \nl 2 6 c\n"),
    ("variables that nothing names, and the comment", "aag 5 1 0 0 1\n4\n6 4 4\ni0 in\nc\ni0 out\n", "i 0 4 in\n"),
    ("positions of more than one digit", "aag 11 11 0 0 0\n" + "".join(f"{2 * at}\n" for at in range(1,
                                                                                                     12)) + "i10 k\n",
     "".join(f"i {at} {2 * at + 2} \n" for at in range(10)) + "i 10 22 k\n"),
)

REFUSALS = (
    ("the empty file", "", "text at 0"),
    ("more inputs than variables", "aag 1 2 0 0 0\n", "counts"),
    ("a count over the limit", "aag 4194304 0 0 0 0\n", "limit"),
    ("a cycle", TEXTS["cycle"], "cycle 2"),
    ("an undefined variable", "aag 2 1 0 1 0\n2\n4\n", "undefined 2"),
    ("an end between two deltas", "aig 3 2 0 1 1\n6\n\x02", "text at 17"),
)


def info(program, tally, _):
    rows = Rows("info", program, tally)
    write_all()
    for name, circuit, facts in FACTS:
        rows.gives(name, "info source", lines(facts.split(" ")), source=data(circuit))
    for name, circuit, entries in ENTRIES:
        rows.gives(f"names: {name}", "info --names source", entries, source=data(circuit))
    for name, circuit, fault in REFUSALS:
        rows.refuses(name, "info source", f"circuit: {fault}", source=circuit)
        rows.refuses(f"names: {name}", "info --names source", f"circuit: {fault}", source=circuit)
    rows.fails("no file", "info nowhere", "circuit")
    rows.fails("names: no file", "info --names nowhere", "circuit")
    for design in ("two_gates.aag", "counter.aag", "fifo.aag", "wraps.aag", "two_gates.aig", "counter.aig", "fifo.aig"):
        rows.gives(design, ["info", f"{EXAMPLES}/{design}"], told(f"{EXAMPLES}/{design}"))
        rows.gives(f"names: {design}", ["info", "--names", f"{EXAMPLES}/{design}"], entries_of(f"{EXAMPLES}/{design}"))


def lines(facts):
    return "".join(f"{name} {fact}\n" for name, fact in zip(NAMES, facts, strict=True))


def told(file):
    """The lines by a plain reader."""
    parts = Reader(contents(file)).parts()
    levels = {0: 0, **{lit >> 1: 0 for lit in parts.inputs}, **{row[0] >> 1: 0 for row in parts.latches}}
    left = list(parts.gates)
    while left:
        ready = [gate for gate in left if all(side >> 1 in levels for side in gate[1:])]
        levels.update({gate[0] >> 1: 1 + max(levels[side >> 1] for side in gate[1:]) for gate in ready})
        left = [gate for gate in left if gate not in ready]
    reads = [variable for gate in parts.gates for variable in {side >> 1 for side in gate[1:]}]
    defined = [*parts.inputs, *(row[0] for row in parts.latches), *(gate[0] for gate in parts.gates)]
    is_ready = (defined == list(range(2, 2 * parts.most + 2, 2))
                and all(gate[0] > gate[1] >= gate[2] for gate in parts.gates))
    counts = [len(part) for part in (parts.inputs, parts.latches, parts.outputs, parts.gates, parts.bad)]
    constant = sum(literal in (0, 1) for literal in parts.bad)
    others = [len(parts.constraints), sum(literal == 0 for literal in parts.constraints), len(parts.justice),
              len(parts.fairness)]
    uninitialised = sum(row[2] == row[0] for row in parts.latches)
    resets = sum(row[2] == 1 for row in parts.latches)
    facts = [contents(file)[:3].decode(), parts.most, *counts, constant, *others, uninitialised, resets,
             max(levels.values()),
             max(map(reads.count, reads), default=0), len(parts.names), len(parts.comment or b""),
             "yes" if is_ready else "no"]
    return lines(facts)


def entries_of(file):
    """The lines of the entries by a plain reader."""
    parts = Reader(contents(file)).parts()
    sections = (("i", parts.inputs), ("l", [row[0] for row in parts.latches]), ("o", parts.outputs), ("b", parts.bad),
                ("c", parts.constraints), ("j", ["-"] * len(parts.justice)), ("f", parts.fairness))
    names = {(letter.decode(), position): name for letter, position, name in parts.names}
    return b"".join(f"{letter} {position} {literal} ".encode() + names.get((letter, position), b"") + b"\n"
                    for letter, literals in sections for position, literal in enumerate(literals))
