"""Rows on properties by their names: each text that names a property asks for the one at its position, in every command
that takes one. Texts that name none, or several, are refused."""

import itertools

from library.circuits import write_all
from library.runs import write
from program.rows import Rows

# Six inputs, and each of them is a bad state property and an output. Some names are those of other entries too, some
# look like numbers, and two properties have one name.
CIRCUIT = ("aag 6 6 0 6 0 6\n" + "".join(f"{2 * at + 2}\n" for at in range(6)) * 3
           + "i0 safe\no3 safe\no0 out\nb0 safe\nb1 two words\nb2 same\nb4 5\nb3 same\nb5 b1\n")

# Texts, and the positions that they name among the bad state properties.
NAMED = (("safe", 0), ("two words", 1), ("b0", 0), ("b3", 3), ("4", 4), ("5", 5), ("b1", 1), ("b5", 5))

# The same among the outputs.
OUTPUTS = (("safe", 3), ("out", 0), ("o5", 5), ("2", 2))

# Texts that name no bad state property.
UNNAMED = ("out", "saf", "safe ", "two", "", "+1", "01", "b01", "b", "b+1", "o0", "B1", "4294967296", "b4294967296",
           "00", "\u00e9")

# Four properties, to which symbols in any order give one name.
FOUR = "aag 4 4 0 0 0 4\n2\n4\n6\n8\n2\n4\n6\n8\n"

# Commands, with PROPERTY where the property is named; some print a result and some a refusal.
COMMANDS = (
    "cnf --frames 2 PROPERTY circuit", "cnf --step --frames 1 PROPERTY circuit",
    "cnf --certificate certificate PROPERTY circuit",
    "refute --frames 1 PROPERTY circuit proof", "refute --frames 1 --step proof PROPERTY circuit proof",
    "refute --certificate certificate PROPERTY circuit proof", "witness PROPERTY circuit rows",
    "witness --frames 1 --model model PROPERTY circuit",
    "witness --certificate certificate --model model PROPERTY circuit",
    "strengthen --to aag --certificate certificate PROPERTY circuit", "select --to aag PROPERTY circuit",
    "select --to aig --names name PROPERTY circuit",
)


def words_of(command, text):
    """The arguments of a command for the property that a text names."""
    return [word for each in command.split(" ") for word in (["--property", text] if each == "PROPERTY" else [each])]


def names(program, tally, _):
    rows = Rows("names", program, tally)
    write_all()
    for name, content in (("circuit", CIRCUIT), ("certificate", "aag 0 0 0 0 0\n"), ("proof", ""), ("name", "new\n"),
                          ("rows", "111111\n"), ("model", "s SATISFIABLE\nv -1 2 3 4 5 6 7 0\n")):
        write(name, content)
    for command in COMMANDS:
        for text, position in NAMED:
            rows.ends(f"{command}: {text!r}", words_of(command, text), rows.run(*words_of(command, str(position))))
        for text in UNNAMED:
            rows.refuses(f"{command}: {text!r}", words_of(command, text), "property: name")
        rows.refuses(f"{command}: a name that two properties have", words_of(command, "same"), "property: twice 2 3")
        rows.refuses(f"{command}: a name in a faulty circuit", words_of(command.replace("circuit", "cycle"), "safe"),
                     "circuit: cycle 2")
        rows.fails(f"{command}: a name in no circuit", words_of(command.replace("circuit", "nowhere"), "safe"),
                   "circuit")
    for text, position in OUTPUTS:
        command = "select --from outputs --to aag PROPERTY circuit"
        rows.ends(f"{command}: {text!r}", words_of(command, text), rows.run(*words_of(command, str(position))))
    command = "select --to aag --property safe --property 5 --property b2 circuit"
    rows.ends(command, command, rows.run(*"select --to aag --property 0 --property 5 --property 2 circuit".split()))
    for count in (2, 3):
        for order in itertools.permutations(range(4), count):
            symbols = "".join(f"b{at} p\n" for at in order)
            first, second = sorted(order)[:2]
            rows.refuses(f"the least two of {order}", "cnf --frames 1 --property p four",
                         f"property: twice {first} {second}",
                         four=FOUR + symbols)
    minus(rows)
    command = "cnf --frames 2 PROPERTY /dev/stdin"
    tally.compare("names: a name in a circuit that comes through a pipe",
                  program.run(*words_of(command, "safe"), input=CIRCUIT.encode()),
                  program.run(*words_of(command, "0"), input=CIRCUIT.encode()))


def minus(rows):
    """A name that begins with a minus comes after `=`. It is never a number."""
    write("minus", FOUR + "b2 -0\nb3 -1\n")
    for text, position in (("-0", 2), ("-1", 3)):
        rows.ends(f"--property={text}", f"cnf --frames 1 --property={text} minus",
                  rows.run(*f"cnf --frames 1 --property {position} minus".split()))
        ended = rows.run("cnf", "--frames", "1", "--property", text, "minus")
        rows.tally.compare(f"names: --property {text}", (ended.status, ended.out, ended.err.split(b"\n")[0]),
                           (2, b"", f"error: unexpected argument '{text}' found".encode()))
        rows.refuses(f"--property={text}, which no property has", f"cnf --frames 1 --property={text} circuit",
                     "property: name")
