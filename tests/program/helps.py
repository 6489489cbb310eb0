"""What the help lists, beside the tables of docs/BEHAVIOUR.md and what the program takes; its lines and examples."""

import os
import re
import subprocess

from library import supervised
from library.helptext import commands, examples, grouped, listed
from library.manual import asker
from library.runs import EXAMPLES, REPOSITORY, contents, write

COLUMNS = 80
CIRCUIT = "aag 4 2 1 1 1\n2\n4\n6 8\n8\n8 6 2\n"
# What stands for the names in a line of a script, for this circuit.
FIELDS = {"G": "8", "R0": "2", "R1": "4", "L": "6", "V": "1", "T": "0", "P": "0", "BITS": "01"}


def helps(program, tally, _):
    behaviour = contents(REPOSITORY + "/docs/BEHAVIOUR.md").decode()
    ask = asker(program.path)
    texts = {name: ask(*words) for name, words in asked(ask).items()}
    for name, text in texts.items():
        tally.compare(f"help: {name}: lines over {COLUMNS} columns",
                      [row for row in text.splitlines() if len(row) > COLUMNS], [])
        tally.check(f"help: {name}: files that an installed copy does not have", "docs/" not in text, text)
    overview, verdicts, bench = texts["aig"], texts["check"], texts["bench"]
    sections = behaviour.partition("\n## What commands share\n")[2].partition("\n## Files that a run keeps\n")[0]
    heads = re.findall(r"(?m)^## (.*)$", sections)
    wanted = {name for head in heads for name in re.split(",? and ", head)} - {"certificates"}
    abouts = {name: about for group in grouped(overview).values() for name, about in group.items()}
    tally.compare("help: subcommands", sorted(abouts), sorted(wanted))
    tally.compare("help: what each command does", abouts, {name: one.about for name, one in commands(ask)[1].items()})
    general_options(ask, tally)
    tally.compare("help: exit statuses", listed(overview, "Exit status:"), table(behaviour, "| status | means |"))
    tally.compare("help: verdicts", listed(verdicts, "count from 0:"), table(behaviour, "| line | means |"))
    tally.compare("help: verdicts with --alive", listed(verdicts, "The verdict is the first of these:"),
                  [it for row in table(behaviour, "| line | means with `--alive` |") for it in row.split("`, `")])
    lines = listed(bench, "values are 0, 1 or x:")
    tally.compare("help: lines of a script", lines, table(behaviour, "| line | does | reply |"))
    tally.compare("help: numbers of refusals", listed(bench, "number:"), table(behaviour, "| N | means |"))
    facts = [name for row in listed(texts["info"], "in this order:") for name in row.split(", ")]
    write("circuit", CIRCUIT)
    printed = program.run("info", "circuit").out.decode().splitlines()
    tally.compare("help: facts", facts, [row.split(" ")[0] for row in printed])
    for line in lines:
        words = filled(line)
        is_taken = replies(program, f"{words}\n".encode()).endswith((b"ok\n", b"0\n", b".\n"))
        tally.check(f"help: the line {words!r}", is_taken, "it is no command")
    tally.compare("help: first bytes of commands", first_bytes(program, lines), sorted(line[0] for line in lines))
    run_examples(ask, program, tally)


def asked(ask):
    """The arguments that ask for each help, by its name."""
    return {"aig": ["--help"], "help": ["help", "help"], **{name: [name, "--help"] for name in commands(ask)[1]}}


def general_options(ask, tally):
    """Each command has the options that the help of the program shows, but for the version."""
    overview, each = commands(ask)
    general = {name: said for name, said in overview.options.items() if name.startswith("--")}
    for name, one in each.items():
        tally.compare(f"help: {name}: general options", {option: one.options.get(option) for option in general},
                      general)
        tally.check(f"help: {name}: -h, --help", "-h, --help" in one.options, [*one.options])


def run_examples(ask, program, tally):
    """Each example of a help is done, in a folder that has the examples."""
    os.symlink(EXAMPLES, "examples")
    os.mkdir("bin")
    os.symlink(program.path, "bin/aig")
    overview, each = commands(ask)
    for name, one in {"aig": overview, **each}.items():
        shown = examples(one)
        tally.check(f"help: {name}: an example", shown != [], one.after)
        for command in shown:
            ended = supervised.run(["/bin/sh", "-c", command], env={"PATH": os.path.abspath("bin")},
                                   stdin=subprocess.DEVNULL, capture_output=True, check=False)
            tally.compare(f"help: {command}", (ended.returncode, ended.stderr), (0, b""))


def table(document, head):
    """The first column of the table of a document with this head."""
    rows = document.split(head + "\n", 1)[1].split("\n\n", 1)[0].split("\n")[1:]
    return [row.split("|")[1].strip().strip("`") for row in rows]


def filled(line):
    return " ".join(FIELDS.get(word, word) for word in line.split(" "))


def replies(program, script):
    """What the program answers to a script."""
    write("circuit", CIRCUIT)
    write("rows", "11\n")
    write("script", script)
    ended = program.run("bench", "circuit", "rows", "script")
    return ended.out if ended.status == 0 else b"status %d" % ended.status


def first_bytes(program, lines):
    """The bytes with which a line of one of these forms may begin: with any other one it is no command."""
    ends = sorted({line[1:] for line in lines})
    taken = []
    for byte in (bytes([first]) for first in range(256) if first != ord("\n")):
        forms = [byte + filled(end).encode() + b"\n" for end in ends]
        if replies(program, b"".join(forms)) != b"bad\n" * len(forms):
            taken.append(byte.decode("latin-1"))
    return taken
