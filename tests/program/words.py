"""Rows of the command line: help texts, the version, and arguments that are refused."""

import subprocess

from library import supervised
from library.circuits import write_all
from library.runs import EXPECTED, Ended, contents
from program.rows import Rows

# Words that the command line refuses, with a text of its own on standard error alone.
REFUSALS = (
    ("none", []),
    ("the version of a subcommand", ["sim", "--version"]),
    ("an unknown subcommand", ["fold"]),
    ("a missing file name", ["bench", "two_gates"]),
    ("one file name too many", ["bench", "a", "b", "c", "d"]),
    ("check without a witness", ["check", "two_gates"]),
    ("a dump of a witness without one", ["wave", "--witness", "two_gates"]),
    ("a flag that is given twice", ["wave", "--witness", "--witness", "two_gates", "two_gates"]),
    ("a flag with a value", ["check", "--trace=1", "two_gates", "two_gates"]),
    ("properties without a trace", ["check", "--properties", "two_gates", "two_gates"]),
    ("properties of another command", ["wave", "--witness", "--properties", "two_gates", "two_gates"]),
    ("a flag of another command", ["sim", "--trace", "two_gates", "two_gates"]),
    ("names of another command", ["toaig", "--names", "--to", "aag", "two_gates"]),
    ("names of no circuit", ["info", "--names"]),
    ("a word that is not UTF-8", ["toaig", "--to", "aag", b"\xff"]),
    ("no format", ["toaig", "two_gates"]),
    ("an unknown format", ["toaig", "--to", "dot", "two_gates"]),
    ("no number of frames", ["unroll", "--to", "aag", "two_gates"]),
    ("a number of frames over its limit", ["unroll", "--frames", "4294967296", "--to", "aag", "two_gates"]),
    ("a number of frames with a letter", ["unroll", "--frames", "2k", "--to", "aag", "two_gates"]),
    ("no number of frames for a formula", ["cnf", "two_gates"]),
    ("a position that is given twice", ["cnf", "--frames", "2", "--property", "0", "--property", "0", "two_gates"]),
    ("no format to unroll to", ["unroll", "--frames", "2", "two_gates"]),
    ("no format to select to", ["select", "two_gates"]),
    ("an unknown section", ["select", "--from", "justice", "--to", "aag", "two_gates"]),
    ("no stimulus to run", ["witness", "two_gates"]),
    ("a model and a stimulus", ["witness", "--model", "model", "--frames", "2", "two_gates", "two_gates"]),
    ("a model without a number of frames", ["witness", "--model", "model", "two_gates"]),
    ("a step without a model", ["witness", "--step", "two_gates", "two_gates"]),
    ("a number of frames without a model", ["witness", "--frames", "2", "two_gates", "two_gates"]),
    ("neither a model nor a stimulus", ["witness", "--frames", "2", "two_gates"]),
    ("no proof to refute with", ["refute", "--frames", "2", "two_gates"]),
    ("no number of frames to refute", ["refute", "two_gates", "proof"]),
    ("no witness to reduce", ["reduce", "two_gates"]),
    ("nothing to explain of a stimulus", ["why", "two_gates", "rows"]),
    ("no run to explain", ["why", "--of", "i0", "two_gates"]),
    ("a frame with a sign", ["why", "--of", "i0", "--frame", "+1", "two_gates", "rows"]),
    ("facts as JSON", ["info", "--json", "two_gates"]),
    ("a depth with a leading zero", ["why", "--of", "i0", "--depth", "01", "two_gates", "rows"]),
)


def words(program, tally, _):
    rows = Rows("words", program, tally)
    write_all()
    for word in ("--help", "-h", "help"):
        tells(rows, [word], contents(f"{EXPECTED}/help/aig.txt"))
    for command in ("toaig", "sim", "wave", "bench", "unroll", "check", "cnf", "info", "select", "cut", "witness",
                    "refute",
                    "reduce", "why", "strengthen"):
        for asked in ([command, "--help"], [command, "-h"], ["help", command]):
            tells(rows, asked, contents(f"{EXPECTED}/help/{command}.txt"))
    tells(rows, ["help", "help"], contents(f"{EXPECTED}/help/help.txt"))
    for word in ("--version", "-V"):
        tells(rows, [word], version(program))
    for name, refused in REFUSALS:
        ended = program.run(*refused)
        is_refused = (ended.status, ended.out) == (2, b"") and ended.err != b""
        tally.check(f"words: {name}", is_refused, ended)
    ended = program.run("unroll", "--frames=-1", "--to", "aag", "two_gates")
    tally.check("words: --frames=-1", ended.status == 2 and ended.err.startswith(NEGATIVE), ended)
    tally.compare("words: --frames -1", program.run("unroll", "--frames", "-1", "--to", "aag", "two_gates"),
                  Ended(2, b"", odd("-1", "--frames <K>")))
    for refused, usage in UNNAMED:
        tally.compare(f"words: {' '.join(refused)}", program.run(*refused), Ended(2, b"", unnamed(usage)))
    for number in ("03", "+3", "00", "-0", "+0", "0000000000000000000001"):
        for words, option in ODD:
            words = [word.replace("N", number) for word in words]
            tally.compare(f"words: {' '.join(words)}", program.run(*words), Ended(2, b"", odd(number, option)))


# Runs with an option that has the number N, and how messages show the option.
ODD = [(words.split(" "), "--frames <K>") for words in (
    "unroll --frames N --to aag two_gates", "cnf --frames N two_gates", "cnf --property 1 --frames=N two_gates",
    "refute --frames N two_gates proof", "witness --model model --frames N two_gates")]


# Runs that need a number of frames or a certificate and have neither, and the usage that they are told.
UNNAMED = (
    (["cnf", "two_gates"], "cnf [OPTIONS] <--frames <K>|--certificate <AIG>> <CIRCUIT>"),
    (["refute", "two_gates", "proof"], "refute [OPTIONS] <--frames <K>|--certificate <AIG>> <CIRCUIT> <PROOF>"),
    (["witness", "--model", "model", "two_gates"], "witness [OPTIONS] <CIRCUIT> [STIM]"),
)


def unnamed(usage):
    wanted = "the following required arguments were not provided:\n  <--frames <K>|--certificate <AIG>>"
    return f"error: {wanted}\n\nUsage: aig {usage}\n\nFor more information, try '--help'.\n".encode()


def odd(number, option):
    text = f"error: invalid value '{number}' for '{option}': a number has no sign and no leading zero"
    return f"{text}\n\nFor more information, try '--help'.\n".encode()


# A message about a number of frames that is refused says its range.
NEGATIVE = b"error: invalid value '-1' for '--frames <K>': -1 is not in 0..=4294967295\n"


def tells(rows, asked, text):
    """These arguments ask for a text, which goes to standard error alone. It names the program, called `aig`."""
    done = supervised.run(["aig", *asked], executable=rows.program.path, stdin=subprocess.DEVNULL, capture_output=True,
                          check=False)
    ended = Ended(done.returncode, done.stdout, done.stderr)
    rows.tally.compare(f"words: {' '.join(asked)}", ended, Ended(2, b"", text))


def version(program):
    """What the version has to be. The program that the gate built says that it is proved; one that was named may say
    that it is not (tools/build_unproved.sh)."""
    is_unproved = program.is_named and b"not proved" in program.run("--version").err
    return b"aig 0.4.0 (built by rt try, not proved)\n" if is_unproved else b"aig 0.4.0 (proved where rt ci built it)\n"
