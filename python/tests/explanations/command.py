"""The command `aig-explain`: that it gives its arguments, streams and signals to the program, and changes nothing of a run;
the property that it names after a verdict; and that no argument puts a control byte on a terminal."""

import os
import re
import resource
import signal
import subprocess
import sys

from library import supervised
from library.circuits import write_all
from library.explained import COMMAND, Arguments, Explained, explanation
from library.helptext import commands
from library.manual import asker
from library.runs import EXAMPLES, REPOSITORY, Ended, contents, write
from program.rows import explains

# Words of the command line with bytes that a terminal may obey or not show; the message names them escaped.
WORDS = (
    (["\x1b[31mfold\x07"], r"\x1b[31mfold\x07"),
    (["fold\nline"], r"fold\x0aline"),
    (["café"], r"caf\xc3\xa9"),
    (["–help"], r"\xe2\x80\x93help"),
    (["sim", "a", "b", "\x1b]0;title\x07"], r"\x1b]0;title\x07"),
    (["sim", "a", "b", "", "\x7f"], "unexpected argument '' found"),
    (["sim", "--\x1b[2J", "a", "b"], r"--\x1b[2J"),
    (["check", "--trace=\r", "a", "b"], r"\x0d"),
    (["toaig", "--to", "\x1b[0m", "a"], r"\x1b[0m"),
    (["toaig", "--to", "aag\n", "a"], r"aag\x0a"),
    (["unroll", "--frames", "3\x1b", "--to", "aag", "a"], r"3\x1b"),
    (["unroll", "--frames=\u0663", "--to", "aag", "a"], r"\xd9\xa3"),
    (["sim", "-\x1b", "a", "b"], "unexpected argument '-\\' found"),
    (["--version=\x1b", "info", "a"], r"\x1b"),
    (["help", "\x1b"], r"\x1b"),
)


def command(program, tally, _):
    program, plain = Explained(program), program
    write_all()
    arguments(program, plain, tally)
    options(plain, tally)
    shown(program, tally)
    silent(program, tally)
    signals(program, tally)
    verdicts(program, tally)
    words(program, plain, tally)
    little = plain.run("info", "many", preexec_fn=lambda: resource.setrlimit(resource.RLIMIT_AS, (2**23, 2**23)))
    said = program.explained(["info", "many"], little).err
    tally.check("explain: out of memory", re.fullmatch(rb"aig: (circuit: )?memory\n  out of memory: .*\n", said), said)


def arguments(program, plain, tally):
    """The program gets all arguments as they are, and its output, message and status stay."""
    for asked in (["check", "two_gates", "missing"], ["check", "--trace", "two_gates", "missing"],
                  ["check", "two_gates", "--trace", "missing"],
                  ["check", "--", "two_gates", "missing"]):
        wanted, said = plain.run(*asked), program.command.run(*asked)
        tally.check(f"explain: {asked}", explains(said, wanted), said)
        tally.compare(f"explain: {asked}: as a call", program.run(*asked), said)
    write("wraps.wit", contents(f"{EXAMPLES}/wraps.wit"))
    seen = [f"{EXAMPLES}/wraps.aag", "wraps.wit"]
    tally.check("explain: a verdict has its property", b"property: b0" in program.command.run("check", *seen).err)
    for asked in (["check", "--help", *seen], ["refute", "--help", *seen], ["check", "--frames", "1", *seen], [], ["--help"], ["--version"], ["help", "check"], ["check", "--explain", "two_gates", "missing"],
                  ["--explain", "info", "two_gates"], ["info", "caf\udcff"]):
        tally.compare(f"explain: {asked}", program.command.run(*asked), plain.run(*asked))
    module = supervised.run([sys.executable, "-m", "aig.explain", "info", "cycle"], capture_output=True, check=False,
                            stdin=subprocess.DEVNULL, env={**os.environ, "PYTHONPATH": f"{REPOSITORY}/python/src"})
    tally.compare("explain: the module", Ended(module.returncode, module.stdout, module.stderr), program.run("info", "cycle"))
    nowhere = program.command.run("info", "cycle", env={**os.environ, "AIG_PROGRAM": "nowhere/aig"})
    tally.compare("explain: no program", nowhere, Ended(3, b"", b"aig-explain: there is no program nowhere/aig, which"
                                                        b" AIG_PROGRAM names\n"))


def options(plain, tally):
    """It reads the arguments as the program does: which options have a value, says the help."""
    for name, one in commands(asker(plain.path))[1].items():
        for option in one.options:
            words = re.search(r"--[a-z-]+", option)[0]
            has_value = "<" in option
            read = Arguments([name, words, *["VALUE"] * has_value, "CIRCUIT", "FILE"])
            tally.compare(f"explain: {name} {words}", (read.options, read.circuit, words in read.flags),
                          ({words: "VALUE"} if has_value else {}, "CIRCUIT", not has_value))
            read = Arguments([name, f"{words}=VALUE", "CIRCUIT"])
            tally.compare(f"explain: {name} {words}=", (read.options, read.circuit), ({words: "VALUE"}, "CIRCUIT"))


def signals(program, tally):
    """A program that a signal ends has the status that a shell gives it; an interrupt ends both, without a traceback."""
    write("rows", "11\n")
    os.mkfifo("waits")
    with supervised.Popen([COMMAND, "info", "waits"], stdin=subprocess.DEVNULL, stdout=subprocess.PIPE,
                          stderr=subprocess.PIPE) as process:
        inside = open("waits", "wb")  # it is open once the program waits for its bytes
        os.killpg(process.pid, signal.SIGINT)
        said = process.communicate()
        inside.close()
    tally.compare("explain: an interrupt", (process.returncode, said), (130, (b"", b"")))
    os.unlink("waits")
    limited = program.run("toaig", "--to", "aag", "two_gates", stdout=open("limited", "wb"),
                          preexec_fn=lambda: resource.setrlimit(resource.RLIMIT_FSIZE, (4, 4)))
    tally.compare("explain: the limit of a file", (limited.status, limited.err), (128 + signal.SIGXFSZ, b""))


def shown(program, tally):
    """The examples of its page."""
    os.symlink(EXAMPLES, "examples")
    text = contents(f"{REPOSITORY}/docs/EXPLAIN.md").decode()
    blocks = re.findall(r"(?m)(?:^    .*\n)+", text)
    lines = [line[4:] for block in blocks if block.startswith("    $ ") for line in block.splitlines()]
    said = []
    for line in lines:
        if line.startswith("$ aig-explain "):
            run = program.run(*line.split(" ")[2:])
            said += [line, *(run.out + run.err).decode().splitlines()]
    tally.compare("explain: the examples of EXPLAIN.md", said, lines)


def silent(program, tally):
    """What is no failure and no verdict has no explanation: results and replies."""
    write("rows", "11\n")
    write("script", "w 6 8 2\nq\nv 9 9\n")
    for words in (["info", "two_gates"], ["bench", "two_gates", "rows", "script"]):
        tally.compare(f"explain: {words}", program.command.run(*words), Ended(0, program.run(*words).out, b""))


# Bad state properties, of which one has a name of a terminal's control bytes, one a name of more than 60 bytes, and one
# none. The last three are never reached.
LONG = "n" * 70
JUDGED = ("aag 2 2 0 1 0 12\n2\n4\n4\n2\n4\n2\n2\n2\n2\n2\n2\n2\n0\n0\n0\n"
          f"o0 tenth\nb0 first one\nb1 red \x1b[31m\nb9 {LONG}\nb10 tenth\nb11 last\n")

# What is run, the status, what is printed, and the property that is named.
VERDICTS = (
    ("check judged witness0", 0, "confirmed", "b0 first one"),
    ("check judged witness1", 1, "not bad", "b1 red \\x1b[31m"),
    ("check judged witness2", 0, "confirmed", "b2"),
    ("check judged witness10", 1, "not bad", "b10 tenth"),
    ("check --trace judged witness9", 1, None, f"b9 {LONG[:60]}.."),
    ("refute --frames 3 --property 10 judged empty", 0, "unreachable within 3", "b10 tenth"),
    ("refute --frames 3 --property b11 judged empty", 0, "unreachable within 3", "b11 last"),
    ("refute --frames 3 --property tenth judged empty", 0, "unreachable within 3", "b10 tenth"),
    ("refute --certificate claims --property 11 judged empty", 0, "unreachable", "b11 last"),
    ("refute --step empty --frames 1 --property 11 judged empty", 0, "unreachable", "b11 last"),
)


def verdicts(program, tally):
    """A verdict is about a property, which is named: that of the witness, or of the option."""
    write("judged", JUDGED)
    write("empty", "")
    write("claims", "aag 0 0 0 0 0\n")
    for at in (0, 1, 2, 9, 10):
        write(f"witness{at}", f"1\nb{at}\n\n10\n.\n")
    for words, status, verdict, name in VERDICTS:
        ended = program.run(*words.split(" "))
        if verdict:
            tally.compare(f"explain: {words}: the verdict", ended.out, f"{verdict}\n".encode())
        wanted = Ended(status, ended.out, f"  property: {name}\n".encode())
        tally.compare(f"explain: {words}", ended, wanted)
    # The program gets a file that is open here: it cannot open it by this name.
    circuit = os.open("judged", os.O_RDONLY)
    words = ["refute", "--frames", "3", "--property", "10", f"/proc/self/fd/{circuit}", "empty"]
    tally.compare("explain: a circuit by a descriptor", explanation(words, 0, b""), "  property: b10 tenth\n")
    os.close(circuit)
    # A file that is a pipe is not read again.
    words = ["refute", "--frames", "3", "--property", "10", "/dev/stdin", "empty"]
    tally.compare("explain: a circuit from a pipe", program.run(*words, input=JUDGED.encode()),
                  Ended(0, b"unreachable within 3\n", b""))


def words(program, plain, tally):
    """The command line's messages show the words that they name escaped, and say the same as for these words."""
    for asked, shown in WORDS:
        ended = program.command.run(*asked)
        typed = [re.sub(r"[^ -~]", lambda at: "".join(f"\\x{byte:02x}" for byte in at[0].encode()), word)
                 for word in asked]
        is_right = (ended.status, ended.out) == (2, b"") and re.fullmatch(rb"[ -~\n]+", ended.err) is not None
        tally.check(f"explain: the message on {asked}", is_right and shown in ended.err.decode(), ended)
        tally.compare(f"explain: {asked}, typed escaped", ended, plain.run(*typed))
    said = supervised.run(["\x1b[31maig\n"], executable=plain.path, stdin=subprocess.DEVNULL, capture_output=True,
                          check=False).stderr
    is_right = re.fullmatch(rb"[ -~\n]+", said) is not None and rb"\x1b[31maig\x0a" in said
    tally.check("explain: the program's own name", is_right, said)
