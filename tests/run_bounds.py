#!/usr/bin/env python3
"""Each wait of a test has a bound: a program that does not end, and that ignores signals, is ended with all that it
started, and the part that waits for it fails. Programs do not ignore the signals that the tests ignore."""

import os
import re
import signal
import subprocess
import sys
import time

from library import runs, supervised
from library.runs import REPOSITORY, TESTS, contents, write

import all as every

# A shell that ignores signals, as what it starts does, and writes the number of its child. It never ends.
STUBBORN = 'trap "" INT TERM HUP QUIT; sleep 1000 & echo $! > "$CHILD"; echo begun; sleep 1000; sleep 1000'
# How long the end of a program may take that is over a bound of a second.
SOON = 30

# A script of tests: its parts wait in each way that tests wait in.
WAITS = f"""
import os, subprocess, sys, threading
sys.path.insert(0, {TESTS!r})
from library import runs, supervised
from library.terminal import Terminal

STUBBORN = {STUBBORN!r}

def passes(program, tally, _):
    tally.check("a check that passes", True)

def runs_it(program, tally, _):
    supervised.run(["sh", "-c", STUBBORN], capture_output=True)

def reads_it(program, tally, _):
    with supervised.Popen(["sh", "-c", STUBBORN], stdout=subprocess.PIPE) as run:
        while run.stdout.readline():
            pass

def at_a_terminal(program, tally, _):
    words = ["sh", "-c", STUBBORN]
    with Terminal() as terminal, supervised.Popen(words, stdin=terminal.end, stdout=terminal.end) as run:
        run.communicate()

def of_its_own(program, tally, _):
    subprocess.run(["setsid", "-w", "sh", "-c", STUBBORN], stdout=subprocess.DEVNULL)

def of_no_program(program, tally, _):
    threading.Event().wait()

parts = (passes, runs_it, reads_it, at_a_terminal, of_its_own, of_no_program)
runs.main("waits", {{part.__name__: part for part in parts}})
"""

# A script of tests that says how a program ends that sends itself a signal.
SIGNALLED = f"""
import sys
sys.path.insert(0, {TESTS!r})
from library import supervised
for name in ("HUP", "INT", "QUIT", "TERM"):
    done = supervised.run(["sh", "-c", f"kill -s {{name}} $$"])
    print(name, done.returncode)
"""


def is_gone():
    """Whether the child of the shell was there, and has ended: its parent may take note of that late."""
    number = int(contents(os.environ["CHILD"]))
    os.remove(os.environ["CHILD"])
    until = time.monotonic() + SOON
    while time.monotonic() < until:
        try:
            if contents(f"/proc/{number}/stat").rpartition(b")")[2].split()[0] == b"Z":
                return True
        except OSError:
            return True
        time.sleep(0.1)
    return False


def programs(_, tally, __):
    """A program that does not end, with all that it started."""
    for name, before in (("a program", []), ("one of another group", ["setsid", "-w"])):
        began, reason = time.monotonic(), None
        try:
            supervised.run([*before, "sh", "-c", STUBBORN], timeout=1, capture_output=True)
        except subprocess.TimeoutExpired as over:
            reason = over
        tally.check(f"bounds: {name} is stopped", reason is not None and time.monotonic() - began < SOON)
        tally.check(f"bounds: {name}, what it started", is_gone())
    with supervised.Popen(["sh", "-c", "echo one; read line; echo $line"], stdin=subprocess.PIPE,
                          stdout=subprocess.PIPE) as run:
        out = run.communicate(b"two\n")[0]
    tally.compare("bounds: a program that ends", (run.returncode, out), (0, b"one\ntwo\n"))


def parts(program, tally, _):
    """Parts that wait for what does not end fail, each in its time, and the ones before them count."""
    write("waits.py", WAITS)
    settings = {**os.environ, "AIG_TEST_SECONDS": "1"}
    for part in ("runs_it", "reads_it", "at_a_terminal", "of_its_own", "of_no_program"):
        began = time.monotonic()
        words = [sys.executable, "waits.py", "--part", "passes", "--part", part, program.path]
        done = supervised.run(words, env=settings, capture_output=True, text=True)
        said = f"{done.stdout}{done.stderr}"
        tally.compare(f"bounds: the part {part}", done.returncode, runs.STOPPED)
        tally.check(f"bounds: the part {part}: what is printed", "passes: 1 passed, 0 failed\nSTOPPED: " in said
                    and f"{part}: 0 passed, 1 failed\n" in said, said)
        tally.check(f"bounds: the part {part}: its time", time.monotonic() - began < SOON + 10)
        tally.check(f"bounds: the part {part}: its program", part == "of_no_program" or is_gone())


def scripts(program, tally, _):
    """A script that does not end fails, and its output so far is there; what it started is ended."""
    write("waits.py", WAITS)
    words = [sys.executable, "waits.py", "--part", "passes", "--part", "runs_it", program.path]
    status, said, _ = every.ran("waits", words, ".", 5)
    tally.compare("bounds: a script: its status", status, None)
    tally.check("bounds: a script: its output",
                said.startswith("passes: 1 passed, 0 failed\n") and "\nSTOPPED: waits: " in said, said)
    tally.check("bounds: a script: what it started", is_gone())


def signals(program, tally, _):
    """Programs have the default actions of signals, also where the tests ignore them, as after `nohup`."""
    write("signalled.py", SIGNALLED)
    wanted = "".join(f"{name} {-getattr(signal, f'SIG{name}')}\n" for name in ("HUP", "INT", "QUIT", "TERM"))
    for ignored in ("", 'trap "" HUP INT QUIT TERM; '):
        done = supervised.run(["sh", "-c", f'{ignored}exec "$@"', "sh", sys.executable, "signalled.py"],
                              capture_output=True, text=True)
        tally.compare(f"bounds: signals, {ignored or 'as they are'}", (done.stdout, done.stderr), (wanted, ""))
    write("waits.py", WAITS)
    words = [sys.executable, "waits.py", "--part", "runs_it", program.path]
    with supervised.Popen(words, stdout=subprocess.DEVNULL) as script:
        until, child = time.monotonic() + SOON, os.environ["CHILD"]
        while not (os.path.exists(child) and contents(child)) and time.monotonic() < until:
            time.sleep(0.1)
        script.terminate()
        script.wait()
    tally.compare("bounds: a script that is ended", script.returncode, -signal.SIGTERM)
    tally.check("bounds: a script that is ended: its program", is_gone())


def sources(_, tally, __):
    """No test starts a program by `subprocess` itself, which has no bound."""
    for folder, _, files in os.walk(TESTS):
        for name in files:
            if not name.endswith(".py") or name in ("supervised.py", "run_bounds.py"):
                continue
            text = contents(f"{folder}/{name}").decode()
            path = os.path.relpath(f"{folder}/{name}", REPOSITORY)
            found = re.findall(r"\bsubprocess\.(?:run|Popen|call|check_call|check_output|getoutput)\(", text)
            tally.compare(f"bounds: programs that {path} starts without a bound", found, [])


def with_child(part):
    """The part, in which a file has the number of a shell's child."""
    def run(*words):
        os.environ["CHILD"] = os.path.abspath("child")
        return part(*words)

    return run


PARTS = {part.__name__: with_child(part) for part in (programs, parts, scripts, signals, sources)}

if __name__ == "__main__":
    runs.main(__doc__, PARTS)
