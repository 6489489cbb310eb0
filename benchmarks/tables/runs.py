"""Runs of programs and what they take, and rows of tables in Markdown."""

import filecmp
import os
import subprocess
import sys
import tempfile

from library import supervised

# How long a measured run or a build may take, in seconds.
LONGEST = 3600
CACHEGRIND = ("valgrind", "--tool=cachegrind", "--cache-sim=yes", "--I1=32768,8,64", "--D1=32768,8,64",
              "--LL=1048576,16,64")
# A small process starts a run whose memory is measured, since that of what starts it counts too.
STARTS = ("import resource, subprocess, sys; subprocess.run(sys.argv[1:], stdout=subprocess.DEVNULL, check=True); "
          "print(resource.getrusage(resource.RUSAGE_CHILDREN).ru_maxrss)")


class Run:
    """What a run of a program took."""

    def __init__(self, words, output=os.devnull, expected=0):
        words = list(map(str, words))
        with open(output, "wb") as out, supervised.Popen(words, LONGEST, stdout=out,
                                                         stderr=subprocess.DEVNULL) as process:
            usage = process.usage()
        if process.returncode != expected:
            sys.exit(f"{words} ended with status {process.returncode}")
        self.seconds = usage.ru_utime + usage.ru_stime


def taken(times, *runs):
    """The times of each of several runs, which take turns."""
    return [*zip(*([Run(words).seconds for words in runs] for _ in range(times)))]


def least(times, *runs):
    """The least time of each of several runs, which take turns."""
    return [*map(min, taken(times, *runs))]


def counted(words):
    """The instructions of a run and its misses of a cache of 1 MB, by cachegrind."""
    with tempfile.NamedTemporaryFile("r", dir=".", encoding="ascii") as file:
        Run([*CACHEGRIND, f"--cachegrind-out-file={file.name}", *words])
        lines = dict(line.split(": ", 1) for line in file if line.startswith(("events: ", "summary: ")))
    numbers = dict(zip(lines["events"].split(), map(int, lines["summary"].split())))
    return numbers["Ir"], numbers["DLmr"] + numbers["DLmw"]


def resident(words):
    """The greatest resident size of a run."""
    done = supervised.run([sys.executable, "-c", STARTS, *map(str, words)], stdout=subprocess.PIPE, check=True,
                          text=True,
                          timeout=LONGEST)
    return 1024 * int(done.stdout)


def same(one, other):
    """Stops unless two programs write the same, and answers how many bytes."""
    for words, name in ((one, "one"), (other, "other")):
        Run(words, name)
    if not filecmp.cmp("one", "other", shallow=False):
        sys.exit(f"{one} and {other} write different bytes")
    return os.path.getsize("one")


def printed(times, words):
    """The least of the numbers that a program prints by name."""
    found = {}
    for _ in range(times):
        text = supervised.run(words, stdout=subprocess.PIPE, check=True, text=True, timeout=LONGEST).stdout
        for name, number in (line.split() for line in text.splitlines()):
            found[name] = min(float(number), found.get(name, float("inf")))
    return found


def milliseconds(seconds):
    return f"{seconds * 1e3:,.1f} ms"


def microseconds(seconds):
    return f"{seconds * 1e6:,.1f} µs"


def megabytes(size):
    return f"{size / 1e6:.0f} MB"


def row(*cells):
    print("| " + " | ".join(map(str, cells)) + " |", flush=True)


def head(title, *cells):
    print(f"\n{title}\n")
    row(*cells)
    row(*["---"] * len(cells))
