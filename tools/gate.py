#!/usr/bin/env python3
"""The record of the last gate that passed, build/gate. `.ci/run` writes it; `make install` and `make dist` read it.

  begin               removes the record, and prints the state of the repository
  lanes               prints how many crates this machine can prove side by side, if they are two or more
  end BEGAN COSTS FILE..
                      writes the record: the state in the file BEGAN, the last line of each FILE, how long the gate
                      took, and what the checks of each crate cost, which COSTS has (tools/costs.py), if it is there;
                      fails where a function keeps more than it may (tools/functions.py)
  report              prints what the checks of each crate cost in that gate, and warns of those that are dear
  program             prints the program to install: the proved one, if the gate passed these sources, else build/aig
  library             prints the folder of the library for C to install, by the same rule, else build/lib"""

import hashlib
import os
import re
import subprocess
import sys
import time

import costs
import functions

ROOT = os.path.dirname(os.path.dirname(os.path.abspath(__file__)))
RECORD = ROOT + "/build/gate"
# how long a command may take that tells the state of the repository
SECONDS = 120
PROVED = "crates/aig/out/aig"
UNPROVED = "build/aig"
# the folders of the library for C
PROVED_LIBRARY = "crates/aig_c/out/lib"
UNPROVED_LIBRARY = "build/lib"
# bytes of memory that the proofs of a large crate take, and that the planted bugs and the library for C take meanwhile
LARGE, BESIDE = 5e9, 4e9
# files of the system with what may be used: the bytes of memory, and the processor's time with what it is a part of
FREE = (("/proc/meminfo", r"MemAvailable:\s+(\d+) kB", 1024), ("/sys/fs/cgroup/memory.max", r"(\d+)", 1))
SHARE = ("/sys/fs/cgroup/cpu.max", r"(\d+) (\d+)")
# what the gate makes, by the names of the record
MADE = {"program": PROVED, "archive": PROVED_LIBRARY + "/libaig.a", "shared": PROVED_LIBRARY + "/libaig.so"}


def asked(*words):
    """Returns what a command prints, or nothing where it fails or does not end."""
    try:
        done = subprocess.run(words, cwd=ROOT, capture_output=True, text=True, check=False, timeout=SECONDS)
    except (FileNotFoundError, subprocess.TimeoutExpired):
        return None
    return None if done.returncode else done.stdout.strip()


def sum_of(name):
    """Returns the SHA-256 of a file, or nothing where there is none."""
    try:
        with open(name, "rb") as file:
            return hashlib.sha256(file.read()).hexdigest()
    except FileNotFoundError:
        return None


def made():
    """Returns the SHA-256 of all that the gate makes, by the names of the record."""
    return {name: sum_of(f"{ROOT}/{path}") for name, path in MADE.items()}


def sources():
    """Returns the SHA-256 of all that the gate proves: the crates, their list and the handles."""
    total = hashlib.sha256()
    names = [ROOT + "/crates.txt", ROOT + "/HANDLES"]
    for folder, folders, files in os.walk(ROOT + "/crates"):
        folders[:] = [name for name in folders if name not in ("out", "target", "__pycache__")]
        names += [f"{folder}/{name}" for name in files]
    for name in sorted(names):
        total.update(f"{os.path.relpath(name, ROOT)} {sum_of(name)}\n".encode())
    return total.hexdigest()


def state():
    """Returns the state of the repository: its commit, whether the files are exactly that commit's, and its sources."""
    changed = asked("git", "status", "--porcelain")
    commit = asked("git", "rev-parse", "HEAD") or "unknown"
    return {"commit": commit, "clean": "yes" if changed == "" else "no", "sources": sources()}


def read(name):
    """Returns the lines of a record, each a name and a text; nothing where there is no record."""
    try:
        with open(name, encoding="utf-8") as file:
            return dict(line.rstrip("\n").split(" ", 1) for line in file)
    except FileNotFoundError:
        return None


def text_of(record):
    return "".join(f"{key} {text}\n" for key, text in record.items())


def last_line(name):
    with open(name, encoding="utf-8", errors="replace") as file:
        return file.read().rstrip("\n").rpartition("\n")[2]


def costs_in(name):
    """Returns what the checks cost, by the lines of a file, or nothing where there is none."""
    try:
        with open(name, encoding="utf-8") as file:
            return costs.costs_of(file)
    except (FileNotFoundError, ValueError):
        return {}


def end(began, cost, logs):
    """Writes the record of a gate that passed, unless the sources changed while it ran."""
    before, now = read(began), state()
    if before["sources"] != now["sources"]:
        print("the sources changed while the gate ran, so build/gate is not written", file=sys.stderr)
        return
    if os.path.exists(cost) and not functions.judged(f"{cost}.functions"):
        sys.exit("a function keeps more than it may, so build/gate is not written")
    record = {**now, "clean": "yes" if before == now and now["clean"] == "yes" else "no"}
    record.update((name, total) for name, total in made().items() if total)
    record["toolchain"] = asked("rt", "version")
    record.update((os.path.basename(name), last_line(name)) for name in logs)
    record["seconds"] = f"{time.time() - os.stat(began).st_mtime:.0f}"
    record.update(line.rstrip("\n").split(" ", 1) for line in costs.lines_of(costs_in(cost)))
    os.makedirs(os.path.dirname(RECORD), exist_ok=True)
    with open(RECORD, "w", encoding="utf-8") as file:
        file.write(text_of(record))


def others(record, sums):
    """Returns the names of what the gate of a record did not make, or made with another sum."""
    return [name for name in MADE if sums[name] is None or record.get(name) != sums[name]]


def is_proved(record, now, sums):
    """Whether a gate passed these sources and made the program and the library with these sums."""
    return record is not None and record["sources"] == now and not others(record, sums)


def refusal(record, now, sums):
    """Returns why there is no release in this state of what has these sums, or nothing where there is one."""
    if now["clean"] != "yes":
        return "the tree is not clean: `git status` lists what is not committed"
    if record is None:
        return "no gate has passed here: run `make prove`"
    if record["commit"] != now["commit"]:
        passed, this = record["commit"][:12], now["commit"][:12]
        return f"the last gate passed commit {passed}, and this is {this}: run `make prove`"
    if record["clean"] != "yes":
        return "the last gate passed files that were not committed: run `make prove`"
    for name in others(record, sums):
        return f"{MADE[name]} is not the one that the gate proved: run `make prove`"
    return None


def numbers(name, pattern):
    """Returns the numbers that a file of the system has, or none."""
    try:
        with open(name, encoding="utf-8") as file:
            found = re.match(pattern, file.read()) if name.startswith("/sys") else re.search(pattern, file.read())
    except OSError:
        return []
    return [int(number) for number in found.groups()] if found else []


def lanes(processors, memory):
    """Returns how many crates can be proved side by side, or nothing where two large ones have no room. `rt ci` goes by
    the lines of a crate, counts twice as much, and so lets processors stand idle; where memory is small it knows
    best."""
    fit = int((memory - BESIDE) // LARGE)
    return min(processors, fit) if fit > 1 else None


def of_this_machine():
    """Returns how many processors there are to use, and how many bytes of memory."""
    processors, share = len(os.sched_getaffinity(0)), numbers(*SHARE)
    if share:
        processors = min(processors, max(1, share[0] // share[1]))
    memory = [unit * number for name, pattern, unit in FREE for number in numbers(name, pattern)]
    return processors, min(memory, default=0)


def main(words):
    if words == ["begin"]:
        if os.path.exists(RECORD):
            os.remove(RECORD)
        print(text_of(state()), end="")
    elif words[:1] == ["end"] and len(words) > 2:
        end(words[1], words[2], words[3:])
    elif words == ["lanes"]:
        print(lanes(*of_this_machine()) or "")
    elif words == ["report"]:
        record = read(RECORD)
        said = costs.table(costs_in(RECORD)) + f"{record.get('seconds')} s in all" if record else ""
        print(said or "no gate has passed here")
    elif words in (["program"], ["library"]):
        proved, unproved = {"program": (PROVED, UNPROVED), "library": (PROVED_LIBRARY, UNPROVED_LIBRARY)}[words[0]]
        print(proved if is_proved(read(RECORD), sources(), made()) else unproved)
    else:
        sys.exit(__doc__)


if __name__ == "__main__":
    main(sys.argv[1:])
