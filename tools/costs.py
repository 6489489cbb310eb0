#!/usr/bin/env python3
"""What the checks of each crate cost: seconds of processor time, seconds from the first to the last of its checks, and
the most memory at a time.

  costs.py FILE       notes in FILE what the checks cost that the process above this one starts, until that one ends,
                      and in FILE.functions what each function did (tools/functions.py)

A check is a process of the toolchain, `rattle`, that names a crate. It is of the proofs where it runs in the crate's
folder, and else of the planted bugs. The script reads /proc every two seconds, so it misses what a process uses after
the last time. Where there is no /proc, it notes nothing. `tools/gate.py report` prints what the last gate cost."""

import collections
import os
import pathlib
import sys
import time

import functions

ROOT = pathlib.Path(__file__).resolve().parent.parent
# Seconds between two looks. The memory is read at each fifth alone: the kernel goes through all pages for it.
PAUSE, LOOKS = 2, 5
PROOFS, BUGS = "proofs", "bugs"
# A crate is not to take more than this for its proofs.
MOST_SECONDS, MOST_MEMORY = 600, 4e9
NAMES = ("processor", "wall", "memory")

Cost = collections.namedtuple("Cost", NAMES)
Process = collections.namedtuple("Process", "above began seconds")


def read(name):
    """Returns the bytes of a file of /proc, or none where its process has ended."""
    try:
        return pathlib.Path(name).read_bytes()
    except OSError:
        return b""


def processes():
    """Returns all processes by their numbers."""
    found, tick = {}, os.sysconf("SC_CLK_TCK")
    for number in filter(str.isdigit, os.listdir("/proc")):
        fields = read(f"/proc/{number}/stat").rpartition(b")")[2].split()
        if fields:
            found[int(number)] = Process(int(fields[1]), int(fields[19]), (int(fields[11]) + int(fields[12])) / tick)
    return found


def memory(number):
    """Returns the bytes of memory of a process; of what it shares with others, its share."""
    for line in read(f"/proc/{number}/smaps_rollup").splitlines():
        if line.startswith(b"Pss:"):
            return int(line.split()[1]) * 1024
    pages = read(f"/proc/{number}/statm").split()
    return int(pages[1]) * os.sysconf("SC_PAGE_SIZE") if pages else 0


def checks(found, top):
    """Yields the checks among these processes that are below this one: the number of each, its kind and its crate."""
    below = collections.defaultdict(list)
    for number, process in found.items():
        below[process.above].append(number)
    left = [top]
    while left:
        number = left.pop()
        left += below[number]
        words = read(f"/proc/{number}/cmdline").split(b"\0")
        if os.path.basename(words[0]) != b"rattle" or b"--crate-name" not in words[:-1]:
            continue
        try:
            is_proof = os.readlink(f"/proc/{number}/cwd").startswith(f"{ROOT}/crates/")
        except OSError:
            continue
        yield number, PROOFS if is_proof else BUGS, words[words.index(b"--crate-name") + 1].decode()


class Watch:
    """What the checks below a process have cost so far."""

    def __init__(self, top):
        self.top, self.looks = top, 0
        self.seconds, self.times, self.memory = collections.defaultdict(dict), {}, collections.Counter()
        self.kept, self.functions = {}, {}

    def look(self):
        found, now, sizes = processes(), time.time(), collections.Counter()
        for number, *check in checks(found, self.top):
            kind, process = tuple(check), found[number]
            self.seconds[kind][number, process.began] = process.seconds
            if kind[0] == PROOFS:
                self.kept.setdefault(number, functions.Kept(number)).look(now, process.seconds)
            first, _ = self.times.get(kind, (now, now))
            self.times[kind] = first, now
            sizes[kind] += memory(number) if self.looks % LOOKS == 0 else 0
        self.memory |= sizes  # the greater of both
        self.looks += 1
        for number in [it for it in self.kept if it not in found]:
            self.functions = functions.merged(self.functions, self.kept.pop(number).costs())

    def costs(self):
        return {kind: Cost(sum(each.values()), self.times[kind][1] - self.times[kind][0], self.memory[kind])
                for kind, each in self.seconds.items()}


def lines_of(costs):
    """Returns the lines of a file: of each the kind and the crate, and then what it cost."""
    return [f"{kind}:{crate} {cost.processor:.0f} s of processor time, {cost.wall:.0f} s, {cost.memory / 1e9:.1f} GB\n"
            for (kind, crate), cost in sorted(costs.items())]


def costs_of(lines):
    """Returns the costs in the lines of a file, which may have others too."""
    found = {}
    for line in lines:
        name, _, text = line.partition(" ")
        kind, colon, crate = name.partition(":")
        if colon and kind in (PROOFS, BUGS):
            numbers = [float(part.split()[0]) for part in text.split(", ")]
            found[kind, crate] = Cost(numbers[0], numbers[1], numbers[2] * 1e9)
    return found


def table(costs):
    """Returns a table, the dearest crates first, and warnings."""
    rows = sorted(costs.items(), key=lambda it: -it[1].processor)
    text = "".join(f"{crate:16} {kind:6} {cost.processor:6.0f} s of processor time, {cost.wall:6.0f} s, "
                   f"{cost.memory / 1e9:4.1f} GB\n" for (kind, crate), cost in rows)
    for kind in (PROOFS, BUGS):
        total = sum(cost.processor for (it, _), cost in rows if it == kind)
        text += f"{kind}: {total / 60:.0f} minutes of processor time\n"
    for (kind, crate), cost in rows:
        if kind == PROOFS and (cost.processor > MOST_SECONDS or cost.memory > MOST_MEMORY):
            text += (f"warning: the proofs of {crate} take {cost.processor / 60:.0f} minutes and "
                     f"{cost.memory / 1e9:.1f} GB; at most {MOST_SECONDS / 60:.0f} minutes and "
                     f"{MOST_MEMORY / 1e9:.0f} GB are meant\n")
    return text


def write(name, lines):
    """Writes a file, which is whole at any time."""
    new = pathlib.Path(f"{name}.new")
    new.write_text("".join(lines), encoding="utf-8")
    new.replace(name)


def watch(name):
    """Notes the costs until the process above this one ends."""
    above = os.getppid()
    if not os.path.isdir("/proc/self"):
        return
    seen = Watch(above)
    while os.getppid() == above:
        seen.look()
        write(name, lines_of(seen.costs()))
        write(f"{name}.functions", functions.lines_of(seen.functions))
        time.sleep(PAUSE)


if __name__ == "__main__":
    if len(sys.argv) != 2:
        sys.exit(__doc__)
    watch(sys.argv[1])
