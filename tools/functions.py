#!/usr/bin/env python3
"""What each function costs in the checks of a gate: seconds of processor time, and megabytes that the checker keeps.

  functions.py FILE            prints the dearest functions, by a file that tools/costs.py wrote beside a gate
  functions.py FILE --write    takes from large_functions.txt what is no longer over the limit, and lists the crates
                               that are not listed there yet

While a crate is checked, the checker keeps a file for each module in a folder. A module is a part of a function: `Lts`
is the typing of its body, `Tie` the dictionaries of generic calls, `Proof` what was searched and found, and so on. The
sizes of the files are the same in each run, whatever else the machine does. When they were written, and how much
processor time the check had taken by then, give seconds. The folder goes with the check, so tools/costs.py reads it
meanwhile: what is written in the last two seconds of a check is missing.

A function is to keep at most 3.5 MB. large_functions.txt lists those that keep more, with how much. The gate fails
where another one does, or a listed one keeps more than its line says. So the list may only shrink."""

import argparse
import bisect
import collections
import glob
import math
import os
import pathlib
import re
import sys
import tempfile

LISTED = pathlib.Path(__file__).resolve().parent / "large_functions.txt"
MOST_MEGABYTES = 3.5
# How much more than its line a function may keep: the lines are rounded up.
SLACK = 0.05
PARTS = ("Lts", "Proof", "Tie", "Layout", "Reads", "Named", "Kinds", "Mir", "Code", "Answers", "Goals", "Given",
         "Invariants",
         "TheLink", "Key", "Statement", "Met", "Symbol")
MODULE = re.compile(rf"Rattle-(\w+)-(?:proofs|specs)\.(?:contracts\.)?(.+?)\.({'|'.join(PARTS)})[-\d]*(?:\..*)?\.oantt")
FOLDER = "rattle-logic-built-locked-{}-*"
HEAD = (f"# Functions that keep more than {MOST_MEGABYTES} MB in a check, and how much: see functions.py. "
        "This may only shrink.\n")
UNLISTED = "not listed yet:"

Cost = collections.namedtuple("Cost", "seconds megabytes")


class Kept:
    """What the check of a crate has kept so far, by the number of its process."""

    def __init__(self, number, top=None):
        self.pattern = os.path.join(top or tempfile.gettempdir(), FOLDER.format(number))
        self.modules, self.looks, self.last = {}, [], set()

    def look(self, now, seconds):
        """Notes the modules that are new, when the check has taken so many seconds of processor time."""
        self.looks.append((now, seconds))
        new = set()
        for folder in glob.glob(self.pattern):
            with os.scandir(folder) as files:
                # one that was new at the last look may have been half written
                new |= {file.path for file in files if file.name not in self.modules or file.path in self.last}
        for path in new:
            try:
                state = os.stat(path)
                self.modules[os.path.basename(path)] = state.st_mtime, state.st_size
            except FileNotFoundError:
                pass
        self.last = new

    def seconds_at(self, time):
        """How much processor time the check had taken at a time, between two looks in proportion."""
        after = min(max(bisect.bisect_left(self.looks, (time, 0)), 1), len(self.looks) - 1)
        (one, before), (other, then) = self.looks[after - 1], self.looks[after]
        share = (time - one) / (other - one) if other > one else 1
        return before + (then - before) * min(max(share, 0), 1)

    def costs(self):
        """What each function has cost, by crate and name. Modules of no function take their time from nobody."""
        found, last = collections.defaultdict(lambda: Cost(0.0, 0.0)), None
        for time, size, name in sorted((time, size, name) for name, (time, size) in self.modules.items()):
            seconds = self.seconds_at(time) if len(self.looks) > 1 else 0.0
            at = MODULE.fullmatch(name)
            if at:
                old = found[at[1], at[2]]
                took = 0.0 if last is None else max(seconds - last, 0.0)
                found[at[1], at[2]] = Cost(old.seconds + took, old.megabytes + size / 1e6)
            last = seconds
        return dict(found)


def merged(costs, more):
    """Costs of two checks; of a function that both have the greater. A check with holes keeps less."""
    greater = {name: max(cost, costs.get(name, cost), key=lambda it: it.megabytes) for name, cost in more.items()}
    return {**costs, **greater}


def lines_of(costs):
    return [f"{crate} {name} {cost.seconds:.1f} s {cost.megabytes:.2f} MB\n"
            for (crate, name), cost in sorted(costs.items())]


def costs_in(name):
    """The costs in a file, or none where there is no file."""
    try:
        lines = pathlib.Path(name).read_text(encoding="utf-8").splitlines()
    except FileNotFoundError:
        return {}
    return {(crate, function): Cost(float(seconds), float(megabytes))
            for crate, function, seconds, _, megabytes, _ in map(str.split, lines)}


def listed():
    """The megabytes of the functions in the list, and the crates that it does not have yet."""
    lines = [line for line in LISTED.read_text(encoding="utf-8").splitlines() if not line.startswith("#")]
    unlisted = [name for line in lines if line.startswith(UNLISTED) for name in line.removeprefix(UNLISTED).split()]
    rows = (line.split() for line in lines if not line.startswith(UNLISTED))
    return {(crate, name): float(megabytes) for crate, name, megabytes in rows}, unlisted


def wrong(costs, known, unlisted):
    """Yields the functions that keep more than they may."""
    for (crate, name), cost in costs.items():
        most = known.get((crate, name), MOST_MEGABYTES)
        if crate not in unlisted and cost.megabytes > most + SLACK:
            yield f"{crate} {name} keeps {cost.megabytes:.2f} MB; at most {most} are meant"


def rewritten(costs, known, unlisted):
    """The text of the list by new costs. No function of a crate that is listed is added, and none gets more."""
    crates = {crate for crate, _ in costs}
    rows = {name: most for name, most in known.items() if name[0] not in crates}
    for (crate, name), cost in costs.items():
        if cost.megabytes > MOST_MEGABYTES and (crate in unlisted or (crate, name) in known):
            rounded = math.ceil(10 * cost.megabytes) / 10
            rows[crate, name] = min(rounded, known.get((crate, name), rounded))
    left = " ".join(name for name in unlisted if name not in crates)
    text = "".join(f"{crate} {name} {most}\n" for (crate, name), most in sorted(rows.items()))
    return HEAD + text + (f"{UNLISTED} {left}\n" if left else "")


def judged(name):
    """Prints what the gate says of the functions, and returns whether all are as they may be."""
    costs, (known, unlisted) = costs_in(name), listed()
    if not costs:
        print("nothing is known of the functions: nothing was checked, or the checker keeps its modules elsewhere")
    found = [*wrong(costs, known, unlisted)]
    small = [key for key in known if key in costs and costs[key].megabytes <= MOST_MEGABYTES]
    found_small = [f"{crate} {name} is no longer over the limit: functions.py --write" for crate, name in small]
    print(*found, *found_small, sep="\n")
    over = sum(cost.megabytes > MOST_MEGABYTES for cost in costs.values())
    print(f"{over} of {len(costs)} functions keep more than {MOST_MEGABYTES} MB; without a list yet: "
          f"{', '.join(unlisted) or 'no crate'}")
    return not found


def main():
    reader = argparse.ArgumentParser(description=__doc__, formatter_class=argparse.RawDescriptionHelpFormatter)
    reader.add_argument("file", type=pathlib.Path)
    reader.add_argument("--write", action="store_true", help="writes large_functions.txt anew")
    reader.add_argument("--most", type=int, default=60, help="how many functions it prints (else 60)")
    chosen = reader.parse_args()
    costs = costs_in(chosen.file)
    if chosen.write:
        LISTED.write_text(rewritten(costs, *listed()), encoding="utf-8")
    dearest = sorted(costs.items(), key=lambda it: -it[1].megabytes)[:chosen.most]
    for (crate, name), cost in dearest:
        print(f"{cost.megabytes:6.2f} MB {cost.seconds:6.1f} s  {crate} {name}")
    return 0 if judged(chosen.file) else 1


if __name__ == "__main__":
    sys.exit(main())
