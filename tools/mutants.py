#!/usr/bin/env python3
"""Makes mutants of the Python packages, one for each place: a program chooses what is wrong, and not whoever writes
the tests (tools/mutation/made.py has the kinds). Each that is tried is put into a copy of the tree, and the parts of
the tests that are about its file run until one fails: those that the planted bugs of the file name, or else those of
the nearest files that import it.

With --sample N it tries mutants that the commit chooses for so many processor seconds; tests/all.py does that for 300.
Without it, all of the files that are named. --only takes those whose names hold a text, --list tries none.

unseen_mutants.txt beside this script lists mutants that no test sees, each with a reason. One that is not seen and not
listed is printed and counted, and does not fail yet: not all of them were tried. A part that is ended for its time, or
that is left out, shows nothing."""

import argparse
import collections
import functools
import os
import random
import re
import resource
import signal
import sys
import tempfile

import gate
import planted_python
from mutation import made
from planted_python import ROOT, Copy, runs

# The packages whose files are changed.
PACKAGES = ("python/src/aig", "verdicts/src/aig_verdicts")
UNSEEN = ROOT / "tools" / "unseen_mutants.txt"
# The most parts of tests that are run for a mutant.
MOST_PARTS = 6
SEEN, NOT_SEEN, NOTHING, NO_PYTHON = "seen", "not seen", "shows nothing", "no right Python"


def files():
    return sorted(path for package in PACKAGES for path in (ROOT / package).rglob("*.py"))


def name_of(path):
    return str(path.relative_to(ROOT))


def mutants_of(path):
    return made.Source(name_of(path), path.read_text(encoding="utf-8")).mutants()


def parts_by_file():
    """The parts of the tests that planted bugs name, by the file that they change; those named most come first."""
    found = collections.defaultdict(collections.Counter)
    for bug in planted_python.all_bugs():
        found[bug.file][bug.seen] += 1
    return {file: [part for part, _ in counts.most_common()] for file, counts in found.items()}


@functools.lru_cache(maxsize=None)
def users(path):
    """The files that import one, by their lines that begin with `from`."""
    imports = re.compile(rf"(?m)^\s*from [.\w]*\b{path.stem} import|^\s*from [.\w]+ import [^#]*?\b{path.stem}\b")
    return [it for it in files() if it != path and imports.search(text_of(it))]


@functools.lru_cache(maxsize=None)
def text_of(path):
    return path.read_text(encoding="utf-8")


def parts_for(path, known):
    """The parts that are about a file: its own, or those of the nearest files that import it."""
    found, seen, nearest = [], {path}, [path]
    while nearest and not found:
        found = [part for it in nearest for part in known.get(name_of(it), [])[:MOST_PARTS if it == path else 1]]
        nearest = [it for it in dict.fromkeys(user for each in nearest for user in users(each)) if it not in seen]
        seen.update(nearest)
    return list(dict.fromkeys(found))[:MOST_PARTS]


def listed():
    """The mutants that no test sees, with the reasons why none has to."""
    lines = [line for line in UNSEEN.read_text(encoding="utf-8").splitlines() if not line.startswith("#")]
    return dict(zip(lines[::2], (line.strip() for line in lines[1::2])))


def meaning(shown):
    """What a part shows of a mutant. An exception of any kind is a failure that somebody sees."""
    if shown.has_failed or shown.has_failed is None and "status 1:" in shown.why:
        return SEEN
    return NOT_SEEN if shown.has_failed is False else NOTHING


def tried(copy, mutant, parts):
    """What the parts show of a mutant, one after the other, and the last of them."""
    path = copy.folder / mutant.file
    right = path.read_text(encoding="utf-8")
    text = made.changed(right, mutant)
    if not made.is_right_python(text):
        return NO_PYTHON, ""
    path.write_text(text, encoding="utf-8")
    try:
        words = NOTHING
        for part in parts:
            word = meaning(copy.shown(part))
            words = word if word != NOTHING else words
            if word == SEEN:
                return word, part
        return words, ", ".join(parts)
    finally:
        path.write_text(right, encoding="utf-8")


def used():
    usage = resource.getrusage(resource.RUSAGE_CHILDREN)
    return usage.ru_utime + usage.ru_stime


def in_order(paths, commit):
    """The mutants of these files, in an order that the commit chooses. No file is read before one of it is next."""
    chance = random.Random(commit)
    sizes = {path: path.stat().st_size + 1 for path in paths}
    left, of = {}, list(sizes)
    while of:
        path = chance.choices(of, [sizes[it] for it in of])[0]
        if path not in left:
            left[path] = mutants_of(path)
            chance.shuffle(left[path])
        if left[path]:
            yield path, left[path].pop()
        else:
            of.remove(path)


class Trial:
    """Mutants on trial, and how many ended in each way."""

    def __init__(self, copy):
        self.copy, self.known, self.listed = copy, parts_by_file(), listed()
        self.counts = collections.Counter()

    def take(self, path, mutant):
        word, part = tried(self.copy, mutant, parts_for(path, self.known))
        is_listed = word == NOT_SEEN and made.key_of(mutant) in self.listed
        self.counts["listed" if is_listed else word] += 1
        if word == NOT_SEEN and not is_listed:
            where = part or "no part is about it"
            print(f"mutants: not seen and not listed: {made.key_of(mutant)} ({where})", flush=True)

    def last_line(self):
        counts = self.counts
        unlisted = counts[NOT_SEEN]
        return (f"mutants, {used():.0f} processor seconds: {counts[SEEN] + counts['listed']} passed, 0 failed; "
                f"{unlisted} not seen and not listed; tests showed nothing of {counts[NOTHING]}")


def arguments():
    parser = argparse.ArgumentParser(description=__doc__, formatter_class=argparse.RawDescriptionHelpFormatter)
    parser.add_argument("--sample", type=float, metavar="SECONDS", help="those that the commit chooses, for so long")
    parser.add_argument("--file", action="append", help="the files whose names hold this; may be given again")
    parser.add_argument("--only", action="append", help="the mutants whose keys hold this; may be given again")
    parser.add_argument("--list", action="store_true", help="prints the mutants, and tries none")
    parser.add_argument("program", nargs="?", help="the program that the package runs (else that of the gate)")
    return parser.parse_args()


def chosen(words):
    """The mutants that the command line asks for, each with its file."""
    paths = [path for path in files() if not words.file or any(it in name_of(path) for it in words.file)]
    if words.sample:
        return in_order(paths, gate.asked("git", "rev-parse", "HEAD"))
    every = ((path, mutant) for path in paths for mutant in mutants_of(path))
    return (it for it in every if not words.only or any(text in made.key_of(it[1]) for text in words.only))


def main():
    words = arguments()
    signal.signal(signal.SIGTERM, lambda *_: sys.exit("stopped"))
    if words.list:
        counts = collections.Counter()
        for _, mutant in chosen(words):
            print(made.key_of(mutant))
            counts[mutant.kind] += 1
        print(f"{sum(counts.values())} mutants: " + ", ".join(f"{counts[kind]} {kind}" for kind in made.KINDS))
        return 0
    with tempfile.TemporaryDirectory(prefix="mutants-") as folder:
        trial = Trial(Copy(folder, os.path.abspath(words.program or runs.PROVED_PROGRAM)))
        for path, mutant in chosen(words):
            if words.sample and used() > words.sample:
                break
            trial.take(path, mutant)
    print(trial.last_line())
    return 0


if __name__ == "__main__":
    sys.exit(main())
