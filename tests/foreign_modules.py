#!/usr/bin/env python3
"""Compares circuits of modules that none of us wrote with Icarus Verilog, which reads the same sources: each named
signal in each frame, under random inputs. The modules are those of Debian's source packages (foreign/packages.py).
`apt-get` fetches them into FOLDER, and needs lines `deb-src` in its sources. A copy of each module gets one assertion,
so that there is a row, and nothing else changes.

It prints each difference, the counts, and the reasons why modules were not compared. FOLDER/outcomes.txt has a line for
each module, and FOLDER/work what was made of those that do not agree. The status is 1 if a difference has no
explanation (foreign/known.py).

usage: foreign_modules.py FOLDER [PROGRAM]. It needs yosys, cadical and iverilog."""

from __future__ import annotations

import argparse
import fnmatch
import hashlib
import os
import random
import shutil
import sys
from collections import Counter
from concurrent.futures import ThreadPoolExecutor, as_completed
from pathlib import Path
from typing import Dict, Iterator, List, Set, TextIO, Tuple

from foreign.comparison import (AFTER_RESET, AGREES, DIFFERS, NOT_BY_ICARUS, NOT_BY_YOSYS, OUTCOMES, REJECTED, TOO_LONG,
                                Command, Outcome, Task, compared, copies, reason)
from foreign.known import explanation
from foreign.modules import Folder, tops, words
from foreign.packages import PACKAGES, Package, sources, unpacked

REPOSITORY = Path(__file__).resolve().parent.parent
Done = List[Tuple[Task, Outcome]]


def tasks(folder: Path, patterns: List[str]) -> Iterator[Task]:
    """The modules of all packages, each text once."""
    seen: Set[bytes] = set()
    for package in PACKAGES:
        for task, key in _of_package(package, folder):
            is_chosen = not patterns or any(fnmatch.fnmatchcase(task.name, it) for it in patterns)
            if key not in seen and is_chosen:
                seen.add(key)
                yield task


def _of_package(package: Package, folder: Path) -> Iterator[Tuple[Task, bytes]]:
    """The modules of a package, and a sum of their words."""
    root = unpacked(package, folder)
    library = [unpacked(PACKAGES[0], folder) / package.library] if package.library else []
    by_folder: Dict[Path, List[Path]] = {}
    for path in sources(package, root):
        by_folder.setdefault(path.parent, []).append(path)
    if not by_folder:
        print(f"left out: {package.label}: apt-get did not fetch its sources", flush=True)
    for paths in by_folder.values():
        known = Folder(paths, library)
        for path, found in known.modules.items():
            for module in tops(found):
                needed = known.needed(path, module)
                inside = path.relative_to(root).as_posix()
                task = Task(package.label, inside, module, path.parent, copies(path, module, needed))
                yield task, hashlib.sha256(words(needed).encode("latin-1")).digest()


def all_of(found: List[Task], command: Command, work: Path, jobs: int, log: TextIO) -> Done:
    """Compares all modules, and writes a line for each."""
    def one(number: int) -> Outcome:
        to = work / str(number)
        outcome = compared(found[number], command, to)
        if outcome.word == AGREES:
            shutil.rmtree(to)
        return outcome

    done: Dict[int, Outcome] = {}
    with ThreadPoolExecutor(jobs) as pool:
        waiting = {pool.submit(one, number): number for number in range(len(found))}
        for ended in as_completed(waiting):
            if ended.exception():
                pool.shutdown(wait=False, cancel_futures=True)
            number, outcome = waiting[ended], ended.result()
            print(number, outcome.word, found[number].name, *outcome[1:], sep="\t", file=log, flush=True)
            if outcome.word in (AFTER_RESET, DIFFERS):
                print(f"{outcome.word}: {number}: {found[number].name}: {outcome.why}", flush=True)
            done[number] = outcome
    return [(found[number], done[number]) for number in sorted(done)]


def report(done: Done) -> int:
    """Prints the counts, for each package and in all, and the reasons. How many differences have no explanation."""
    by_package = Counter((task.package, outcome.word) for task, outcome in done)
    for package in dict.fromkeys(task.package for task, _ in done):
        counts = [f"{by_package[package, word]} {word}" for word in OUTCOMES if by_package[package, word]]
        print(f"{package}: {', '.join(counts)}")
    total = Counter(outcome.word for _, outcome in done)
    print(f"{len(done)} modules: {', '.join(f'{total[word]} {word}' for word in OUTCOMES)}")
    agreed = [it for _, it in done if it.word in (AGREES, AFTER_RESET)]
    print(f"{sum(it.signals for it in agreed)} signals agree in {sum(it.values for it in agreed)} values; "
          f"{sum(it.left for it in agreed)} signals of these modules were not compared")
    for word in (REJECTED, NOT_BY_YOSYS, NOT_BY_ICARUS, TOO_LONG):
        examples: Dict[str, List[str]] = {}
        for task, it in done:
            if it.word == word:
                examples.setdefault(reason(it.why), []).append(task.name)
        for why, names in sorted(examples.items(), key=lambda it: -len(it[1])):
            print(f"{len(names):4} {word}: {why}: {names[0]}")
    differing = [task.name for task, it in done if it.word in (AFTER_RESET, DIFFERS)]
    for name in differing:
        print(f"{explanation(name) or 'NOT EXPLAINED'}: {name}")
    return sum(explanation(name) is None for name in differing)


def main() -> int:
    parser = argparse.ArgumentParser(description=__doc__, formatter_class=argparse.RawDescriptionHelpFormatter)
    parser.add_argument("folder", type=Path, help="a folder for the packages, their sources and the work")
    parser.add_argument("program", nargs="?", type=Path, help="the program aig")
    parser.add_argument("--command", type=Path, default=REPOSITORY / "tools" / "aig-verdicts",
                        help="aig-verdicts (that of this repository)")
    parser.add_argument("--only", action="append", default=[], metavar="PATTERN",
                        help="compare those whose PACKAGE FILE MODULE matches")
    parser.add_argument("--count", type=int, default=0, help="compare so many of them, chosen at random (all)")
    parser.add_argument("--seed", type=int, default=1, help="which ones are chosen (1)")
    parser.add_argument("--seconds", type=int, default=30, help="processor time of each program (30)")
    parser.add_argument("--jobs", type=int, default=os.cpu_count() or 1, help="modules at once (one per processor)")
    options = parser.parse_args()
    if options.program:
        os.environ["AIG_PROGRAM"] = str(options.program.resolve())
    folder = options.folder.resolve()
    folder.mkdir(parents=True, exist_ok=True)
    shutil.rmtree(folder / "work", ignore_errors=True)
    found = list(tasks(folder, options.only))
    random.Random(options.seed).shuffle(found)
    command = Command(options.command, options.seconds)
    with (folder / "outcomes.txt").open("w", encoding="utf-8") as log:
        done = all_of(found[:options.count or None], command, folder / "work", options.jobs, log)
    return 1 if report(done) else 0


if __name__ == "__main__":
    sys.exit(main())
