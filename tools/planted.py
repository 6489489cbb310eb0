#!/usr/bin/env python3
"""Tries the planted bugs of crates, many of a crate together. Each changes the body of a function, and a proof of a
function rests on the contracts of others alone. So one check of a copy says of each changed function whether the
prover refuses it. In the copy no other function has its body, and each has a hole for its proof: `rt ci` proves them
as they are. Bugs that change one function come in different checks, one after the other in one folder: the first reads
the crate's definitions and lemmas, and those after it take them from there. A crate has one process: two for one crate
would both read its libraries.

Each planted bug names the clause that it breaks. It is refused where a goal of that clause is open in a function that
it changes; one outside of the gate that names none, where any goal is. The script prints all goals that are open, and
of each why:

  false     values are known at which the goal is false
  no proof  none was found
  limit     the prover stopped at a limit before it found one
  answer    an answer in proofs/ no longer fits the goal
  name      an answer in proofs/ names what the bug took away: this says nothing of the goal, and does not count

Only the first shows by itself that the body is wrong.

Each exported call has one: it fails where one has none, but for those in without_bug.txt.

It tries those of the gate and with --more all others too, over what `rt ci` or `rt check` left of the libraries below a
crate; where there is nothing, they are built first.

refused.txt beside this script has a sum of each crate whose bugs were all refused: of its files, its bugs and its lines
in crates.txt, of what it can cite of the libraries below, of the toolchain and of tools/judge, which tries a bug. A
library's bodies and proofs cannot be cited. Where the sum is the same, the crate's bugs are tried again only if the
commit chooses that crate. It chooses as many crates as have a tenth of all bugs, and each commit chooses others: for
one bug of each crate all libraries would be read. With --all every bug is tried. With --record, too, and a crate whose
bugs are all refused gets its sum in that file. With --sums the sums of this run go into another file.

The bugs of crates/NAME/src/a/b.rt are in tests/planted/NAME/a/b.bugs: a line `file:` with the path of the source, and
a paragraph for each bug. It begins with the name of the bug and a sentence: what is wrong with the body. Then come
`clause:`, and pairs of `old:` and `new:`. The clause is one of the function's contract or of its trait's, by its name.
It is `ensures` for one without a name, and `invariant` for that of a type or a loop. `old:` is a piece of one line that
is in the source exactly once; a pair sees what those before it made. Before `clause:` there may be `guards:` with the
exported call that the function serves, and `mistake:`, `relation:` or `law:` with what the bug stands for. One outside
of the gate has `more:`. No two bugs of a crate have one name. To write one:

- Read the goal before you name its clause: the prover also leaves true goals open, above all in a new branch.
- Turn a value and keep the names. A call whose result is no longer wanted stays as `let _ = call();`.
- Prefer the wrong answer: a case left out, a write dropped, the neighbour in place of the entry, an error at once. A
  body that returns out of memory is proved: contracts allow it, and tests refute it.
- Change code only. A law has no code: its bugs change a function whose contract has the same definitions.
- A relation may be too weak although each body is right. A helper shows this that nothing calls: its contract is the
  relation, and it does the wrong thing. It needs no answer in proofs/.
- Where no caller cites a clause, change the exported function, else the function that is cheaper to prove.

With --list it tries nothing. It prints each bug with its clause and its sentence, the functions that it changes, and
what it stands for beside them: an exported call that these functions serve (`guards`), a kind of mistake, a relation
or a law."""

import argparse
import collections
import concurrent.futures
import hashlib
import os
import pathlib
import re
import sys
import tempfile
import time

import gate
import refused
from judge.bugs import bugs_of, crates_with_bugs, edits_of, rounds
from judge.crates import ROOT, toolchain
from judge.trials import KINDS, tried
from sources.exports import Crate as Exports, crates as libraries
from sources.planted import of_line

# How long the proofs that a check waits for may print nothing, in seconds.
SILENT_SECONDS = 7200
# Which part of all bugs is tried although their sums are in refused.txt.
TRIED_AGAIN = 10
# The words of a planted bug that say what it stands for, beside the functions that it changes.
STANDS_FOR = ("guards", "mistake", "relation", "law")
# The exported calls without a planted bug, a line for each crate. They are not in a sum: they refuse nothing.
WITHOUT = ROOT / "tools" / "without_bug.txt"
# beside the proofs of the gate, more than two only slow down the chain of crates that its time depends on
FEW = min(2, len(os.sched_getaffinity(0)))
# The options of the command line.
OPTIONS = (
    ("--jobs", {"type": int, "default": FEW}, f"how many processors it takes (else {FEW})"),
    ("--only", {"action": "append"}, "the planted bugs whose names hold this; may be given again"),
    ("--more", {"action": "store_true"}, "those outside of the gate too"),
    ("--all", {"action": "store_true"}, "also those that refused.txt says were refused"),
    ("--record", {"action": "store_true"}, "tries all, and puts what was refused into refused.txt"),
    ("--list", {"action": "store_true"}, "prints the planted bugs, and tries none"),
    ("--behind", {"type": pathlib.Path, "metavar": "FILE"},
     "the output of an `rt ci` that runs: a crate waits for the libraries below it"),
    ("--sums", {"type": pathlib.Path, "metavar": "FILE"},
     "writes refused.txt as it should be after this run into FILE"),
    ("crates", {"nargs": "*"}, "the crates whose planted bugs are tried (else all)"),
)


def told(crate, known, edits, old, chosen):
    """Tries the planted bugs of a crate, but for those of one that is not chosen, where all were refused before.
    Returns the crate's sum, and how each that was tried is refused."""
    now = refused.sum_for(crate)
    is_recorded = old.get(crate.name) == now
    if is_recorded:
        again = "they are tried again" if crate.name in chosen else "none is tried again"
        print(f"{crate.name}: {len(edits)} planted bugs were refused before; {again}", flush=True)
        if crate.name not in chosen:
            return now, []
    with tempfile.TemporaryDirectory(prefix="planted-") as name:
        room = pathlib.Path(name)
        checks = rounds(crate.folder, edits)
        kinds = [kind for texts, taken in checks for kind in tried(crate, room, known, texts, taken)]
    if is_recorded and None in kinds:
        print(f"{crate.name}: FAILED: {refused.REFUSED.name} says that its planted bugs are refused", flush=True)
    return now, kinds


def tried_again(commit, counts):
    """Returns the crates that a commit chooses, by how many bugs each crate has: the first ones, in an order of its
    own, that have a tenth of all bugs."""
    chosen, left = set(), -(-sum(counts.values()) // TRIED_AGAIN)
    for name in sorted(counts, key=lambda it: hashlib.sha256(f"{commit} {it}".encode()).digest()):
        if left > 0:
            chosen.add(name)
            left -= counts[name]
    return chosen


def without_bug():
    """Returns the exported calls of each crate that need no planted bug."""
    lines = [line.split(": ") for line in WITHOUT.read_text().splitlines() if not line.startswith("#")]
    return {name: calls.split() for name, calls in lines}


def uncovered():
    """Yields the exported calls with a clause that no planted bug changes or guards, and that are not in
    without_bug.txt. A method of a trait is tried at the implementations, and a law has no code."""
    words = [word for name in crates_with_bugs() for bug in bugs_of(name, with_more=True) for word in bug.words]
    guarded = {name for word, text in words if word == "guards" for name in re.findall(r"[\w:]+", text)}
    for crate in map(Exports, libraries()):
        _, edits, _ = edits_of(ROOT / "crates" / crate.name, with_more=True, only=None)
        changed = {it.name for edit in edits for it in edit.functions}
        for export in crate.exports():
            *owner, name = export.name.split("::")
            is_call = any(head.startswith("ensures") for head, _ in export.clauses)
            is_of_trait = export.block is not None and export.block.kind == "pub trait"
            if not is_call or is_of_trait or name.startswith("law_of_"):
                continue
            tried_here = any(it.split("::")[-1] == name and (not owner or it.split("::")[-2].startswith(owner[0]))
                             for it in changed)
            if not tried_here and export.name not in guarded and export.name not in without_bug().get(crate.name, []):
                yield f"{crate.name}::{export.name}"


def print_list(crates, with_more, only):
    """Prints the planted bugs of these crates, or of all, and how many there are in the gate and outside of it."""
    counts = collections.Counter()
    for name in crates or crates_with_bugs():
        _, edits, wrong = edits_of(ROOT / "crates" / name, with_more, only)
        about = {bug.name: bug for bug in bugs_of(name, with_more)}
        for edit in [*edits, *wrong]:
            bug = about[edit.name]
            changed = [f"in: {it.name}" for it in edit.functions] if edit.changes else ["it cannot be applied"]
            stands_for = [f"{word}: {text}" for word, text in bug.words if word in STANDS_FOR]
            print(f"{name}/{edit.name}: {edit.clause or 'no clause'}\n    {bug.sentence}")
            print("".join(f"    {line}\n" for line in [*changed, *stands_for]), end="")
            counts[edit.is_more] += 1
    print(f"{counts[False]} in the gate" + f", {counts[True]} outside of it" * with_more)
    return 0


def copies(crate):
    """Yields the edits in must-fail/, which `rt ci` tries, that are not the planted bugs with their names."""
    changes = {bug.name: bug.changes for bug in bugs_of(crate.name, with_more=True)}
    for path in sorted((crate.folder / "must-fail").glob("*.edit")):
        texts = [text for word, text in map(of_line, path.read_text().splitlines()) if word in ("old", "new")]
        if changes.get(path.stem) != [*zip(texts[::2], texts[1::2])]:
            yield path.name


def proved_in(proofs):
    """Returns the libraries that an `rt ci` that runs has proved, or kept from an earlier run, by its output so far. It
    ends the script where one is not proved, or nothing was printed for long."""
    if time.time() - proofs.stat().st_mtime > SILENT_SECONDS:
        sys.exit(f"the proofs printed nothing for {SILENT_SECONDS} seconds")
    said = proofs.read_text()
    if re.search(r"(?m)^rt: .* NOT PROVED$", said):
        sys.exit("a library is not proved")
    return set(re.findall(r"(?m)^rt: (\w+) (?:proved$|is kept: )", said))


def in_turn(work, behind):
    """Yields the crates that can be checked, each with its planted bugs, the most bugs first: all, or those whose
    libraries an `rt ci` that runs has proved so far."""
    left = sorted(work, key=lambda it: -len(it[-1]))
    while left:
        proved = proved_in(behind) if behind else set()
        ready = [it for it in left if not behind or proved >= it[0].below]
        yield from ready
        left = [it for it in left if it not in ready]
        time.sleep(2 if left else 0)


class Trial:
    """The planted bugs of this run: those that are tried, how each is refused, and the sums of the crates."""

    def __init__(self, words):
        self.words, self.kinds, self.before, self.sums = words, collections.Counter(), 0, {}

    def fail(self, name, why):
        print(f"{name}: FAILED: {why}")
        self.kinds[None] += 1

    def work(self):
        """Returns the crates to check, each with its functions and its planted bugs."""
        for name in uncovered() if not self.words.only else ():
            self.fail(name, "no planted bug changes it or guards it")
        found = []
        for crate in toolchain(self.words.jobs):
            if self.words.crates and crate.name not in self.words.crates:
                continue
            known, edits, wrong = edits_of(crate.folder, self.words.more, self.words.only)
            for edit in wrong:
                self.fail(f"{crate.name}/{edit.name}", "it cannot be applied")
            for name in copies(crate):
                self.fail(f"{crate.name}/must-fail/{name}", "it differs from the planted bug of its name")
            if edits and not self.words.behind:
                crate.build()
            found += [(crate, known, edits)] if edits else []
        return found

    def run(self):
        words, work = self.words, self.work()
        are_all_new = words.all or words.record or words.more or words.only
        old = {} if are_all_new else refused.recorded()
        counts = {crate.name: len(edits) for crate, _, edits in work}
        chosen = tried_again(gate.asked("git", "rev-parse", "HEAD"), counts)
        with concurrent.futures.ThreadPoolExecutor(words.jobs) as pool:
            tries = [(pool.submit(told, *it, old, chosen), it) for it in in_turn(work, words.behind)]
            for done, (crate, _, edits) in tries:
                self.note(crate.name, *done.result(), len(edits))
        if words.sums:
            refused.record(self.sums, words.sums)

    def note(self, name, total, found, count):
        """Notes how the bugs of a crate are refused, of which there are so many."""
        self.kinds.update(found)
        self.before += count - len(found)
        if not self.words.only and all(found):
            self.sums[name] = total
            # at once, so that a run that is stopped keeps what it found
            if self.words.record:
                refused.record(self.sums)

    def ended(self):
        """Prints the last lines, and returns the status."""
        print("refused: " + ", ".join(f"{self.kinds[kind]} {kind}" for kind in KINDS[:-1]))
        again = f"; {self.before} refused before and not tried again" * (self.before > 0)
        print(f"{sum(self.kinds[kind] for kind in KINDS)} passed, {self.kinds[None]} failed{again}")
        return 1 if self.kinds[None] else 0


def main():
    parser = argparse.ArgumentParser(description=__doc__, formatter_class=argparse.RawDescriptionHelpFormatter)
    for name, settings, text in OPTIONS:
        parser.add_argument(name, help=text, **settings)
    trial = Trial(parser.parse_args())
    os.chdir(ROOT)
    if trial.words.list:
        return print_list(trial.words.crates, trial.words.more, trial.words.only)
    trial.run()
    return trial.ended()


if __name__ == "__main__":
    sys.exit(main())
