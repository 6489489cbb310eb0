#!/usr/bin/env python3
"""Tries the planted bugs of the Python packages: the wrong bodies in python/tests/planted/ and verdicts/tests/planted/.
Nothing is proved of Python, so only tests see them. Each bug names the part of a script of one of these tests that has
to see it. It is applied in a copy of the tree, and is seen if a check of that part fails, or ends with an exception of
the package. A part that is stopped has seen nothing, nor one whose edit is no right Python. Without a bug each of these
parts has to pass.

A file of bugs is one of those that crates have (tools/sources/planted.py): `file:` with the path of a source, and a
paragraph for each bug, which has `seen:` with the script and its part. An edit that no longer applies fails, whatever
is tried.

tools/seen.txt has a sum of each bug that was seen: of the bug, of its source, and of the file of its part. --new tries
the bugs whose sum is another one, or is not there; --write notes those that are seen. A run that is stopped notes what it
saw until then.

With --sample N it tries so many bugs: first those that --new would try, then those that the commit chooses; each commit
chooses others. tests/all.py tries 40, and runs all parts without a bug too, so a sample does that for one part of each
script alone."""

import argparse
import collections
import concurrent.futures
import hashlib
import os
import pathlib
import queue
import re
import resource
import shutil
import signal
import subprocess
import sys
import tempfile

import gate
from sources.planted import of_text

ROOT = pathlib.Path(__file__).resolve().parent.parent
sys.path.insert(0, str(ROOT / "tests"))
from library import runs, supervised  # noqa: E402

# The folders of scripts; below each, planted/ has the bugs.
SCRIPTS = ("python/tests", "verdicts/tests")
# The sums of the bugs that were seen.
SEEN = ROOT / "tools" / "seen.txt"
# What the scripts read.
COPIED = ("python", "verdicts", "tests", "examples", "tools", "include", "docs")
# Processor seconds that a part may take: a bug may go on for ever.
MOST_SECONDS = 120

Bug = collections.namedtuple("Bug", "name wrong file seen changes")
# What a part shows: whether a check of it failed, None if it did not come to its end, and a line that says why.
Shown = collections.namedtuple("Shown", "has_failed why")
# Exceptions of an edit that is no right Python.
NO_PYTHON = ("SyntaxError", "IndentationError", "ImportError", "ModuleNotFoundError", "NameError", "UnboundLocalError")


def bugs_of(path):
    """The bugs in a file."""
    for bug in of_text(path.read_text()):
        yield Bug(f"{path.stem}.{bug.name}", bug.sentence, bug.file, dict(bug.words)["seen"], bug.changes)


def all_bugs():
    found = [bug for folder in SCRIPTS
             for path in sorted((ROOT / folder / "planted").glob("*.bugs")) for bug in bugs_of(path)]
    twice = [name for name, count in collections.Counter(bug.name for bug in found).items() if count > 1]
    if twice:
        sys.exit(f"several bugs have the name {twice[0]}")
    return found


def changed(text, bug):
    """The text of a source with a bug in it; None where an edit does not apply."""
    for old, new in bug.changes:
        if text.count(old) != 1:
            return None
        text = text.replace(old, new)
    return text


def is_right_python(bug):
    """Whether the edits of a bug apply, and make a source that Python reads."""
    text = changed((ROOT / bug.file).read_text(), bug)
    try:
        return text is not None and compile(text, bug.file, "exec") is not None
    except SyntaxError:
        return False


def script_of(root, name):
    """The path of a script in a tree."""
    found = (root / folder / name for folder in SCRIPTS)
    return next((path for path in found if path.is_file()), root / SCRIPTS[0] / name)


def file_of(seen):
    """The file of a part: one in the folder of its script, else the script."""
    script, part = seen.split()
    path = script_of(ROOT, script)
    folder = path.with_name(path.stem.removeprefix("run_"))
    found = [folder / f"{name}.py" for name in re.findall(rf"(\w+)\.{part}_?\b", path.read_text())]
    return next((each for each in found if each.is_file()), path)


def sum_of(bug):
    """The sum of a bug, of its source, and of the file of the part that has to see it."""
    texts = [str(tuple(bug)), (ROOT / bug.file).read_text(), file_of(bug.seen).read_text()]
    return hashlib.sha256("\0".join(texts).encode()).hexdigest()[:16]


def recorded():
    """The names of the bugs that were seen, with their sums."""
    return dict(line.split() for line in SEEN.read_text().splitlines()) if SEEN.exists() else {}


def unseen(bugs):
    """Those that are not noted as seen, as they are now."""
    before = recorded()
    return [bug for bug in bugs if before.get(bug.name) != sum_of(bug)]


def note(bugs, seen, known):
    """Notes which of the bugs that were tried were seen. Of all others, those stay of which nothing changed."""
    without = {bug.name for bug in (*unseen(known), *bugs)} - {bug.name for bug in seen}
    SEEN.write_text("".join(f"{bug.name} {sum_of(bug)}\n" for bug in known if bug.name not in without))


def sampled(bugs, count, commit):
    """So many of the bugs: first those that are not noted as seen, then those that the commit chooses."""
    new = {bug.name for bug in unseen(bugs)}

    def order(bug):
        return bug.name not in new, hashlib.sha256(f"{commit} {bug.name}".encode()).hexdigest()

    return sorted(bugs, key=order)[:count]


def bounded():
    resource.setrlimit(resource.RLIMIT_CPU, (MOST_SECONDS, MOST_SECONDS))


def raised(said):
    """The line of the last exception."""
    lines = said.partition("Traceback ")[2].splitlines()[1:]
    return next((line for line in lines if line[:1] not in ("", " ")), "")


class Copy:
    """A copy of the tree, in which a part of a script can run."""

    def __init__(self, folder, program):
        self.folder, self.program = pathlib.Path(folder), program
        for name in COPIED:
            shutil.copytree(ROOT / name, self.folder / name, ignore=shutil.ignore_patterns("__pycache__"))

    def shown(self, seen):
        """What a part shows, up to its first check that fails."""
        script, part = seen.split()
        # Python takes a file that it made of a source for a newer one of the same size and second, so it makes none.
        environment = {**os.environ, runs.FIRST_FAILURE: "1", "PYTHONDONTWRITEBYTECODE": "1"}
        words = [sys.executable, script_of(self.folder, script), "--part", part, self.program]
        with tempfile.TemporaryFile() as output:
            try:
                status = supervised.run(words, timeout=supervised.SCRIPT_SECONDS, env=environment, preexec_fn=bounded,
                                        stdin=subprocess.DEVNULL, stdout=output, stderr=subprocess.STDOUT).returncode
            except subprocess.TimeoutExpired:
                status = None
            output.seek(0)
            said = output.read().decode(errors="replace")
        failed = re.findall(r"(?m)^FAILED: (.*)", said)
        last = (said.strip().splitlines() or [""])[-1]
        if status == 1 and "Traceback " in said and not re.match(rf"({'|'.join(NO_PYTHON)})\b", raised(said)):
            failed.append(f"exception: {raised(said)}")
        if status == 0 and "left out" in said:
            return Shown(None, f"it is left out: {said.strip().splitlines()[0]}")
        if status == 0 or failed:
            return Shown(bool(failed), failed[0][:100] if failed else "all checks pass")
        return Shown(None, f"no check fails, status {status}: {last[:100]}")

    def tried(self, bug):
        """What its part shows of a bug."""
        path = self.folder / bug.file
        right = path.read_text()
        text = changed(right, bug)
        if text is None:
            return Shown(None, "it cannot be applied")
        path.write_text(text)
        try:
            return self.shown(bug.seen)
        finally:
            path.write_text(right)


def results(tasks, copies, work):
    """What each task shows, in their order. Each has a copy of the tree for itself."""
    free = queue.SimpleQueue()
    for copy in copies:
        free.put(copy)

    def one(task):
        copy = free.get()
        try:
            return work(copy, task)
        finally:
            free.put(copy)

    with concurrent.futures.ThreadPoolExecutor(len(copies)) as pool:
        yield from zip(tasks, pool.map(one, tasks))


def arguments():
    parser = argparse.ArgumentParser(description=__doc__, formatter_class=argparse.RawDescriptionHelpFormatter)
    parser.add_argument("--jobs", type=int, default=2, help="how many parts run side by side (else 2)")
    parser.add_argument("--only", action="append", help="the bugs whose names hold this; may be given again")
    parser.add_argument("--new", action="store_true", help="the bugs that are not noted as seen, as they are now")
    parser.add_argument("--sample", type=int, metavar="N", help="so many of the bugs, as the commit chooses")
    parser.add_argument("--list", action="store_true", help="prints the bugs, and tries none")
    parser.add_argument("--write", action="store_true", help="notes the bugs that are seen")
    parser.add_argument("program", nargs="?", help="the program that the package runs (else that of the gate)")
    return parser.parse_args()


def chosen(known, words):
    """The bugs that the command line asks for."""
    bugs = [bug for bug in known if not words.only or any(word in bug.name for word in words.only)]
    bugs = unseen(bugs) if words.new else bugs
    return bugs if words.sample is None else sampled(bugs, words.sample, gate.asked("git", "rev-parse", "HEAD"))


class Trial:
    """Bugs on trial: those that were tried, those of them that were seen, and how many checks failed."""

    def __init__(self, bugs, copies):
        self.bugs, self.copies = bugs, copies
        self.tried, self.seen, self.failed = [], [], 0

    def without_bugs(self, are_sampled):
        """Runs the parts without a bug; of a sample, one part of each script."""
        rights = {bug.seen.split()[0] if are_sampled else bug.seen: bug.seen for bug in self.bugs}
        for part, shown in results(sorted(rights.values()), self.copies, Copy.shown):
            if shown.has_failed is not False:
                print(f"{part}: FAILED: without a bug: {shown.why}", flush=True)
                self.failed += 1

    def with_bugs(self):
        for bug, shown in results(self.bugs, self.copies, Copy.tried):
            self.tried.append(bug)
            if shown.has_failed:
                self.seen.append(bug)
            else:
                print(f"{bug.name}: FAILED: not seen by {bug.seen}: {shown.why}", flush=True)
                self.failed += 1


def main():
    words = arguments()
    signal.signal(signal.SIGTERM, lambda *_: sys.exit("stopped"))
    every = all_bugs()
    known = [bug for bug in every if is_right_python(bug)]
    for name in sorted({bug.name for bug in every} - {bug.name for bug in known}):
        print(f"{name}: FAILED: it cannot be applied", flush=True)
    bugs = chosen(known, words)
    if words.list:
        for bug in bugs:
            print(f"{bug.name}: {bug.wrong} ({bug.seen})")
        print(f"{len(bugs)} planted bugs")
        return 0
    program = os.path.abspath(words.program or runs.PROVED_PROGRAM)
    with tempfile.TemporaryDirectory(prefix="planted-") as name:
        trial = Trial(bugs, [Copy(f"{name}/{number}", program) for number in range(max(1, words.jobs))])
        try:
            trial.without_bugs(words.sample is not None)
            trial.with_bugs()
        finally:
            if words.write:
                note(trial.tried, trial.seen, known)
    failed = trial.failed + len(every) - len(known)
    usage = resource.getrusage(resource.RUSAGE_CHILDREN)
    seconds = usage.ru_utime + usage.ru_stime
    print(f"{len(known) - len(unseen(known))} of {len(every)} planted bugs of Python are noted as seen")
    print(f"planted bugs of Python, {seconds:.0f} processor seconds: {len(trial.seen)} passed, {failed} failed")
    return 1 if failed else 0


if __name__ == "__main__":
    sys.exit(main())
