#!/usr/bin/env python3
"""Tries the wrong bodies that no contract refuses, which only tests see: the edits in tests/wrong_bodies/. All are in
one program, built without proofs, and the variable AIG_WRONG chooses one of them when it runs. Each runs the parts of
the scripts that tests/wrong_bodies.txt names beside it, and is seen if a check of each of them fails. A part that was
stopped, or that ended otherwise, has seen nothing. Without AIG_WRONG the same parts have to pass.

An edit has lines of prose, then `file:` with the path of a source, and pairs of `old:` and `new:` as planted bugs have
them (tools/planted.py): a piece of one line, in the body of a function, that is in the file exactly once.

The script is no part of the gate. It builds in two minutes, or takes the program that an earlier run left by --keep."""

import argparse
import collections
import concurrent.futures
import os
import pathlib
import re
import shutil
import subprocess
import sys
import tempfile

from library import supervised

sys.path.insert(0, os.path.dirname(os.path.dirname(os.path.abspath(__file__))) + "/tools")
from judge import bugs  # noqa: E402
from judge.crates import ROOT  # noqa: E402

EDITS, SEEN = ROOT / "tests/wrong_bodies", ROOT / "tests/wrong_bodies.txt"
VARIABLE = "AIG_WRONG"
# A run that goes on for ever fails its check after so many seconds, and a part is ended after so many.
SECONDS, PART_SECONDS = 10, 600
BUILD_SECONDS = 3600
# Those that are tried for a bug that is not in the list, the quick ones first.
PARTS = (*(f"run_program.py {part}" for part in (
    "refute", "proofs", "large_proofs", "certificates", "ample", "bench", "sim", "wave", "check", "replays", "toaig",
    "unroll",
    "cnf", "info", "select", "witness", "properties", "names", "reduce", "why", "kept", "owners", "descriptors",
    "words", "help",
    "needs", "talks", "same_files", "definitions", "shell", "large_session",
    "large_saves")),
    *(f"run_faults.py {part}" for part in ("kept", "writes", "calls", "allocations", "limits")),
    *(f"run_random.py {part}" for part in (
        "hostile", "scripts", "waves", "formulas", "witnesses", "certificates", "sessions")),
    *(f"run_large.py {part}" for part in ("files", "block_edges")))

Wrong = collections.namedtuple("Wrong", "name prose file changes")
# Whether a check of a part failed: True, None where all passed, and False where the part did not come to its end.
Seen = collections.namedtuple("Seen", "is_seen why")


def read(path):
    """The edit of a file: its name, its prose, and the pairs by which it changes a source."""
    lines = path.read_text().splitlines()
    file = next(line for line in lines if line.startswith("file: "))
    olds, news = (lines[lines.index(file) + first::2] for first in (1, 2))
    pairs = [(old.removeprefix("old: "), new.removeprefix("new:").removeprefix(" ")) for old, new in zip(olds, news)]
    return Wrong(path.stem, " ".join(lines[:lines.index(file)]), file.removeprefix("file: "), pairs)


def function_at(functions, text, old):
    """The lines of the body of a function that has a piece of a text, where the piece is there once."""
    if text.count(old) != 1:
        return None
    line = text[:text.index(old)].count("\n") + 1
    return next(((it.opens, it.last - 1) for it in functions if it.opens < line < it.last), None)


def choosing(text, functions, edits, numbers):
    """The text of a source, in which each function that edits change has all its bodies, and the edits that apply."""
    lines, taken = text.split("\n"), []
    bodies = collections.defaultdict(list)
    for edit in edits:
        found = [function_at(functions, text, old) for old, _ in edit.changes]
        if None in found:
            continue
        taken.append(edit.name)
        for begin, end in dict.fromkeys(found):
            changed = lines[begin:end]
            for (old, new), place in zip(edit.changes, found):
                if place == (begin, end):
                    changed = [line.replace(old, new) for line in changed]
            bodies[begin, end].append((numbers[edit.name], changed))
    # the last one first: so those before it stay where they are
    for begin, end in sorted(bodies, reverse=True):
        own, choices = lines[begin:end], []
        for number, body in bodies[begin, end]:
            choices += [f"if crate::is_wrong({number}) {{", *body, "} else"]
        lines[begin:end] = [*choices, "{", *own, "}"]
    return "\n".join(lines), taken


# What each crate asks. build_unproved.sh replaces the body by a call of the function in C.
ASKS = """
/// Whether the wrong body of this number is chosen.
#[inline(never)]
pub(crate) fn is_wrong(number: u32) -> bool {
    number == 4_000_000_000
}
"""

# Which wrong body is chosen: the one whose name the variable has.
CHOICE = """#include <stdlib.h>
#include <string.h>

static const char *const names[] = {%s};

_Bool answer_is_wrong(unsigned number)
{
    static int is_read;
    static unsigned chosen = ~0u;
    const char *name = is_read ? NULL : getenv("%s");
    for (unsigned at = 0; name && at < sizeof names / sizeof *names; at++)
        if (strcmp(name, names[at]) == 0)
            chosen = at;
    is_read = 1;
    return number == chosen;
}
"""


def patched(room, edits):
    """Puts all wrong bodies into a copy of the sources, and returns the names of those that are in it."""
    numbers = {edit.name: number for number, edit in enumerate(edits)}
    taken = []
    for file in sorted({edit.file for edit in edits}):
        crate = room / pathlib.Path(*pathlib.Path(file).parts[:2])
        inner = str(pathlib.Path(*pathlib.Path(file).parts[2:]))
        if not (room / file).exists():
            continue
        functions = list(bugs.functions(crate, inner, bugs.types(crate, [inner])))
        own = [edit for edit in edits if edit.file == file]
        text, names = choosing((room / file).read_text(), functions, own, numbers)
        (room / file).write_text(text)
        taken += names
        root = next(it for it in (crate / "src/lib.rt", crate / "src/main.rt") if it.exists())
        if ASKS not in root.read_text():
            root.write_text(root.read_text() + ASKS)
    names = ", ".join(f'"{edit.name}"' for edit in edits)
    (room / "choice.c").write_text(CHOICE % (names, VARIABLE))
    return taken


def built(program, edits):
    """Builds the program that has all wrong bodies, and returns the names of those that it has."""
    with tempfile.TemporaryDirectory(prefix="wrong-") as name:
        room = pathlib.Path(name)
        shutil.copy(ROOT / "crates.txt", room)
        shutil.copy(ROOT / "HANDLES", room)
        shutil.copytree(ROOT / "crates", room / "crates", ignore=shutil.ignore_patterns("out", "target"))
        taken = patched(room, edits)
        supervised.run([ROOT / "tools/build_unproved.sh", room, "aig", program, room / "choice.c"], check=True,
                       timeout=BUILD_SECONDS)
    return taken


def failures(program, part, name):
    """What a part shows of the wrong body of this name, or of the right bodies where there is no name."""
    script, part = part.split()
    environment = {**os.environ, "AIG_TEST_SECONDS": str(SECONDS)}
    environment.pop(VARIABLE, None)
    if name:
        environment[VARIABLE] = name
    with tempfile.TemporaryFile() as output:
        try:
            status = supervised.run([ROOT / "tests" / script, "--part", part, program], timeout=PART_SECONDS,
                                    env=environment, stdin=subprocess.DEVNULL, stdout=output,
                                    stderr=subprocess.STDOUT).returncode
        except subprocess.TimeoutExpired:
            return Seen(False, f"it does not end within {PART_SECONDS} seconds")
        output.seek(0)
        said = output.read().decode(errors="replace")
    if status == 0:
        return Seen(None, "all checks pass")
    lines = re.findall(r"(?m)^FAILED: (.*)", said)
    last = (said.strip().splitlines() or [""])[-1]
    return Seen(True, lines[0][:100]) if lines else Seen(False, f"no check fails, status {status}: {last[:100]}")


def listed():
    """The parts that see each wrong body, by the list."""
    parts = collections.defaultdict(list)
    for line in SEEN.read_text().splitlines() if SEEN.exists() else ():
        if not line.startswith("#"):
            name, _, part = line.partition(": ")
            parts[name].append(part)
    return parts


def tried(program, name, parts):
    """What each of these parts shows of a wrong body; of no parts, what the first of PARTS shows that sees it."""
    if parts:
        return [(part, failures(program, part, name)) for part in parts]
    for part in PARTS:
        seen = failures(program, part, name)
        if seen.is_seen:
            return [(part, seen)]
    return [("no part", Seen(None, "of all"))]


HEAD = """# Wrong bodies that no contract refuses, and a part of the tests that sees each. tests/wrong_bodies.py tries them; it
# adds those that it finds for a new one by --write.
"""


def main():
    parser = argparse.ArgumentParser(description=__doc__, formatter_class=argparse.RawDescriptionHelpFormatter)
    parser.add_argument("--keep", type=pathlib.Path, metavar="PROGRAM",
                        help="builds this, or takes it where it is there")
    parser.add_argument("--jobs", type=int, default=2, help="how many parts run side by side (else 2)")
    parser.add_argument("--only", action="append", help="the wrong bodies whose names hold this; may be given again")
    parser.add_argument("--write", action="store_true", help="writes the list")
    words = parser.parse_args()
    edits = [read(path) for path in sorted(EDITS.glob("*.edit"))]
    parts, passed, failed = listed(), 0, 0
    with tempfile.TemporaryDirectory() as room:
        program = (words.keep or pathlib.Path(room) / "aig").absolute()
        if not program.exists():
            taken = built(program, edits)
            for edit in edits:
                if edit.name not in taken:
                    print(f"{edit.name}: FAILED: it cannot be applied")
                    failed += 1
            edits = [edit for edit in edits if edit.name in taken]
        chosen = [edit.name for edit in edits if not words.only or any(word in edit.name for word in words.only)]
        with concurrent.futures.ThreadPoolExecutor(words.jobs) as pool:
            right = sorted({part for name in chosen for part in parts[name]})
            for part, seen in zip(right, pool.map(lambda part: failures(program, part, None), right)):
                if seen.is_seen is not None:
                    print(f"{part}: FAILED: without a wrong body: {seen.why}", flush=True)
                    failed += 1
            for name, found in zip(chosen, pool.map(lambda name: tried(program, name, parts[name]), chosen)):
                for part, seen in found:
                    how = "seen" if seen.is_seen else "FAILED: not seen"
                    print(f"{name}: {part}: {how}: {seen.why}", flush=True)
                is_seen = all(seen.is_seen for _, seen in found)
                passed, failed = passed + is_seen, failed + (not is_seen)
                parts[name] = [part for part, seen in found if seen.is_seen]
    if words.write:
        known = {edit.name for edit in edits}
        SEEN.write_text(HEAD + "".join(f"{name}: {part}\n" for name in sorted(known) for part in parts[name]))
    print(f"{passed} passed, {failed} failed")
    return 1 if failed else 0


if __name__ == "__main__":
    sys.exit(main())
