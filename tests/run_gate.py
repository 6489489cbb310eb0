#!/usr/bin/env python3
"""The gate's own scripts: which planted bugs it tries again, and what it notes of its checks. Beside them, when a part
of the tests has seen a wrong body, and that a part which is left out loses no failure. This proves nothing."""

import contextlib
import io
import os
import pathlib
import re
import sys

import all as every
import wrong_bodies
from gate_parts import costing, mutating, packages, planting, theorems
from gate_parts.planting import of_kit, replaced
from library import runs, supervised
from library.runs import REPOSITORY, TESTS, write

sys.path.insert(0, REPOSITORY + "/tools")
import gate  # noqa: E402
import planted_python  # noqa: E402

# Scripts that end in each way that a part of the tests ends in, and whether a check of theirs failed.
ENDS = {
    "passes": ("echo one: 2 passed, 0 failed", None),
    "fails": ("echo FAILED: one: 1, wanted 2; exit 1", True),
    "stopped": ("echo STOPPED: one: it does not end; echo one: 0 passed, 1 failed; exit 3", False),
    "crashes": ("echo Traceback; exit 1", False),
    "goes_on": ("echo FAILED: one; sleep 60", False),
}


def wrong(program, tally, _):
    """A part has seen a wrong body only if a check of it fails and it comes to its end."""
    os.mkdir("tests")
    for name, (script, _) in ENDS.items():
        write(f"tests/{name}", f"#!/bin/sh\n{script}\n")
        os.chmod(f"tests/{name}", 0o755)
    with replaced(wrong_bodies, "ROOT", pathlib.Path(os.getcwd())), replaced(wrong_bodies, "PART_SECONDS", 3):
        for name, (_, is_seen) in ENDS.items():
            found = wrong_bodies.failures(program.path, f"{name} one", "any")
            tally.check(f"wrong: a part that {name}", found.is_seen is is_seen, found)


# A script of tests: its parts are left out at once, or after checks.
LEAVES_OUT = f"""
import sys
sys.path.insert(0, {TESTS!r})
from library import runs

def passes(program, tally, _):
    tally.check("a check that passes", True)

def at_once(program, tally, _):
    raise runs.LeftOut("there is no tool")

def after_a_pass(program, tally, _):
    tally.check("a check that passes", True)
    raise runs.LeftOut("there is no other tool")

def after_a_failure(program, tally, _):
    tally.check("a check that fails", False)
    raise runs.LeftOut("there is no third tool")

def within(program, tally, _):
    tally.check("a check that passes", True)
    runs.leave_out("within: a piece", "there is no fourth tool")

def nothing(program, tally, _):
    pass

parts = (passes, at_once, after_a_pass, after_a_failure, within, nothing)
runs.main("leaves out", {{part.__name__: part for part in parts}})
"""
# Parts of it, the status, how many checks passed and failed, and the parts that are said to be left out.
LEFT_OUT = (
    ("passes", 0, 1, 0, []), ("at_once", 0, 0, 0, ["at_once"]), ("after_a_pass", 0, 1, 0, ["after_a_pass"]),
    ("after_a_failure", 1, 0, 1, ["after_a_failure"]), ("within", 0, 1, 0, ["within: a piece"]),
    ("passes after_a_failure", 1, 1, 1, ["after_a_failure"]), ("after_a_failure passes", 1, 1, 1, ["after_a_failure"]),
    ("at_once passes after_a_pass", 0, 2, 0, ["at_once", "after_a_pass"]), ("nothing", 1, 0, 1, []),
    ("at_once nothing", 1, 0, 1, ["at_once"]),
)


def left_out(program, tally, _):
    """A part that is left out counts the checks that it made, and the last lines name it."""
    write("leaves_out.py", LEAVES_OUT)
    for parts, status, passed, failed, names in LEFT_OUT:
        words = [word for part in parts.split() for word in ("--part", part)]
        command = [sys.executable, "leaves_out.py", *words, program.path]
        tally.compare(f"left out: {parts}: status", supervised.run(command, capture_output=True).returncode, status)
        shown = io.StringIO()
        with contextlib.redirect_stdout(shown):
            found = every.ended("script", command, ".")
        tally.compare(f"left out: {parts}: counts", (found.passed, found.failed), (passed, failed))
        tally.compare(f"left out: {parts}: names", [line.split(": there is no ")[0] for line in found.left],
                      [f"script: {name}" for name in names])
        early = [name for name in names if name != "within: a piece"]
        tally.compare(f"left out: {parts}: parts", re.findall(r"ended early: (\d+) \((.*)\)", shown.getvalue()),
                      [(str(len(early)), ", ".join(early))] if early else [])
    scripts = [every.Ended(2, 1, ["a: b: there is no c"]), every.Ended(3, 0, []), every.Ended(0, 0, ["d: e: none"])]
    tally.compare("left out: the last lines", every.last_lines(scripts),
                  ["left out: a: b: there is no c", "left out: d: e: none", "5 passed, 1 failed, 2 left out"])
    with contextlib.redirect_stdout(io.StringIO()):
        alone = every.ended("compare", every.NO_COMPILER, ".")
    tally.compare("left out: a whole script", alone, every.Ended(0, 0, ["compare: compare: there is no c++"]))


# Scripts that end in each way that a part ends with a planted bug of Python, and whether they have seen it.
SHOWN = {
    "passes": ("print('one: 2 passed, 0 failed')", False),
    "fails": ("print('FAILED: one: 1, wanted 2'); sys.exit(1)", True),
    "raises": ("print('one'); raise KeyError('one')", True),
    "raises_in_turn": ("try:\n    raise KeyError('one')\nexcept KeyError:\n    raise ValueError('two')", True),
    "is_no_python": ("one", None),
    "misses": ("import one_that_is_missing", None),
    "is_killed": ("import os; os.kill(os.getpid(), 9)", None),
    "stops": ("print('STOPPED: one: it does not end'); sys.exit(3)", None),
    "is_left_out": ("print('one: left out: there is no two')", None),
}


def planted_of_python(program, tally, _):
    """When a planted bug of Python is seen; its edits, and the bugs that a commit chooses."""
    copy = planted_python.Copy.__new__(planted_python.Copy)
    copy.folder, copy.program = pathlib.Path.cwd(), program.path
    os.makedirs(planted_python.SCRIPTS[0])
    for name, (text, is_seen) in SHOWN.items():
        write(f"{planted_python.SCRIPTS[0]}/{name}", f"import sys\n{text}\n")
        found = copy.shown(f"{name} one")
        tally.check(f"planted: a part that {name}", found.has_failed is is_seen, found)
    text = "file: a.py\n\none: It is 2.\nseen: b.py c\nold: = 1\nnew: = 2\nold: two = 2\nnew:\n\nthree: No.\nseen: d e"
    write("a.bugs", text + "\nold: x: y\nnew:  z\n")
    bugs = [*planted_python.bugs_of(pathlib.Path("a.bugs"))]
    tally.compare("planted: bugs of a file", [tuple(bug) for bug in bugs], [
        ("a.one", "It is 2.", "a.py", "b.py c", [("= 1", "= 2"), ("two = 2", "")]),
        ("a.three", "No.", "a.py", "d e", [("x: y", " z")])])
    tally.compare("planted: edits", [planted_python.changed(text, bugs[0]) for text in (
        "two = 1\n", "one = 1\n", "one = 1\ntwo = 1\n", "one = 1\ntwo = 2\n", "")],
        ["\n", None, None, "one = 2\n\n", None])
    many = planted_python.all_bugs()
    with replaced(planted_python, "SEEN", pathlib.Path("missing")):
        first, again, other = (planted_python.sampled(many, 40, commit) for commit in ("one", "one", "two"))
    tally.check("planted: a sample", first == again != other and len({bug.name for bug in first}) == 40)
    missing = [bug.seen for bug in many if not planted_python.file_of(bug.seen).is_file()]
    tally.compare("planted: each part has a file", missing, [])
    tally.compare("planted: each script has the part", sorted({bug.seen for bug in many if not has_part(bug.seen)}), [])
    with replaced(planted_python, "ROOT", pathlib.Path.cwd()), replaced(planted_python, "SEEN", pathlib.Path("seen")):
        noted(tally)


def has_part(seen):
    """Whether a script, or a file whose parts it takes, names the part that has to see a bug."""
    script, part = seen.split()
    path = planted_python.script_of(planted_python.ROOT, script)
    text = path.read_text()
    others = [path.with_name(f"{name}.py").read_text() for name in re.findall(r"\*(\w+)\.PARTS", text)]
    return any(re.search(rf"\b{part}_?\b", it) for it in (text, *others))


def noted(tally):
    """Which planted bugs of Python count as seen before: not those of another text, source or part."""
    bug = planted_python.Bug("a.one", "It is 2.", "a.py", "run_b.py c", [("= 1", "= 2")])
    others = [bug._replace(name=f"a.{number}", seen="run_b.py f") for number in range(9)]
    bugs = [bug, *others]
    os.makedirs(f"{planted_python.SCRIPTS[0]}/b")
    files = {"a.py": True, "run_b.py": False, "b/c.py": True, "b/d.py": False}
    paths = {name: name if name == "a.py" else f"{planted_python.SCRIPTS[0]}/{name}" for name in files}
    for path in paths.values():
        write(path, "parts = c.c, d.e, f")
    tally.compare("planted: files of parts", [planted_python.file_of(it.seen).name for it in bugs[:2]],
                  ["c.py", "run_b.py"])
    tally.compare("planted: none is noted", planted_python.unseen(bugs), bugs)
    planted_python.note(bugs, bugs[:-1], bugs)
    tally.compare("planted: all but one are noted", planted_python.unseen(bugs), bugs[-1:])
    tally.compare("planted: a sample begins with it", planted_python.sampled(bugs, 3, "one")[:1], bugs[-1:])
    for name, is_other in files.items():
        write(paths[name], "parts = c.c, d.e, f\n")
        tally.compare(f"planted: after a change of {name}", bug in planted_python.unseen(bugs), is_other)
        write(paths[name], "parts = c.c, d.e, f")
    other = bug._replace(changes=[("= 1", "= 3")])
    tally.compare("planted: another bug of this name", planted_python.unseen([other, *others]), [other, others[-1]])
    planted_python.note(others[-1:], others[-1:], bugs)
    tally.compare("planted: all are noted", planted_python.unseen(bugs), [])
    planted_python.note(bugs[:2], bugs[:1], bugs)
    tally.compare("planted: one is not seen any more", planted_python.unseen(bugs), bugs[1:2])


# Processors and gigabytes, and how many crates are then proved side by side.
LANES = ((2, 8, None), (2, 13, None), (2, 16, 2), (4, 16, 2), (4, 23, 3), (4, 24, 4), (8, 32, 5), (1, 64, 1))


def side_by_side(_, tally, __):
    """As many crates are proved side by side as there are processors and memory for."""
    for processors, gigabytes, wanted in LANES:
        tally.compare(f"lanes: {processors} and {gigabytes} GB", gate.lanes(processors, gigabytes * 1e9), wanted)
    processors, memory = gate.of_this_machine()
    tally.check("lanes: of this machine", processors > 0 and memory > 0)


# These are not in the gate: docs/TESTING.md has what they need.
APART = {"tests/run_tools.py", "verdicts/tests/run_probes.py"}


def scripts(_, tally, __):
    """Each file that names its interpreter can be run by its name, as `tests/all.py` and pages do. All scripts of tests
    are in the gate, but for those that are known."""
    there = {str(path.relative_to(REPOSITORY)) for name in ("tests", "python/tests", "verdicts/tests")
             for path in pathlib.Path(REPOSITORY, name).glob("run_*.py")}
    tally.compare("scripts: those that are not in the gate", there - {*every.commands([])}, APART)
    folders = ("tests", "tools", "benchmarks", "python", "verdicts", ".ci")
    for path in sorted(each for name in folders for each in pathlib.Path(REPOSITORY, name).rglob("*")):
        if path.is_file() and path.suffix in (".py", ".sh", "") and "verdicts" not in path.parent.suffix:
            with open(path, "rb") as file:
                is_script = file.read(2) == b"#!"
            if is_script:
                tally.check(f"scripts: {path.name} can be run", os.access(path, os.X_OK))


def with_kit(part):
    """The part, which needs no toolchain."""
    def run(*words):
        with of_kit("kit"):
            return part(*words)

    run.__doc__ = part.__doc__
    return run


PARTS = {"cited": planting.cited, "sums": with_kit(planting.sums), "again": with_kit(planting.again),
         "bugs": planting.bugs_of_crates, "wrong": wrong, "left_out": left_out,
         "planted": planted_of_python, "mutants": mutating.mutants, "scripts": scripts, "lanes": side_by_side,
         "report": costing.report, "functions": costing.of_functions, "packages": packages.packages,
         "theorems": theorems.pages, "between": theorems.between, "shown": theorems.shown_text, "names": theorems.names}

if __name__ == "__main__":
    runs.main(__doc__, PARTS)
