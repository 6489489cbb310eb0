"""One check of a crate with planted bugs in it, and which of them it refuses."""

import collections
import re
import resource
import shutil
import subprocess
import sys

from judge.crates import ROOT

sys.path.insert(0, str(ROOT / "tests"))
from library import supervised  # noqa: E402

# How long a check may take, in seconds of a processor. One that uses none for long is ended by the clock.
CHECK_SECONDS, CLOCK_SECONDS = 3600, 6 * 3600

# Why a goal is open, what shows most of the body first.
KINDS = ("false", "no proof", "limit", "answer", "name")
FALSE, UNPROVED, LIMIT, ANSWER, NAME = KINDS

# What the prover says of an answer that names something which is not there.
NAMES = r"has no field|is not in scope|has no `|was not admitted"

Goal = collections.namedtuple("Goal", "name kind")


def open_goals(name, output):
    """Returns what a check says of each function of a crate, and the goals that it left open. The notes on a function's
    goals come before the line of its verdict; an answer that no longer fits is named by its file."""
    verdicts, found, notes = {}, collections.defaultdict(list), []
    for line in output.split("\n"):
        note = re.match(r"note: [^:]+:\d+:\d+: it is not proved .*?\(`([^`]+)`\)(.*)", line)
        error = re.match(r"(?:\./)?proofs/(.+?)/\w+\.antt:\d+:\d+: error: (?:`([^`]+)`: )?(.*)", line)
        verdict = re.match(rf"fn {name}::(\S+): (.*)", line)
        if note:
            kind = FALSE if "goal is false" in note[2] else LIMIT if "gave up" in note[2] else UNPROVED
            notes.append(Goal(note[1], kind))
        elif error:
            kind = NAME if re.search(NAMES, error[3]) else ANSWER
            found[error[1].replace("/", "::")].append(Goal(error[2] or "its file", kind))
        elif verdict:
            verdicts[verdict[1]] = verdict[2]
            listed = re.search(r"did not prove ((?:`[^`]+`(?:, )?)+)", verdict[2])
            names = re.findall(r"`([^`]+)`", listed[1]) if listed else []
            notes += [Goal(it, UNPROVED) for it in names if it not in {goal.name for goal in notes}]
            found[verdict[1]] += notes
            notes = []
    return verdicts, found


def clauses_of(goal, function):
    """Returns the clauses that a goal is of: some that the function ensures, or an invariant of a type or of a loop.
    What a call requires, the bounds of numbers and the like are of none."""
    if re.match(r"invariant_of-", goal) or re.search(r"-(init|preserved)(-|$)", goal):
        return {"invariant"}
    if not goal.startswith("returns"):
        return set()
    # a goal that names no clause is of them all
    _, of_one, name = goal.rpartition("-clause-")
    return {name} if of_one else set(function.clauses or ["ensures"])


def counts(goal, function, edit):
    """Whether an open goal of a function shows that a planted bug is refused."""
    if goal.kind == NAME:
        return False
    if edit.clause:
        return edit.clause in clauses_of(goal.name, function)
    return edit.is_more


def judged(edit, verdicts, found):
    """Returns of which kind the refusal of a planted bug at its clause is, or nothing, and what to print of it."""
    if not edit.functions:
        return None, "no function of the crate is changed"
    goals = [(it, goal) for it in edit.functions for goal in dict.fromkeys(found[it.name])]
    silent = [it.name for it in edit.functions if it.name not in verdicts]
    if silent:
        return None, f"nothing is said of {silent[0]}"
    shown = ", ".join(f"{goal.name} ({goal.kind})" for _, goal in goals)
    if not shown:
        return None, "; ".join(f"{it.name}: {verdicts[it.name]}" for it in edit.functions)
    kinds = [goal.kind for it, goal in goals if counts(goal, it, edit)]
    return min(kinds, key=KINDS.index, default=None), shown


def take_as_proved(crate, room, taken):
    """Takes these functions of a copy of a crate as proved: each loses its body, and has a hole for its proof. What
    calls it rests on its contract alone."""
    for function in taken:
        *path, name = function.name.split("::")
        folder = room.joinpath("proofs", *path, name)
        # one that calls itself has its proof under a name of its own, and calls nothing now
        for old in (folder, folder.with_name(f"+{name}")):
            shutil.rmtree(old, ignore_errors=True)
        folder.mkdir(parents=True)
        statement = ".".join(["Rattle", crate.name, "proofs", *path, name, "Statement"])
        hole = f"pub {name}_spec : {{M : Type 1}} → statement M\n{name}_spec = ?\n"
        (folder / "Proof.antt").write_text(f"use {statement}.{{statement}}\n\n{hole}")
        file = room / function.file
        lines = file.read_text().split("\n")
        # no line moves: those of the other functions are known by their numbers
        for number in range(function.opens, function.last - 1):
            lines[number] = "unreachable!()" if number == function.opens else ""
        file.write_text("\n".join(lines))


def checked(words, room):
    """Returns what a check in a folder prints. One that does not end is killed, and says nothing of any function."""
    def bounded():
        resource.setrlimit(resource.RLIMIT_CPU, (CHECK_SECONDS, CHECK_SECONDS))

    try:
        # the toolchain's words put it into a group of their own, which a session's first process cannot join
        return supervised.run(words, cwd=room, timeout=CLOCK_SECONDS, start_new_session=False, preexec_fn=bounded,
                              stdin=subprocess.DEVNULL, stdout=subprocess.PIPE, stderr=subprocess.STDOUT,
                              errors="replace").stdout
    except subprocess.TimeoutExpired:
        return f"it does not end within {CLOCK_SECONDS} seconds"


def tried(crate, room, known, texts, edits):
    """Checks a copy of a crate with planted bugs in this folder, prints each bug, and returns how each is refused. The
    functions that no bug changed are taken as proved."""
    for part in crate.parts:
        shutil.rmtree(room / part, ignore_errors=True)
        if (crate.folder / part).is_dir():
            shutil.copytree(crate.folder / part, room / part)
    for file, text in texts.items():
        (room / file).write_text(text)
    wanted = sorted({it.name for edit in edits for it in edit.functions})
    take_as_proved(crate, room, [it for it in known if it.name not in wanted])
    words = ["--allow-holes", "--incremental", f"{room}/kept", *(it for name in wanted for it in ("--only", name))]
    said = checked([*crate.check, *words], room)
    verdicts, found = open_goals(crate.name, said)
    if not verdicts:
        print(f"{crate.name}: the check failed: {said[-2000:]}", flush=True)
    kinds = []
    for edit in edits:
        kind, why = judged(edit, verdicts, found)
        how = f"refused at {edit.clause or 'no named clause'}: {kind}" if kind else f"FAILED: {edit.clause} is not open"
        print(f"{crate.name}/{edit.name}: {how}: {why}", flush=True)
        kinds.append(kind)
    return kinds
