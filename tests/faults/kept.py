"""Files that keep what a script leaves, or what the inputs of an unrolled circuit are. A call for them fails, each one
in turn: they are as they were and the new ones are gone, except that the circuit's has its name where the second file
does not get its own. Runs are killed before each of their calls: each file has its old text or the whole new one, and a
new one that is left makes the next run fail. A run that is killed while it waits for its script leaves none. Runs are
stopped before each of their calls: a new file for a file that others may not read is never open to them."""

import contextlib
import dataclasses
import os
import signal
import subprocess
from typing import List, Optional, Sequence

from faults.refusing import Refusing
from library import supervised
from library.circuits import write_all
from library.runs import Ended, contents, input_or_output, leave_out, write

DESIGN, ROWS = b"aag 3 2 0 1 1\n2\n4\n6\n6 2 4\n", b"11\n"
NEW_DESIGN, NEW_ROWS = b"aag 3 2 0 1 1\n2\n4\n6\n6 3 4\n", b"11\n0x\n"
UNROLLED, MAP = b"aag 3 2 0 1 1\n2\n4\n6\n6 4 2\n", b"i 0 0 0 \ni 1 0 1 \n"
REPLIES = b"ok\nok\n"
NOT_BEGUN = input_or_output("output")
# A user and a group that root gives files to.
USER, GROUP = 61001, 61002


@dataclasses.dataclass(frozen=True, eq=False)
class Case:
    """A run that writes files, the names of these, and what they hold before it (None: they are not there) and after
    it."""

    name: str
    words: Sequence[str]
    out: bytes
    names: List[str]
    old: List[Optional[bytes]]
    new: List[bytes]

    @property
    def done(self):
        return Ended(0, self.out, b"")

    @property
    def failed(self):
        return input_or_output("output", self.out)

    def prepare(self):
        for name in new_files():
            os.remove(name)
        for name, content in (("design", DESIGN), ("rows", ROWS), ("script", b"w 6 3 4\n+ 0x\n"),
                              *zip(self.names, self.old)):
            if content is not None:
                write(name, content)
            elif os.path.exists(name):
                os.remove(name)

    def left(self):
        """What the files hold, and which new ones are there."""
        return [contents(name) if os.path.exists(name) else None for name in self.names], new_files()


def new_files():
    return sorted(name for name in os.listdir() if name.endswith(".new"))


def keeping(name, circuit, stimulus, old):
    words = ("bench", "--circuit-out", circuit, "--stimulus-out", stimulus, "design", "rows", "script")
    names = [file.replace("_link", "") for file in (circuit, stimulus)]
    return Case(name, words, REPLIES, names, old, [NEW_DESIGN, NEW_ROWS])


OVER = keeping("over files", "design", "rows", [DESIGN, ROWS])
LINKED = keeping("over links", "design_link", "rows_link", [DESIGN, ROWS])
FRESH = keeping("new files", "new_design", "new_rows", [None, None])
MAPPED = Case("a map", ("unroll", "--frames", "1", "--to", "aag", "--map", "rows", "design"), UNROLLED, ["rows"],
              [ROWS], [MAP])

# The calls of a run, how many there are, and how many of them come before its work; a write moves one byte.
CALLS = (
    (OVER, "file", len(NEW_DESIGN) + len(NEW_ROWS), 0), (OVER, "fsync", 2, 0), (OVER, "fchmod", 4, 2),
    (OVER, "rename", 2, 0), (OVER, "statx", 14, 12), (LINKED, "realpath", 2, 2), (LINKED, "statx", 14, 12),
    (FRESH, "file", len(NEW_DESIGN) + len(NEW_ROWS), 0), (FRESH, "fsync", 2, 0), (FRESH, "rename", 2, 0),
    (FRESH, "statx", 10, 8), (MAPPED, "file", len(MAP), 0), (MAPPED, "fsync", 1, 0), (MAPPED, "fchmod", 2, 1),
    (MAPPED, "rename", 1, 0),
)


# The calls that fail once the circuit's file has its name.
HALF_DONE = ((OVER, "rename", 2), (FRESH, "rename", 2))


def kept(program, tally, _):
    write_all()
    beneath = Refusing(program, "refuse_call")
    for name in ("design", "rows"):
        os.symlink(name, f"{name}_link")
    for calls in CALLS:
        fails(beneath, tally, *calls[:2], calls[2:])
    opens(beneath, tally)
    looks(beneath, tally)
    closes(beneath, tally)
    removals(beneath, tally)
    owners(beneath, tally)
    for case in (OVER, FRESH, MAPPED):
        kills(beneath, tally, case)
    for case in (OVER, FRESH):
        asleep(beneath, tally, case)
        meanwhile(beneath, tally, case)
    stops(beneath, tally)


def fails(beneath, tally, case, call, counts):
    """Each call of this name in turn; so many there are, and so many of them come before the run's work."""
    most, early = counts
    name = f"kept: {case.name}, {call}"
    case.prepare()
    tally.compare(f"{name}, how many", beneath.counted(*case.words, STEP=1, CALL=call), (case.done, most))
    tally.compare(f"{name}, the files", case.left(), (case.new, []))
    for number in range(1, most + 1):
        case.prepare()
        ended = beneath.run(*case.words, STEP=1, CALL=call, REFUSE=number)
        files = [case.new[0], case.old[1]] if (case, call, number) in HALF_DONE else case.old
        tally.compare(f"{name} {number} fails", ended, NOT_BEGUN if number <= early else case.failed)
        tally.compare(f"{name} {number} fails, the files", case.left(), (files, []))


def opens(beneath, tally):
    """Descriptors are held by a folder where there is no device. Then come the files that are read, those that are
    replaced, and the new ones. After the script the new ones come again."""
    for case, early, late in ((OVER, 4, 2), (FRESH, 2, 2)):
        parts = [None] * 3 + ["circuit", "stimulus", "script"] + ["output"] * (early + late)
        case.prepare()
        tally.compare(f"kept: {case.name}, open, how many", beneath.counted(*case.words, CALL="open"),
                      (case.done, len(parts)))
        for number, part in enumerate(parts, 1):
            case.prepare()
            ended = beneath.run(*case.words, CALL="open", REFUSE=number)
            failed = case.failed if number > len(parts) - late else input_or_output(part)
            tally.compare(f"kept: {case.name}, open {number} fails", (ended, case.left()),
                          (failed, (case.old, [])) if part else (case.done, (case.new, [])))


def looks(beneath, tally):
    """A circuit that cannot be looked at is one that cannot be read; then come looks at the map, the last one when the
    circuit is written."""
    parts = ["circuit"] + ["output"] * 7
    for number, part in enumerate(parts, 1):
        MAPPED.prepare()
        ended = beneath.run(*MAPPED.words, CALL="statx", REFUSE=number)
        out = UNROLLED if number > len(parts) - 1 else b""
        tally.compare(f"kept: a map, statx {number} fails", (ended, MAPPED.left()),
                      (input_or_output(part, out), (MAPPED.old, [])))


def closes(beneath, tally):
    """A close that fails changes nothing: what was written is on disk by then."""
    OVER.prepare()
    ended, most = beneath.counted(*OVER.words, CALL="close")
    tally.check("kept: over files, close, how many", ended == OVER.done and most >= 10, (ended, most))
    for number in range(1, most + 1):
        OVER.prepare()
        ended = beneath.run(*OVER.words, CALL="close", REFUSE=number)
        tally.compare(f"kept: over files, close {number} fails", (ended, OVER.left()), (OVER.done, (OVER.new, [])))


def removals(beneath, tally):
    """A new file that cannot be removed before the script stays, and the run fails: it could not be created again."""
    for case in (OVER, FRESH):
        case.prepare()
        tally.compare(f"kept: {case.name}, unlink, how many", beneath.counted(*case.words, CALL="unlink"),
                      (case.done, 2))
        for number, name in enumerate(case.names, 1):
            case.prepare()
            ended = beneath.run(*case.words, CALL="unlink", REFUSE=number)
            tally.compare(f"kept: {case.name}, unlink {number} fails", (ended, case.left()),
                          (NOT_BEGUN, (case.old, [f"{name}.new"])))


def owners(beneath, tally):
    """Another's files, where the owner or the group cannot be kept. They get no permissions before they have both."""
    if os.geteuid() != 0:
        leave_out("kept: files of other owners", "only root can make them")
        return
    old = f"{USER}:{GROUP} 664"
    lost = f"{USER}:{os.getegid()} 604"
    for number, ended, owned in ((0, OVER.done, [old, old]), (1, NOT_BEGUN, [old, old]), (2, OVER.done, [old, old]),
                                 (3, NOT_BEGUN, [old, old]), (4, OVER.done, [old, old]), (5, OVER.failed, [old, old]),
                                 (6, OVER.done, [lost, old]), (7, OVER.failed, [old, old]),
                                 (8, OVER.done, [old, lost])):
        give()
        got = beneath.run(*OVER.words, CALL="fchown", REFUSE=number)
        tally.compare(f"kept: others' files, fchown {number} fails", (got, [shown(name) for name in OVER.names]),
                      (ended, owned))
        tally.compare(f"kept: others' files, fchown {number} fails, the files", OVER.left(),
                      (OVER.new if ended == OVER.done else OVER.old, []))
    for number in range(1, calls_of(beneath, OVER) + 1):
        give()
        seen = []
        ended = stopped(beneath, OVER, number, lambda seen=seen: seen.extend(map(shown, new_files())))
        right = {f"0:{os.getegid()} 600", f"{USER}:{os.getegid()} 600", f"{USER}:{GROUP} 600", old}
        tally.check(f"kept: others' files, before call {number}", ended == OVER.done and set(seen) <= right, seen)
    OVER.prepare()
    for name in OVER.names:
        os.chown(name, 0, 0)
        os.chmod(name, 0o644)


def give():
    """Makes the files another's."""
    OVER.prepare()
    for name in OVER.names:
        os.chown(name, USER, GROUP)
        os.chmod(name, 0o664)


def shown(name):
    status = os.stat(name)
    return f"{status.st_uid}:{status.st_gid} {status.st_mode & 0o7777:o}"


def calls_of(beneath, case):
    """How many calls there are in a whole run."""
    case.prepare()
    return beneath.counted(*case.words, CALL="any")[1]


def kills(beneath, tally, case):
    seen = set()
    for number in range(1, calls_of(beneath, case) + 1):
        name = f"kept: {case.name}, killed before call {number}"
        case.prepare()
        ended = beneath.run(*case.words, CALL="any", REFUSE=number, KILL=1)
        files, new = case.left()
        tally.compare(name, (ended.status, ended.err), (-signal.SIGKILL, b""))
        changed = [file != old for file, old in zip(files, case.old)]
        tally.check(f"{name}, the files", changed == sorted(changed, reverse=True) and
                    all(file in texts for file, *texts in zip(files, case.old, case.new)), files)
        for file in new:
            text = case.new[case.names.index(file[:-4])]
            tally.check(f"{name}, {file}", text.startswith(contents(file)), contents(file))
        seen.add((tuple(changed), tuple(contents(file) == case.new[case.names.index(file[:-4])] for file in new)))
        if new:
            tally.compare(f"{name}, the next run", (beneath.run(*case.words), case.left()), (NOT_BEGUN, (files, new)))
    if len(case.names) == 2:
        tally.check(f"kept: {case.name}, killed between two renames", ((True, False), (True, )) in seen, seen)


@contextlib.contextmanager
def waiting(beneath, case):
    """A run that has replied to the first line of its script, and waits for more."""
    case.prepare()
    words = [beneath.program.path, *case.words[:-1], "/dev/stdin"]
    with supervised.Popen(words, stdin=subprocess.PIPE, stdout=subprocess.PIPE, stderr=subprocess.PIPE) as run:
        run.stdin.write(b"w 6 3 4\n")
        run.stdin.flush()
        yield run, run.stdout.readline()


def asleep(beneath, tally, case):
    """A run that is killed while it waits for its script leaves nothing that stops the next run."""
    with waiting(beneath, case) as (run, reply):
        run.kill()
        run.wait()
    tally.compare(f"kept: {case.name}, killed while it waits", (reply, case.left()), (b"ok\n", (case.old, [])))
    tally.compare(f"kept: {case.name}, the run after one that was killed", (beneath.run(*case.words), case.left()),
                  (case.done, (case.new, [])))


def meanwhile(beneath, tally, case):
    """Files that another program makes while the script runs stay, and the run fails."""
    for name in [f"{name}.new" for name in case.names] + (case.names if case is FRESH else []):
        with waiting(beneath, case) as (run, reply):
            write(name, b"mine")
            out, err = run.communicate(b"+ 0x\n")
        ended = Ended(run.returncode, reply + out, err)
        tally.compare(f"kept: {case.name}, {name} is made meanwhile", (ended, contents(name)), (case.failed, b"mine"))
        os.remove(name)
        tally.compare(f"kept: {case.name}, {name} is made meanwhile, the files", case.left(), (case.old, []))


def stops(beneath, tally):
    """Where the file is not for others, neither is the new one at any moment."""
    for number in range(1, calls_of(beneath, OVER) + 1):
        OVER.prepare()
        os.chmod(OVER.names[0], 0o640)
        modes = []

        def look(modes=modes):
            name = f"{OVER.names[0]}.new"
            if os.path.exists(name):
                modes.append(os.stat(name).st_mode & 0o7)

        ended = stopped(beneath, OVER, number, look)
        tally.compare(f"kept: {OVER.name}, stopped before call {number}", (ended, OVER.left()),
                      (OVER.done, (OVER.new, [])))
        tally.compare(f"kept: {OVER.name}, open to others before call {number}", any(modes), False)
        os.chmod(OVER.names[0], 0o644)


def stopped(beneath, case, number, look):
    """How a run ended that was stopped before the call of this number, to look at the files."""
    environment = beneath.environment(CALL="any", REFUSE=number, STOP=1)
    with supervised.Popen([beneath.program.path, *case.words], env=environment, umask=0, stdin=subprocess.DEVNULL,
                          stdout=subprocess.PIPE, stderr=subprocess.PIPE) as run:
        if not os.WIFSTOPPED(os.waitpid(run.pid, os.WUNTRACED)[1]):
            return Ended(None, b"", b"")
        look()
        os.kill(run.pid, signal.SIGCONT)
        out, err = run.communicate()
        return Ended(run.returncode, out, err)
