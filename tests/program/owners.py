"""Files of other owners and groups that `aig bench` replaces: as root, and as a user of some groups. Only root can make
such files, so elsewhere this is left out."""

import os
import shutil
from typing import NamedTuple, Optional, Tuple

from library.runs import Ended, LeftOut, contents, input_or_output, write

DESIGN, NEW_DESIGN = b"aag 1 1 0 1 0\n2\n2\n", b"aag 1 1 0 1 0\n2\n3\n"
DONE = Ended(0, b"ok\n", b"")
NOT_BEGUN = input_or_output("output")
USER = 61000
OWN, SHARED, OTHER = 61001, 61002, 61003



class Row(NamedTuple):
    """Who runs the program (None: root), in which further groups; the owner, the group and the mode of the file before;
    how the run ends, and the owner, the group and the mode after it."""

    name: str
    user: Optional[int]
    groups: Tuple[int, ...]
    before: Tuple[int, int, int]
    ended: Ended
    after: Tuple[int, int, int]


ROWS = (
    ("an own file", USER, (), (USER, OWN, 0o640), DONE, (USER, OWN, 0o640)),
    ("a shared file", USER, (SHARED, ), (USER, SHARED, 0o660), DONE, (USER, SHARED, 0o660)),
    ("a shared file with setgid", USER, (SHARED, ), (USER, SHARED, 0o2664), DONE, (USER, SHARED, 0o664)),
    ("a group that cannot be kept", USER, (), (USER, SHARED, 0o660), DONE, (USER, OWN, 0o600)),
    ("a group that cannot be kept, for all to read", USER, (), (USER, SHARED, 0o664), DONE, (USER, OWN, 0o604)),
    ("a group that cannot be kept, and has less than others", USER, (), (USER, SHARED, 0o646), DONE,
     (USER, OWN, 0o604)),
    ("a group that cannot be kept, and has nothing", USER, (), (USER, SHARED, 0o607), DONE, (USER, OWN, 0o600)),
    ("another's file for all", USER, (), (OTHER, OWN, 0o666), NOT_BEGUN, (OTHER, OWN, 0o666)),
    ("another's file for the group", USER, (SHARED, ), (OTHER, SHARED, 0o660), NOT_BEGUN, (OTHER, SHARED, 0o660)),
    ("root's file", USER, (), (0, OWN, 0o664), NOT_BEGUN, (0, OWN, 0o664)),
    ("a file that may only be read", USER, (), (OTHER, OTHER, 0o644), NOT_BEGUN, (OTHER, OTHER, 0o644)),
    ("another's file, by root", None, (), (USER, SHARED, 0o640), DONE, (USER, SHARED, 0o640)),
    ("another's file with setuid, by root", None, (), (USER, SHARED, 0o4755), DONE, (USER, SHARED, 0o755)),
    ("another's file that its owner may not read, by root", None, (), (USER, 0, 0o060), DONE, (USER, 0, 0o060)),
)


def owners(program, tally, _):
    if os.geteuid() != 0:
        raise LeftOut("only root can make files of other owners")
    # The user may not search the folders above this one, so all names are relative.
    shutil.copy(program.path, "aig")
    os.chmod(".", 0o777)
    os.umask(0o22)
    for row in ROWS:
        each(program, tally, Row(*row))
    unsearched(program, tally)


def each(program, tally, row):
    name, ended = row.name, row.ended
    for at, option in enumerate(("--circuit-out", "--map")):
        for file, content in (("design", DESIGN), ("rows", b""), ("script", b"o 0 3\n"), ("file", b"old")):
            write(file, content)
        owner, group, mode = row.before
        os.chown("file", owner, group)
        os.chmod("file", mode)
        words = (["bench", "--circuit-out", "file", "design", "rows", "script"],
                 ["unroll", "--frames", "1", "--to", "aag", "--map", "file", "design"])[at]
        wanted = (ended, ended._replace(out=DESIGN) if ended is DONE else ended)[at]
        got = run(program, row.user, row.groups, words)
        tally.compare(f"owners: {name}, {option}", got, wanted)
        tally.compare(f"owners: {name}, {option}, the owner, the group and the mode", owned("file"), shown(*row.after))
        text = (NEW_DESIGN, b"i 0 0 0 \n")[at] if ended is DONE else b"old"
        tally.compare(f"owners: {name}, {option}, the file", (contents("file"), os.path.exists("file.new")),
                      (text, False))


def unsearched(program, tally):
    """A user rewrites files below a folder that the user may not search."""
    os.mkdir("inner")
    for name, content in (("design", DESIGN), ("rows", b""), ("script", b"o 0 3\n"), ("file", b"old")):
        write(f"inner/{name}", content)
        os.chown(f"inner/{name}", USER, OWN)
    shutil.copy("aig", "inner")
    os.chmod("inner", 0o777)
    os.chmod(".", 0o700)
    os.chdir("inner")
    words = ["bench", "--circuit-out", "file", "--stimulus-out", "rows", "design", "rows", "script"]
    tally.compare("owners: below a folder that may not be searched", run(program, USER, (), words), DONE)
    tally.compare("owners: below a folder that may not be searched, the file", contents("file"), NEW_DESIGN)
    os.chdir("..")


def run(program, user, groups, words):
    """Runs the copy of the program that is here, as a user or as root."""
    here = type(program)("aig", True)
    here.path = "./aig"
    if user is None:
        return here.run(*words)
    return here.run(*words, user=user, group=OWN, extra_groups=groups)


def owned(file):
    status = os.stat(file)
    return shown(status.st_uid, status.st_gid, status.st_mode & 0o7777)


def shown(owner, group, mode):
    return f"{owner}:{group} {mode:o}"
