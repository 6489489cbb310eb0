"""Rows of `aig bench` with files that keep what a script leaves: which texts they have, where they go, who may read
them, and that they are as they were where a run fails."""

import contextlib
import os
import resource
import select
import shutil
import signal
import struct
import subprocess
import threading

from library import supervised
from library.circuits import write_all
from library.runs import SECONDS, Ended, contents, input_or_output, leave_out, refused, write

CIRCUIT = b"aag 4 2 0 1 2\n2\n4\n8\n8 6 2\n6 2 4\no0 out\ni1 right\nc\nmade by hand"
ROWS = b"11\n01\n"
# A cycle, edits, an appended gate, a row, a line that is none, a value, and a last piece without LF.
SCRIPT = b"w 6 8 2\ns 0 1 0\ng 9 4\no 0 10\n+ 0x\nq\nv 0 8\n-"
REPLIES = b"no 5\nok\nok\nok\nok\nbad\n0\nbad\n"
NEW_CIRCUIT = b"aag 5 2 0 1 3\n2\n4\n10\n8 6 2\n6 2 4\n10 9 4\no0 out\ni1 right\nc\nmade by hand"
NEW_ROWS = b"10\n01\n0x\n"
# What keeps a circuit and a stimulus.
BOTH = ("--circuit-out", "new_circuit", "--stimulus-out", "new_rows")
DONE = Ended(0, REPLIES, b"")
# The run ends after the script, or before it is read.
FAILED = input_or_output("output", REPLIES)
NOT_BEGUN = input_or_output("output")
NOT_RUN = (
    ("a refused circuit", {"design": b"aag 1 0 0 0 1\n2 2 2\n"}, refused("circuit: cycle 1")),
    ("a refused stimulus", {"rows": b"1\n"}, refused("stimulus: length of line 1")),
    ("a script that is a directory", {}, input_or_output("script")),
)


class Keeping:
    """Runs of the script with files that keep what it leaves."""

    def __init__(self, program, tally):
        self.program, self.tally = program, tally

    def run(self, *words, **settings):
        return self.program.run("bench", *words, "design", "rows", "script", **settings)

    def row(self, name, words, wanted, files, before=(), **settings):
        """The run ends so, and then these files have these contents, or are not there. Before it there are some."""
        for file, content in (("design", CIRCUIT), ("rows", ROWS), ("script", SCRIPT), *before):
            write(file, content)
        self.tally.compare(f"kept: {name}", self.run(*words, **settings), wanted)
        self.leaves(name, files)

    def have_modes(self, name, mode):
        """Both files have this mode. They are removed."""
        self.tally.compare(f"kept: the modes of {name}", [mode_of(file) for file in BOTH[1::2]], [oct(mode)] * 2)
        for file in BOTH[1::2]:
            os.remove(file)

    def leaves(self, name, files):
        for file, content in files.items():
            got = contents(file) if os.path.exists(file) else None
            self.tally.compare(f"kept: {name}, {file}", got, content)
        new = [file for file in os.listdir() if file.endswith(".new") and file not in files]
        self.tally.compare(f"kept: {name}, new files that are left", new, [])
        for file in files:
            if os.path.exists(file):
                os.remove(file)


def mode_of(file):
    return oct(os.stat(file).st_mode & 0o7777) if os.path.exists(file) else None


def kept(program, tally, _):
    write_all()
    keeping = Keeping(program, tally)
    texts(keeping)
    places(keeping)
    names(keeping)
    modes(keeping)
    default_list(keeping)
    devices(keeping)
    disks(keeping)
    before_the_script(keeping)
    failures(keeping)


def texts(keeping):
    """Which texts are written, and which files are asked for."""
    keeping.row("both", BOTH, DONE, {"new_circuit": NEW_CIRCUIT, "new_rows": NEW_ROWS})
    keeping.row("a circuit", BOTH[:2], DONE, {"new_circuit": NEW_CIRCUIT, "new_rows": None})
    keeping.row("a stimulus", BOTH[2:], DONE, {"new_circuit": None, "new_rows": NEW_ROWS})
    keeping.row("over other files", BOTH, DONE, {"new_circuit": NEW_CIRCUIT, "new_rows": NEW_ROWS},
                (("new_circuit", b"x" * 9999), ("new_rows", b"y")))
    keeping.row("over the files that are read", ("--circuit-out", "design", "--stimulus-out", "rows"), DONE,
                {"design": NEW_CIRCUIT, "rows": NEW_ROWS})
    keeping.row("a script that is empty", BOTH, Ended(0, b"", b""), {"new_circuit": CIRCUIT, "new_rows": ROWS},
                (("script", b""), ))
    keeping.row("no rows and no inputs", BOTH, Ended(0, b"ok\nok\n", b""),
                {"new_circuit": b"aag 1 0 0 0 1\n2 1 0\n", "new_rows": b"\n"},
                (("design", "aag 0 0 0 0 0\n"), ("rows", b""), ("script", b"+ \ng 1 0\n")))
    keeping.row("a binary circuit", BOTH, Ended(0, b"ok\n", b""),
                {"new_circuit": b"aag 3 2 0 1 1\n2\n4\n6\n6 3 2\n", "new_rows": b"11\n"},
                (("design", b"aig 3 2 0 1 1\n6\n\x02\x02"), ("rows", b"11\n"), ("script", b"w 6 3 2\n")))
    long = b"1x0" * 333 + b"\n"
    wide = "aag 999 999 0 0 0\n" + "".join(f"{2 * at}\n" for at in range(1, 1000))
    keeping.row("more than a block", BOTH, Ended(0, b"ok\n", b""),
                {"new_circuit": wide.encode(), "new_rows": long * 100},
                (("design", wide), ("rows", long * 99), ("script", b"+ " + long)))
    many = b"10\n0x\n11\n" * 2001
    keeping.row("6,003 rows", BOTH, Ended(0, b"ok\n", b""), {"new_circuit": CIRCUIT, "new_rows": many + b"01\n"},
                (("rows", many), ("script", b"+ 01\n")))


def places(keeping):
    """Names that are links, and names that meet."""
    write("target", b"old")
    os.chmod("target", 0o640)
    os.symlink("target", "link")
    os.symlink("link", "link_to_link")
    for link in ("link", "link_to_link"):
        keeping.row(f"a {link}", ("--circuit-out", link), DONE, {})
        keeping.tally.compare(f"kept: a {link} stays one, with the permissions of its file",
                              (os.path.islink(link), mode_of("target")), (True, "0o640"))
    keeping.leaves("a link", {"link_to_link": NEW_CIRCUIT, "link": NEW_CIRCUIT, "target": NEW_CIRCUIT})
    os.symlink("nowhere", "dangling")
    keeping.row("a dangling link", ("--circuit-out", "dangling"), NOT_BEGUN, {"nowhere": None, "dangling.new": None})
    keeping.tally.check("kept: a dangling link stays one", os.readlink("dangling") == "nowhere")
    write("first_name", b"old")
    os.link("first_name", "second_name")
    keeping.row("a file with a second name", ("--circuit-out", "first_name"), DONE,
                {"first_name": NEW_CIRCUIT, "second_name": b"old"})
    one = ("--circuit-out", "one", "--stimulus-out", "./one")
    keeping.row("one file for both", one, NOT_BEGUN, {"one": None})
    keeping.row("one file for both, which is there", one, NOT_BEGUN, {"one": b"old"}, (("one", b"old"), ))
    for name, link, wanted, files in (("a link", os.symlink, NOT_BEGUN, {"other": b"old", "one": b"old"}),
                                      ("a second name", os.link, DONE, {"other": NEW_ROWS, "one": NEW_CIRCUIT})):
        write("one", b"old")
        link("one", "other")
        keeping.row(f"one file for both, by {name}", ("--circuit-out", "one", "--stimulus-out", "other"), wanted, files)
    keeping.row("a file that the other's new one would replace", ("--circuit-out", "a.new", "--stimulus-out", "a"),
                NOT_BEGUN, {"a": None, "a.new": None, "a.new.new": None})
    beside = ("--circuit-out", "a", "--stimulus-out", "a.new")
    keeping.tally.compare("kept: a file beside the other", keeping.run(*beside, umask=0o27), DONE)
    keeping.tally.compare("kept: the mode of a file beside the other", mode_of("a.new"), "0o640")
    keeping.leaves("a file beside the other", {"a": NEW_CIRCUIT, "a.new": NEW_ROWS, "a.new.new": None})
    keeping.row("a file beside the other, which is there", beside, NOT_BEGUN, {"a": None, "a.new": b"old"},
                (("a.new", b"old"), ))


def names(keeping):
    """Names that are long (`.new` has to fit), and folders that have no text for a name or may not be searched."""
    for name in ("n" * 251, "n" * 252, "n" * 255, "n" * 251 + ".new", "\u00e9" * 126, "n" + "\u00e9" * 127):
        for before in ((), ((name, b"old"), )):
            title = f"a name of {len(name.encode())} bytes, {name[:1]}..{name[-4:]}"
            here, is_short = os.path.basename(os.getcwd()), len(name.encode()) <= 251
            for path in (name, f"../{here}/{name}", os.path.abspath(name)):
                keeping.row(title, ("--circuit-out", path), DONE if is_short else NOT_BEGUN,
                            {name: NEW_CIRCUIT if is_short else dict(before).get(name)}, before)
    keeping.row("the new file of a name of 251 bytes is there", ("--stimulus-out", "n" * 251), NOT_BEGUN,
                {"n" * 251: b"old", "n" * 251 + ".new": b"mine"}, (("n" * 251, b"old"), ("n" * 251 + ".new", b"mine")))
    with folder(keeping, b"caf\xe9"):
        for before in ((), (("new_circuit", b"old"), )):
            keeping.row("below a folder whose name is no text", BOTH, DONE,
                        {"new_circuit": NEW_CIRCUIT, "new_rows": NEW_ROWS}, before)
    if os.geteuid() != 0:
        with folder(keeping, b"closed"):
            os.chmod("..", 0)
            keeping.row("below a folder that may not be searched", BOTH, DONE,
                        {"new_circuit": NEW_CIRCUIT, "new_rows": NEW_ROWS}, (("new_circuit", b"old"), ))
            os.chmod("..", 0o700)


def default_list(keeping):
    """A new file gets what a folder's access control list says of new files, as any other new file does."""
    os.mkdir("listed")
    # The owner may do all, user 61005 too, the group may read and enter; the mask is all, and others have nothing.
    entries = ((1, 7, -1), (2, 7, 61005), (4, 5, -1), (16, 7, -1), (32, 0, -1))
    try:
        os.setxattr("listed", "system.posix_acl_default",
                    struct.pack("<I", 2) + b"".join(struct.pack("<HHi", *entry) for entry in entries))
    except OSError:
        leave_out("kept: a folder with an access control list", "there are none here")
        return
    write("listed/plain", b"")
    keeping.row("in a folder with an access control list", ("--circuit-out", "listed/file"), DONE, {})
    got, wanted = ((mode_of(file), os.getxattr(file, "system.posix_acl_access"))
                   for file in ("listed/file", "listed/plain"))
    keeping.tally.compare("kept: the mode and the list of a file in such a folder", got, wanted)


@contextlib.contextmanager
def folder(keeping, name):
    """A folder of this name, in which there is a folder to work in."""
    here = os.getcwd()
    os.makedirs(name + b"/inner")
    os.chdir(name + b"/inner")
    try:
        yield
    finally:
        os.chdir(here)
        shutil.rmtree(name)


def modes(keeping):
    """The permissions of a file, and of its new one while the text is not whole. (owners.py has those of files of
    others.)"""
    for mask in (0, 0o22, 0o27, 0o77, 0o277, 0o777):
        keeping.row(f"a mask of {mask:o}", BOTH, DONE, {}, umask=mask)
        keeping.have_modes(f"a mask of {mask:o}", 0o666 & ~mask)
    for mode in (0o644, 0o600, 0o664, 0o4755, 0o2755, 0o6777, 0o1640, 0o200):
        for file in BOTH[1::2]:
            write(file, b"old")
            os.chmod(file, mode)
        keeping.row(f"files of mode {mode:o}", BOTH, DONE, {}, umask=0o27)
        keeping.have_modes(f"files of mode {mode:o}", mode & 0o777)
    for before in ((), (("new_circuit", b"old"), ("new_rows", b"old"))):
        for file, content in (("design", CIRCUIT), ("rows", ROWS), *before):
            write(file, content)
        words = [keeping.program.path, "bench", *BOTH, "design", "rows", "/dev/stdin"]
        with supervised.Popen(words, stdin=subprocess.PIPE, stdout=subprocess.PIPE, umask=0) as run:
            run.stdin.write(b"v 0 8\n")
            run.stdin.flush()
            reply(run)
            got = [os.path.exists(f"{file}.new") for file in BOTH[1::2]]
            keeping.tally.compare("kept: new files during the script", got, [False] * 2)
            run.stdin.close()
        keeping.leaves("a script from a pipe", {"new_circuit": CIRCUIT, "new_rows": ROWS})


def devices(keeping):
    """Pipes and devices are written directly; what has the replies is left alone."""
    os.mkfifo("pipe")
    got = []
    reader = threading.Thread(target=lambda: got.append(contents("pipe")), daemon=True)
    reader.start()
    keeping.row("a pipe", ("--circuit-out", "pipe", "--stimulus-out", "new_rows"), DONE, {"new_rows": NEW_ROWS})
    reader.join(SECONDS)
    keeping.tally.compare("kept: what the pipe got", got, [NEW_CIRCUIT])
    os.remove("pipe")
    keeping.row("a device", ("--circuit-out", "/dev/null"), DONE, {})
    for at, other in ((0, "new_rows"), (2, "new_circuit")):
        words = [*BOTH[:at + 1], "/dev/full", *BOTH[at + 2:]]
        keeping.row(f"a full device, {BOTH[at]}", words, FAILED, {other: b"old"}, ((other, b"old"), ))
    with open("replies", "wb") as file:
        keeping.row("standard output's own file", ("--circuit-out", "replies"), NOT_BEGUN._replace(out=None), {},
                    stdout=file)
    keeping.leaves("standard output's own file", {"replies": b""})
    for file, content in (("design", CIRCUIT), ("rows", ROWS), ("script", SCRIPT)):
        write(file, content)
    words = [keeping.program.path, "bench", "--circuit-out", "said", "design", "rows", "script"]
    with open("said", "wb") as file:
        status = supervised.run(words, stdout=subprocess.DEVNULL, stderr=file, check=False).returncode
    keeping.tally.compare("kept: standard error's own file", status, NOT_BEGUN.status)
    keeping.leaves("standard error's own file", {"said": NOT_BEGUN.err})


# Two disks with a file of the same number each. One of them is standard output, and the other one is replaced.
DISKS = """
mkdir -p one two && mount -t tmpfs disk one && mount -t tmpfs disk two || exit 77
echo old > one/file && echo old > two/file || exit 77
test $(stat -c %i one/file) = $(stat -c %i two/file) || exit 77
"$0" bench --circuit-out one/file design rows script > two/file && cat one/file
"""


def disks(keeping):
    for file, content in (("design", CIRCUIT), ("rows", ROWS), ("script", SCRIPT)):
        write(file, content)
    user = [] if os.geteuid() == 0 else ["--map-root-user"]
    # Another program, which writes no file, shows whether they can be mounted.
    try:
        other, ended = (supervised.run(["unshare", "--mount", *user, "sh", "-c", DISKS, path], capture_output=True,
                                       check=False) for path in ("true", keeping.program.path))
    except FileNotFoundError:
        other = None
    if other is None or other.returncode != 0:
        leave_out("kept: two disks with a file of the same number", "they cannot be mounted here")
        return
    keeping.tally.compare("kept: a file with the number of standard output's file on another disk",
                          (ended.returncode, ended.stdout, ended.stderr), (0, NEW_CIRCUIT, b""))


def before_the_script(keeping):
    """A file that cannot be written is reported before a script is read that has no end yet."""
    write("new_rows.new", b"mine")
    for name, words in (("a new file is there", BOTH), ("no folder", ("--circuit-out", "nowhere/file")),
                        ("a folder", ("--circuit-out", ".")), ("a dangling link", ("--circuit-out", "dangling"))):
        for file, content in (("design", CIRCUIT), ("rows", ROWS)):
            write(file, content)
        words = [keeping.program.path, "bench", *words, "design", "rows", "/dev/stdin"]
        with supervised.Popen(words, stdin=subprocess.PIPE, stdout=subprocess.PIPE, stderr=subprocess.PIPE) as run:
            try:
                status = run.wait(timeout=20)
            except subprocess.TimeoutExpired:
                run.kill()
                status = None
            keeping.tally.compare(f"kept: before the script, {name}", (status, run.stdout.read(), run.stderr.read()),
                                  tuple(NOT_BEGUN))
    keeping.leaves("before the script", {"new_circuit": None, "new_rows": None, "new_rows.new": b"mine"})
    # A pipe is opened when its text is there: before that, nobody has to read it.
    os.mkfifo("pipe")
    words = [keeping.program.path, "bench", "--circuit-out", "pipe", "design", "rows", "/dev/stdin"]
    with supervised.Popen(words, stdin=subprocess.PIPE, stdout=subprocess.PIPE) as run:
        run.stdin.write(b"v 0 8\n")
        run.stdin.flush()
        first = reply(run)
        keeping.tally.compare("kept: a reply before a pipe is read", first, b"1\n")
        run.stdin.close()
        if first:
            keeping.tally.compare("kept: a pipe after the script", contents("pipe"), CIRCUIT)
    os.remove("pipe")


def reply(run):
    """The first line of a run, which is stopped if it writes none."""
    if not select.select([run.stdout], [], [], SECONDS)[0]:
        run.kill()
    return run.stdout.readline()


def failures(keeping):
    """Runs that fail leave the files as they are."""
    old = (("new_circuit", b"old circuit"), ("new_rows", b"old rows"))
    for name, files, wanted in NOT_RUN:
        for before in ((), old):
            words = [*BOTH, "design", "rows", "script" if files else "."]
            for file, content in (("design", CIRCUIT), ("rows", ROWS), ("script", SCRIPT), *before, *files.items()):
                write(file, content)
            keeping.tally.compare(f"kept: {name}", keeping.program.run("bench", *words), wanted)
            keeping.leaves(name, {"new_circuit": None, "new_rows": None, **dict(before)})
    for file in ("new_circuit", "new_rows"):
        keeping.row(f"{file}.new is there", BOTH, NOT_BEGUN, {**dict(old), f"{file}.new": b"mine"},
                    (*old, (f"{file}.new", b"mine")))
    keeping.row("a folder that is not there", ("--circuit-out", "nowhere/file"), NOT_BEGUN, {})
    keeping.row("a folder", ("--stimulus-out", "."), NOT_BEGUN, {})
    keeping.row("a name of no bytes", ("--circuit-out", ""), NOT_BEGUN, {".new": None})
    keeping.row("a name that ends with a slash", ("--circuit-out", "nowhere/"), NOT_BEGUN, {"nowhere": None})
    keeping.row("a refused circuit and a folder that is not there", ("--circuit-out", "nowhere/file"), NOT_BEGUN, {},
                (("design", b"aag 1 0 0 0 1\n2 2 2\n"), ))
    for most in (0, 1, len(NEW_ROWS), len(NEW_CIRCUIT) - 1):
        keeping.row(f"no room behind {most} bytes", BOTH, FAILED, dict(old), old,
                    preexec_fn=lambda most=most: room(most),
                    restore_signals=False)
    keeping.row("room for both", BOTH, DONE, {"new_circuit": NEW_CIRCUIT, "new_rows": NEW_ROWS}, old,
                preexec_fn=lambda: room(len(NEW_CIRCUIT)), restore_signals=False)


def room(most):
    """Files get this many bytes at most, as on a device without room."""
    signal.signal(signal.SIGXFSZ, signal.SIG_IGN)
    resource.setrlimit(resource.RLIMIT_FSIZE, (most, most))
