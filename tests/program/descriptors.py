"""Runs that begin without a standard input, output or error, and runs in a folder without /dev. No file is taken for a
stream that is closed, and none that has output is replaced."""

import os
import re
import resource
import shutil
import subprocess

from library import supervised
from library.runs import Ended, contents, input_or_output, leave_out, write

DESIGN, NEW_DESIGN = b"aag 1 1 0 1 0\n2\n2\n", b"aag 1 1 0 1 0\n2\n3\n"
ROWS, NEW_ROWS = b"1\n", b"1\n0\n"
SCRIPT, REPLIES = b"o 0 3\n+ 0\nq\n", b"ok\nok\nbad\n"
KEPT = ("--circuit-out", "new_design", "--stimulus-out", "new_rows")
OLD = {"new_design": b"old", "new_rows": b"old"}
NEW = {"new_design": NEW_DESIGN, "new_rows": NEW_ROWS}
NONE = {"new_design": None, "new_rows": None}
NOT_WRITTEN = input_or_output("output")
DONE = Ended(0, REPLIES, b"")


def descriptors(program, tally, _):
    closed(program, tally)
    few(program, tally)
    without_devices(program, tally)


def prepare(files):
    for file, content in {"design": DESIGN, "rows": ROWS, "script": SCRIPT, "nothing": b"", **files}.items():
        if content is not None:
            write(file, content)


def left():
    """What the files have that are kept. They are removed."""
    found = {file: contents(file) if os.path.exists(file) else None for file in OLD}
    new = [file for file in os.listdir() if file.endswith(".new")]
    for file in OLD:
        if found[file] is not None:
            os.remove(file)
    return found, new


# Which streams are closed, the script, and how the run ends. A write to a closed standard output fails; a closed
# standard input has no bytes.
CLOSED = (
    ((0, ), "script", DONE, NEW),
    ((0, ), "/dev/stdin", Ended(0, b"", b""), {"new_design": DESIGN, "new_rows": ROWS}),
    ((1, ), "script", input_or_output("script"), None),
    ((1, ), "nothing", Ended(0, b"", b""), {"new_design": DESIGN, "new_rows": ROWS}),
    ((2, ), "script", DONE, NEW),
    ((0, 2), "script", DONE, NEW),
    ((0, 1), "nothing", Ended(0, b"", b""), {"new_design": DESIGN, "new_rows": ROWS}),
    ((1, 2), "nothing", Ended(0, b"", b""), {"new_design": DESIGN, "new_rows": ROWS}),
    ((1, 2), "script", input_or_output("script")._replace(err=b""), None),
    ((0, 1, 2), "nothing", Ended(0, b"", b""), {"new_design": DESIGN, "new_rows": ROWS}),
    ((0, 1, 2), "script", input_or_output("script")._replace(err=b""), None),
)


def closed(program, tally):
    for streams, script, ended, files in CLOSED:
        name = f"descriptors: {', '.join(map(str, streams))} closed, {script}"
        for before in (OLD, NONE):
            prepare(before)
            got = program.run("bench", *KEPT, "design", "rows", script, preexec_fn=lambda: close(streams))
            tally.compare(name, got, ended)
            tally.compare(f"{name}, the files", left(), (files or before, []))
            tally.compare(f"{name}, the circuit", contents("design"), DESIGN)
    for streams in ((0, ), (1, ), (2, ), (0, 1, 2)):
        name = f"descriptors: {', '.join(map(str, streams))} closed, a map"
        prepare({"map": b"old"})
        got = program.run("unroll", "--frames", "1", "--to", "aag", "--map", "map", "design",
                          preexec_fn=lambda: close(streams))
        is_written = 1 not in streams
        wanted = (0, DESIGN, b"") if is_written else tuple(NOT_WRITTEN._replace(err=b"" if 2 in streams else got.err))
        tally.compare(name, tuple(got), wanted)
        tally.compare(f"{name}, the map", contents("map"), b"i 0 0 0 \n" if is_written else b"old")
    write("refused", "aag 1 0 0 0 1\n2 2 2\n")
    prepare(OLD)
    got = program.run("bench", *KEPT, "refused", "rows", "script", preexec_fn=lambda: close((2, )))
    tally.compare("descriptors: 2 closed, a refused circuit", (got, left()), (Ended(1, b"", b""), (OLD, [])))


def few(program, tally):
    """A program that may not open three files does nothing. (One is for the loader of its libraries.)"""
    for most, ended in ((4, NOT_WRITTEN), (5, NOT_WRITTEN), (7, Ended(0, DESIGN, b""))):
        got = program.run("toaig", "--to", "aag", "design", preexec_fn=lambda most=most: limit(most))
        tally.compare(f"descriptors: at most {most}", got, ended)


def limit(most):
    resource.setrlimit(resource.RLIMIT_NOFILE, (most, most))


def close(streams):
    for stream in streams:
        os.close(stream)


def without_devices(program, tally):
    """In a folder that is the root of a run, and has the program with its libraries and no more."""
    root = [*([] if os.geteuid() == 0 else ["unshare", "--map-root-user"]), "chroot", "."]
    os.mkdir("room")
    os.chdir("room")
    try:
        # Another program shows whether the root can be changed.
        for name, path in (("aig", program.path), ("true", shutil.which("true"))):
            libraries = supervised.run(["ldd", path], capture_output=True, text=True, check=False).stdout
            for file in re.findall(r"/\S+", libraries):
                os.makedirs(f".{os.path.dirname(file)}", exist_ok=True)
                shutil.copy(file, f".{file}")
            shutil.copy(path, name)
        is_run = supervised.run([*root, "/true"], capture_output=True, check=False).returncode == 0
    except FileNotFoundError:
        is_run = False
    if not is_run:
        leave_out("descriptors: runs without /dev", "the root of a run cannot be changed here")
        return

    def run(*words, **settings):
        settings.setdefault("stdout", subprocess.PIPE)
        done = supervised.run([*root, "/aig", *words], stdin=subprocess.DEVNULL, stderr=subprocess.PIPE, check=False,
                              **settings)
        return Ended(done.returncode, done.stdout, done.stderr)

    words = ("bench", *KEPT, "design", "rows", "script")
    prepare(NONE)
    tally.compare("descriptors: without /dev, new files", (run(*words), left()), (DONE, (NEW, [])))
    prepare(OLD)
    tally.compare("descriptors: without /dev, files that are there", (run(*words), left()), (NOT_WRITTEN, (OLD, [])))
    prepare(OLD)
    with open("new_rows", "wb") as file:
        ended = run(*words[:1], *KEPT[2:], *words[5:], stdout=file)
    tally.compare("descriptors: without /dev, standard output's own file", (ended._replace(out=b""), left()),
                  (NOT_WRITTEN, ({**OLD, "new_rows": b""}, [])))
    for streams, status, files in (((1, ), 3, NONE), ((2, ), 0, NEW), ((0, 1, 2), 3, NONE)):
        prepare(NONE)
        # The shell closes them, because `chroot` would take them for its own.
        closing = " ".join(f"{stream}>&-" for stream in streams)
        ended = supervised.run(["sh", "-c", f'exec "$@" {closing}', "sh", *root, "/aig", *words], capture_output=True,
                               check=False)
        name = f"descriptors: without /dev, {', '.join(map(str, streams))} closed"
        tally.compare(name, (ended.returncode, left()), (status, (files, [])))
