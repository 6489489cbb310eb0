"""What the parts share: bundles that Yosys, cadical and ABC made once, calls of the command, and programs that lie."""

from __future__ import annotations

import contextlib
import hashlib
import io
import json
import os
import shutil
import signal
import stat
import subprocess
import sys
import tempfile
import unittest.mock
from pathlib import Path

from aig_verdicts import command
from aig_verdicts.audit.bundle import Bundle, Wrong
from aig_verdicts.audit.recheck import recheck
from library import supervised
from paths import PYTHONPATH, ROOT

HERE = Path(__file__).resolve().parent
# A few properties of the bundle `every`: a bug, one that holds, one with a bug at frame 8.
FEW = HERE / "few.aag"
COMMAND = ("-m", "aig_verdicts")


def kept(name):
    """A copy of a bundle that is kept with the tests, in the current folder."""
    path = Path(f"{name}.verdicts")
    shutil.rmtree(path, ignore_errors=True)
    shutil.copytree(HERE / path.name, path)
    return path


def called(*words):
    """The status, standard output and standard error of the command, in this process."""
    out, err = io.StringIO(), io.StringIO()
    with contextlib.redirect_stdout(out), contextlib.redirect_stderr(err), handlers_kept():
        try:
            status = command.main([str(word) for word in words])
        except SystemExit as end:
            status = end.code
    return status, out.getvalue(), err.getvalue()


@contextlib.contextmanager
def handlers_kept():
    before = [(number, signal.getsignal(number)) for number in (signal.SIGINT, signal.SIGTERM)]
    try:
        yield
    finally:
        for number, handler in before:
            signal.signal(number, handler)


def started(program, *words):
    """The command as a process of its own."""
    return process_of(program, sys.executable, *COMMAND, *words)


def process_of(program, *words):
    """A process in which the package is the one of these sources, and runs this program."""
    environment = {**os.environ, "PYTHONPATH": PYTHONPATH, "AIG_PROGRAM": program.path}
    return supervised.Popen([str(word) for word in words], stdin=subprocess.DEVNULL, stdout=subprocess.PIPE,
                            stderr=subprocess.PIPE, env=environment)


def ended(process):
    """The status and the output of a process. It has no status if it does not end."""
    try:
        with process:
            out, err = process.communicate()
        return process.returncode, out.decode(), err.decode()
    except subprocess.TimeoutExpired:
        return None, "", "it does not end"


def manifest_of(path):
    return json.loads((Path(path) / "MANIFEST.json").read_bytes())


def same_manifests(one, two):
    """Whether two folders have the same bytes of MANIFEST.json."""
    return Path(one, "MANIFEST.json").read_bytes() == Path(two, "MANIFEST.json").read_bytes()


def write_manifest(path, manifest, mends_sums=True):
    """Writes a manifest; a forger mends the sums of all files that are there."""
    if mends_sums:
        for name in manifest["sums"]:
            if (path / name).is_file():
                manifest["sums"][name] = hashlib.sha256((path / name).read_bytes()).hexdigest()
    (path / "MANIFEST.json").write_text(json.dumps(manifest))


def forged(path, forge):
    """What `recheck` says of a bundle after a change, with all sums mended; None if it takes it."""
    manifest = manifest_of(path)
    forge(path, manifest)
    write_manifest(path, manifest)
    return why_rejected(path)


def of_script(path):
    """How `recheck.sh` of a bundle ended."""
    return subprocess.run(["sh", path / "recheck.sh"], env={**os.environ, "AIG": os.environ["AIG_PROGRAM"]},
                          capture_output=True, text=True, check=False)


def row(manifest, name, kind="assert"):
    return next(it for it in manifest["rows"] if it.get("name") == name and it["kind"] in (kind, "cover"))


def judged(path, sums=True):
    """What a re-check says of each row, or None if the bundle is rejected. Without `sums` it compares no sum."""
    compares = contextlib.nullcontext() if sums else unittest.mock.patch.object(Bundle, "summed", Bundle.read)
    try:
        with compares:
            found = recheck(Path(path), jobs=2)
    except Wrong:
        return None
    return [(it.position, it.kind, it.name, it.verdict, it.frames, it.of) for it in found.rows]


def why_rejected(path):
    try:
        recheck(Path(path), jobs=1)
    except Wrong as error:
        return str(error)
    return None


def raises(kind, call, *words):
    """Whether a call ends with an exception of this kind."""
    try:
        call(*words)
    except kind:
        return True
    return False


_folder = tempfile.TemporaryDirectory()


def tool(name, body, folder="."):
    """A program that is a script of the shell."""
    path = Path(folder, name).resolve()
    path.write_text(f"#!/bin/sh\n{body}\n")
    path.chmod(path.stat().st_mode | stat.S_IXUSR)
    return str(path)


# The solver of these tests. A Python that reads no settings begins faster.
SMALL_SOLVER = tool("small_solver", f'exec "{sys.executable}" -S -E "{ROOT}/tests/library/small_solver.py" "$@"', _folder.name)


def by_symbol(path):
    """All rows but the first, by the symbols of their properties."""
    starts = {"assert": "", "cover": "cover:", "condition": "if:"}
    return {starts[it["kind"]] + it["name"]: it for it in manifest_of(path)["rows"][1:]}


def rows_of(path):
    """The rows of assertions and covers by name."""
    return {it["name"]: it for it in manifest_of(path)["rows"] if it["kind"] in ("assert", "cover")}
