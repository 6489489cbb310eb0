"""Bundles in a .zip, the script for a shell, and the bundle in `examples`."""

from __future__ import annotations

import os
import random
import shutil
import stat
import subprocess
import sys
import warnings
import zipfile
from pathlib import Path

from aig_verdicts.audit.bundle import Bundle
from aig_verdicts.audit.folder import pack
from aig_verdicts.audit.folder import script as script_of
from bundles.common import called, judged, kept, manifest_of, tool, why_rejected
from library import runs, supervised
from paths import PYTHONPATH

FLIPS = 60
EXAMPLES = Path(runs.EXAMPLES).resolve()


def zips(_, tally, __):
    """The same folder gives the same .zip, which says the same. Bits of it are flipped, and it is cut: rejected, or the
    same rows. A .zip that another program packed, with entries for folders, is right as well."""
    path = kept("every")
    good = judged(path)
    for name in ("a.zip", "b.zip"):
        pack(path, Path(name))
    data = Path("a.zip").read_bytes()
    tally.check("zips: the same bytes", data == Path("b.zip").read_bytes())
    tally.compare("zips: the same rows", judged("a.zip"), good)
    chance = random.Random(2)
    for place in chance.sample(range(len(data)), FLIPS):
        wrong = bytearray(data)
        wrong[place] ^= 1 << chance.randrange(8)
        Path("a.zip").write_bytes(bytes(wrong))
        tally.check(f"zips: byte {place}", judged("a.zip") in (None, good))
    for text in (b"", b"PK", b"[]", b"x" * 1000,
                 *(data[:length] for length in range(0, len(data), 1 + len(data) // 20))):
        Path("a.zip").write_bytes(text)
        tally.check(f"zips: {len(text)} bytes", judged("a.zip") is None)
    shutil.make_archive("made", "zip", path)
    tally.compare("zips: packed by another program", judged("made.zip"), good)
    shutil.make_archive("folder", "zip", ".", path)
    tally.compare("zips: packed with its folder", judged("folder.zip"), good)
    with zipfile.ZipFile("folder.zip", "a") as file:
        file.writestr(f"{Path(path).name}/.lock", b"")
    tally.compare("zips: packed with the lock of a run", judged("folder.zip"), good)


def _entries(path):
    names = sorted(it.relative_to(path).as_posix() for it in path.rglob("*") if it.is_file())
    return [(zipfile.ZipInfo(f"every.verdicts/{name}", (1980, 1, 1, 0, 0, 0)),
             (path / name).read_bytes()) for name in names]


def hostile_zips(_, tally, __):
    """Entries with absolute paths, with `..`, twice, links, devices, encrypted, packed by other ways, of sizes that
    are not theirs; bombs. All are rejected, and nothing is written."""
    path = kept("every")

    def written(change):
        entries = _entries(path)
        change(entries)
        with warnings.catch_warnings(), zipfile.ZipFile("w.zip", "w", zipfile.ZIP_DEFLATED) as file:
            warnings.simplefilter("ignore")  # of a name that comes twice
            for entry, data in entries:
                file.writestr(entry, data)
        return why_rejected("w.zip")

    def more(name, data=b"x", kind=0, packed=zipfile.ZIP_STORED):
        def change(entries):
            entry = zipfile.ZipInfo(name, (1980, 1, 1, 0, 0, 0))
            entry.external_attr, entry.compress_type = (kind | 0o644) << 16, packed
            entries.append((entry, data))
        return change

    tally.compare("hostile zips: without a change", written(lambda _: None), None)
    for name, change, caught_by in (
        ("an absolute path", more("/tmp/owned"), "has the name"),
        ("a path up", more("every.verdicts/../../owned"), "has the name"),
        ("a path up alone", more("../owned"), "has the name"),
        ("a backslash", more("every.verdicts/..\\owned"), "has the name"),
        ("a drive", more("C:/owned"), "has the name"),
        ("a hidden file", more("every.verdicts/.bashrc"), "has the name"),
        ("a name of blanks", more("every.verdicts/ "), "has the name"),
        ("a line", more("every.verdicts/a\nb"), "has the name"),
        ("deep folders", more("every.verdicts/a/b/c"), "has the name"),
        ("a link", more("every.verdicts/0.link", b"/etc/passwd", stat.S_IFLNK), "no plain file"),
        ("a device", more("every.verdicts/0.link", b"", stat.S_IFCHR), "no plain file"),
        ("twice", more("every.verdicts/circuit.aig"), "a name twice"),
        ("by lzma", more("every.verdicts/0.more", b"x" * 1000, 0, zipfile.ZIP_LZMA), "in a strange way"),
        ("another folder", more("other/circuit.aig"), ""),
    ):
        why = written(change)
        tally.check(f"hostile zips: {name}", why is not None and caught_by in why, why)
    bombs(tally, path, written)
    written(lambda _: None)
    data = bytearray(Path("w.zip").read_bytes())
    for at in places(data, b"PK\x01\x02"):
        data[at + 8] |= 1
    Path("w.zip").write_bytes(bytes(data))
    tally.check("hostile zips: encrypted", "encrypted" in (why_rejected("w.zip") or ""), why_rejected("w.zip"))
    tally.check("hostile zips: nothing is written", not Path("/tmp/owned").exists() and not Path("../owned").exists())


def bombs(tally, path, written):
    """Files that are small as they are packed, and large else: they are not unpacked beyond the limit of one file."""
    def bomb(entries):
        at = next(k for k, (entry, _) in enumerate(entries) if entry.filename.endswith("/3.base.drat"))
        entries[at] = (entries[at][0], b"0 " * (1 << 21))
        entries[at][0].compress_type = zipfile.ZIP_DEFLATED

    written(bomb)
    tally.check("hostile zips: a bomb is small", Path("w.zip").stat().st_size < 60000, Path("w.zip").stat().st_size)
    status, _, err = called("recheck", "w.zip", "--megabytes", "3")
    tally.check("hostile zips: a bomb", status == 1 and "3.base.drat is too large" in err, err)
    data = bytearray(Path("w.zip").read_bytes())
    for at in places(data, b"PK\x01\x02"):
        name = data[at + 46 : at + 46 + int.from_bytes(data[at + 28 : at + 30], "little")]
        if name.endswith(b"3.base.drat"):
            data[at + 24 : at + 28] = (100).to_bytes(4, "little")
    Path("w.zip").write_bytes(bytes(data))
    tally.check("hostile zips: a bomb that lies about its size", why_rejected("w.zip") is not None)
    tight(tally, path)


# Reads a .zip, and prints why it is rejected, the megabytes that it took, and the seconds of a processor.
COSTS = """import resource, sys
from pathlib import Path
from aig_verdicts.audit.bundle import Bundle
try:
    Bundle(Path(sys.argv[1])).circuit()
    why = "nothing"
except Exception as error:
    why = str(error)
used = resource.getrusage(resource.RUSAGE_SELF)
print(why, used.ru_maxrss >> 10, int(used.ru_utime + used.ru_stime), sep="\\n")
"""


def tight(tally, path):
    """Files that are small in a .zip, and would take a thousand times as much memory."""
    for name, megabytes, word in (("circuit.aig", 400, "times as many as in the .zip"), ("circuit.aig", 60, "another sum"),
                                  ("MANIFEST.json", 50, "times as many as in the .zip")):
        with zipfile.ZipFile("tight.zip", "w", zipfile.ZIP_DEFLATED) as file:
            for entry, data in _entries(path):
                if not entry.filename.endswith(f"/{name}"):
                    file.writestr(entry, data)
            large = zipfile.ZipInfo(f"every.verdicts/{name}", (1980, 1, 1, 0, 0, 0))
            large.compress_type = zipfile.ZIP_DEFLATED
            with file.open(large, "w") as stream:
                for _ in range(megabytes):
                    stream.write(b"[" * (1 << 20))
        environment = {**os.environ, "PYTHONPATH": PYTHONPATH}
        done = supervised.run([sys.executable, "-c", COSTS, "tight.zip"], env=environment, capture_output=True, text=True, check=False)
        why, most, seconds = done.stdout.splitlines()
        tally.check(f"hostile zips: {megabytes} MB of {name}", word in why and int(most) < 320 and int(seconds) < 20, done)


def places(data, mark):
    at = data.find(mark)
    while at >= 0:
        yield at
        at = data.find(mark, at + 1)


def script(program, tally, _):
    """`recheck.sh` says the same with `sh`, `sed` and `aig` alone, from any folder; it finds a changed witness, one of
    another property, a changed proof and a missing program."""
    os.mkdir("bin")
    for name in ("sh", "sed"):
        os.symlink(shutil.which(name), f"bin/{name}")

    def made(name):
        path = kept(name)
        (path / "recheck.sh").write_bytes(script_of(Bundle(path).rows))
        return path

    def ran(path, name=program.path):
        environment = {"PATH": os.path.abspath("bin"), "AIG": name}
        done = supervised.run(["/bin/sh", f"{path}/recheck.sh"], env=environment, stdin=subprocess.DEVNULL,
                              capture_output=True)
        return done.returncode, done.stdout.decode(), done.stderr.decode()

    for name in ("every", "contradiction"):
        path = made(name)
        status, out, err = ran(path)
        commands = [it for row in manifest_of(path)["rows"] for it in row["commands"]]
        wanted = [f"{it['prints']}: {' '.join(it['words'][1:])}" for it in commands]
        tally.compare(f"script: {name}", (status, out.splitlines(), err), (0, wanted, ""))
    path = made("every")
    inside = supervised.run(["/bin/sh", "recheck.sh"], cwd=path, stdin=subprocess.DEVNULL, capture_output=True,
                            env={"PATH": os.path.abspath("bin"), "AIG": program.path})
    tally.compare("script: from its folder", inside.returncode, 0)
    tally.compare("script: no program", ran(path, "no-such-program")[0], 1)
    tally.compare("script: a program that lies", ran(path, tool("liar", "echo confirmed"))[0], 1)
    for name, change in {
        "another witness": lambda: shutil.copy(path / "9.wit", path / "2.wit"),
        "a longer witness": lambda: (path / "9.wit").write_text("1\nb9\n000000\n1x\n1x\n0x\nxx\n.\n"),
        "an empty proof": lambda: (path / "8.step.drat").write_bytes(b"0\n"),
        "no certificate": lambda: (path / "6.cert.aag").unlink(),
    }.items():
        path = made("every")
        change()
        status, _, err = ran(path)
        tally.check(f"script: {name}", status == 1 and "WRONG: " in err, (status, err))


def shipped(_, tally, __):
    """The bundle in `examples` is of the queue that ships beside it, and `recheck` prints its rows."""
    bundle = EXAMPLES / "queue.verdicts"
    status, out, err = called("recheck", bundle)
    wanted = ["constraints  alive", "b0  confirmed  queue.v:37", "b1  unreachable  queue.v:38"]
    tally.compare("shipped: recheck", (status, out.splitlines()), (5, wanted))
    tally.check("shipped: its counts", "1 fail, 1 hold" in err, err)
    source = (bundle / "sources" / "queue.v").read_bytes()
    tally.check("shipped: its source", source == (EXAMPLES / "queue.v").read_bytes())
    tally.check("shipped: its page", "queue.v:37" in (bundle / "index.html").read_text(encoding="utf-8"))
