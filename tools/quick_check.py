#!/usr/bin/env python3
"""Checks functions of a crate in a copy in which all crates below are taken as proved: no function of theirs has a
body, and each has a hole for its proof. So it needs no library that `rt check` proved, and its first run takes minutes,
where that of a high crate takes an hour; later runs take what changed from the copy.

    tools/quick_check.py aig_shell --only session::Session::save --only files::keep

With --only the other functions of the crate are taken as proved too. It shows what the prover says, and is no verdict:
`no proof: it calls ..` names a function that was taken as proved, and an open goal says `did not prove`."""

import argparse
import hashlib
import os
import pathlib
import shutil
import subprocess
import sys
import tempfile

from judge.bugs import edits_of
from judge.crates import ROOT, toolchain
from judge.trials import take_as_proved

# Functions that keep their bodies: those that a check makes itself, and those that it names by a type's arguments.
WHOLE = ("Drop::drop", "FromAllocFailed::from")
LISTED = "crates.txt"


def sum_of(files, root):
    """Returns the SHA-256 of some files and their names."""
    total = hashlib.sha256()
    for file in files:
        total.update(f"{file.relative_to(root)}\n".encode() + file.read_bytes())
    return total.hexdigest()


def copy(crate, to, kept):
    """Copies a crate, with holes in place of all functions but those that are kept. A copy of the same files stays."""
    files = sorted(it for part in crate.parts for it in (crate.folder / part).rglob("*") if it.is_file())
    stamp, said = to / "copied", f"{sum_of(files, crate.folder)} {sorted(kept)}"
    if stamp.is_file() and stamp.read_text() == said:
        return
    stamp.unlink(missing_ok=True)  # a copy that is broken off is none
    for part in crate.parts:
        shutil.rmtree(to / part, ignore_errors=True)
        if (crate.folder / part).is_dir():
            shutil.copytree(crate.folder / part, to / part)
    every, _, _ = edits_of(crate.folder, (), None)
    take_as_proved(crate, to, [it for it in every if it.name not in kept and not it.name.endswith(WHOLE)])
    for made in to.glob("proofs/**/*Drop/drop"):
        shutil.rmtree(made, ignore_errors=True)
    stamp.write_text(said)


def main():
    reader = argparse.ArgumentParser(description=__doc__, formatter_class=argparse.RawDescriptionHelpFormatter)
    reader.add_argument("crate")
    reader.add_argument("--only", action="append", default=[], metavar="FUNCTION",
                        help="a function by its module, as `gate::is_number`, or a method, as `session::Session::save`")
    reader.add_argument("--room", type=pathlib.Path, help="the folder of the copy (else one for this checkout)")
    chosen = reader.parse_args()
    crates = {it.name: it for it in toolchain(1)}
    if chosen.crate not in crates:
        sys.exit(f"{LISTED} lists no crate {chosen.crate}")
    crate = crates[chosen.crate]
    unknown = {*chosen.only} - {it.name for it in edits_of(crate.folder, (), None)[0]}
    if unknown:
        sys.exit(f"{crate.name} has no function {', '.join(sorted(unknown))}")
    named = hashlib.sha256(str(ROOT).encode()).hexdigest()[:8]
    room = chosen.room or pathlib.Path(tempfile.gettempdir()) / f"quick-{named}" / crate.name
    (room / ".git").mkdir(parents=True, exist_ok=True)
    shutil.copy(ROOT / "HANDLES", room)
    lines = (ROOT / LISTED).read_text(encoding="utf-8").splitlines(keepends=True)
    wanted = {crate.name, *crate.below}
    (room / LISTED).write_text("".join(it for it in lines if it.partition(":")[0].partition(" ")[0] in wanted))
    for name in sorted(wanted):
        folder = room / "crates" / name
        folder.mkdir(parents=True, exist_ok=True)
        every, _, _ = edits_of(crates[name].folder, (), None)
        kept = chosen.only or [it.name for it in every] if name == crate.name else []
        copy(crates[name], folder, kept)
    words = [word for name in chosen.only for word in ("--only", f"{crate.name}::{name}")]
    os.chdir(room / "crates" / crate.name)
    copies = {it.name: it.check for it in toolchain(1, room, as_source=True)}
    return subprocess.run([*copies[crate.name], "--allow-holes", "--incremental", f"{room}/kept", *words],
                          stdin=subprocess.DEVNULL, check=False).returncode


if __name__ == "__main__":
    sys.exit(main())
