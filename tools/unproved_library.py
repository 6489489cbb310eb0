#!/usr/bin/env python3
"""Builds the library for C without its proofs, as build_unproved.sh builds a program: unproved_library.py FOLDER.

In a copy of the repository the crate aig_c is a program that calls each of its exports once, so that the toolchain
keeps them. The library has the calls and not that program."""

import os
import pathlib
import re
import shutil
import subprocess
import sys
import tempfile

import c_library
from sources.exports import Crate
from sources.specs import ROOT

ARGUMENTS = {"Global": "rt.alloc()", "&[u8]": 'b""', "u8": "0", "u32": "0", "bool": "false", "&mut [u8]": "&mut room",
             "&mut u8": "&mut last", "&mut u32": "&mut literal", "&mut usize": "&mut length",
             "&mut bool": "&mut confirmed", "&mut AigLive": "&mut bench", "&mut AigReport": "&mut report",
             "&mut AigSizes": "&mut sizes", "&[AigEdit]": "&[]", "&[AigCell]": "&[]", "&[u32]": "&[]"}

MAIN = """
fn main(rt: HostRuntime) -> std::io::Result<()> {
    let mut room = [0u8; 64];
    let mut length = 0usize;
    let mut literal = 0u32;
    let mut confirmed = false;
    let mut bench = crate::live::AigLive::closed(rt.alloc());
    let mut report = crate::live::AigReport { evaluated: 0, changed: 0 };
    let mut sizes = crate::live::AigSizes {
        frames: 0, inputs: 0, latches: 0, outputs: 0, gates: 0, max_var: 0 };
    let mut last = 0u8;
%s    println!(rt; "{last} {length} {confirmed} {literal}")
}
"""

# The crate has no struct without a bench of its own: C makes it.
CLOSED = """
impl AigLive {
    pub(crate) fn closed(alloc: Global) -> AigLive {
        AigLive { seat: Seat::empty(alloc), present: false }
    }
}
"""


def call(export):
    """Returns the line that calls an export."""
    types = re.findall(r"\w+: ([^,()]+)", export.head.partition("(")[2])
    arguments = ", ".join(ARGUMENTS[kind.strip()] for kind in types)
    return f"    last = crate::{export.module.partition('::')[0]}::{export.name}({arguments});\n"


def copy(room):
    """Makes the copy of the repository, in which aig_c is a program."""
    parts = shutil.ignore_patterns("out", "must-fail", "data")
    shutil.copytree(ROOT / "crates", room / "crates", ignore=parts)
    source = room / "crates" / "aig_c" / "src"
    (source / "lib.rt").unlink()
    crate = Crate("aig_c")
    text = re.sub(r"(?m)^pub use [^;]*;\n", "", crate.texts["lib"])
    (source / "main.rt").write_text(text + MAIN % "".join(map(call, crate.exports())))
    with open(source / "live" / "handle.rt", "a", encoding="utf-8") as file:
        file.write(CLOSED)
    for name in ("crates.txt", "HANDLES"):
        shutil.copy(ROOT / name, room)


def main():
    if len(sys.argv) != 2:
        sys.exit(__doc__)
    with tempfile.TemporaryDirectory() as room:
        copy(pathlib.Path(room))
        archive = f"{room}/libaig_c.a"
        words = [ROOT / "tools" / "build_unproved.sh", room, "aig_c", archive]
        built = subprocess.run(words, check=False, timeout=c_library.SECONDS)
        if built.returncode:
            sys.exit(built.returncode)
        c_library.link(archive, os.path.abspath(sys.argv[1]))


if __name__ == "__main__":
    main()
