#!/usr/bin/env python3
"""Makes the library for C of the crate `aig_c`: libaig.a and libaig.so, which need the C library alone and export the
calls of include/aig.h alone.

  c_library.py prove ARCHIVE PROOFS   makes an archive of the crate once an `rt ci` that runs, whose output so far is
                                      in PROOFS, has proved all libraries below it. That proves the crate again, as
                                      a static library, and there is no archive unless it is proved
  c_library.py link ARCHIVE [FOLDER]  links the library from an archive of the crate, into FOLDER, or into
                                      crates/aig_c/out/lib"""

import glob
import os
import pathlib
import shutil
import subprocess
import sys
import tempfile
import time

import gate
import planted

CRATE_NAME = "aig_c"
CRATE = f"{gate.ROOT}/crates/{CRATE_NAME}"
NAMES = ("libaig.a", "libaig.so")
SONAME = "libaig.so.0"
# how long a command may take: one of them proves a crate
SECONDS = 7200
# the library shows these names alone
SHOWN = "{ global: aig_*; local: *; };\n"


def toolchain():
    """Returns the folder of the toolchain."""
    page = gate.asked("rt", "doc")
    return os.path.dirname(page) if page else sys.exit("rt is not on the path")


def run(*words, folder=None):
    """Runs a command. Where it fails, its output is shown, and the script ends."""
    done = subprocess.run(words, cwd=folder, stdin=subprocess.DEVNULL, stdout=subprocess.PIPE, stderr=subprocess.STDOUT,
                          errors="replace", text=True, check=False, timeout=SECONDS)
    if done.returncode:
        sys.exit(f"{done.stdout}\n{words[0]} failed")
    return done.stdout


def link(archive, folder):
    """Links the library from an archive of the crate. The archive calls three functions of the toolchain, which ask
    malloc, realloc and free. They go into libaig.a, so a program needs nothing else."""
    os.makedirs(folder, exist_ok=True)
    with tempfile.TemporaryDirectory() as room:
        whole, shown = f"{room}/aig.o", f"{room}/shown"
        with open(shown, "w", encoding="ascii") as file:
            file.write(SHOWN)
        run("ld", "-r", "-o", whole, "--whole-archive", archive, "--no-whole-archive", f"{toolchain()}/c/liblibc_c.a")
        run("objcopy", "--wildcard", "--keep-global-symbol=aig_*", whole)
        static, shared = (f"{room}/{name}" for name in NAMES)
        run("ar", "rcsD", static, "aig.o", folder=room)
        run("cc", "-shared", "-Wl,-s", "-Wl,--no-undefined", "-Wl,-z,relro,-z,now", f"-Wl,-soname,{SONAME}",
            f"-Wl,--version-script={shown}", "-Wl,--whole-archive", static, "-Wl,--no-whole-archive", "-o", shared)
        for name in NAMES:
            shutil.copy(f"{room}/{name}", f"{folder}/{name}")


def wait(proofs):
    """Waits until the libraries below the crate are proved, by the output of an `rt ci` that runs."""
    while not planted.proved_in(proofs) >= set(below(CRATE_NAME)):
        time.sleep(2)


def prove(archive):
    """Builds the archive of the crate from the proved libraries below it."""
    kit = toolchain()
    libraries = sorted(glob.glob(f"{gate.ROOT}/crates/*/out/rlib/*.rlib"))
    words = [f"{kit}/bin/rattle", "build", "--crate-name", CRATE_NAME, "--crate-type", "staticlib", "src/lib.rt"]
    for library in [*sorted(glob.glob(f"{kit}/rlibs/*.rlib")), *libraries]:
        name = os.path.basename(library).removesuffix(".rlib")
        if name in libraries_of(CRATE_NAME) or name == "std":
            words += ["--extern", f"{name}={library}"]
        if name != CRATE_NAME:
            words += ["-L", f"dependency={os.path.dirname(library)}"]
    words += ["--antt-project", f"{kit}/rattle/logic/antt-project.json", "--logic-built", f"{kit}/logic_built"]
    said = run(*words, "--toolchain", f"{kit}/toolchain", "-o", os.path.abspath(archive), folder=CRATE)
    print(said.rstrip().rpartition("\n")[2])


def libraries_of(crate):
    """Returns the libraries that crates.txt lists for a crate."""
    with open(gate.ROOT + "/crates.txt", encoding="utf-8") as file:
        lines = [line.partition(":") for line in file if line.split(":")[0].split()[:1] == [crate]]
    return lines[0][2].split() if lines else []


def below(crate):
    """Yields the libraries of the repository below a crate."""
    for name in libraries_of(crate):
        if os.path.isdir(f"{gate.ROOT}/crates/{name}"):
            yield name
            yield from below(name)


def main(words):
    if words[:1] == ["prove"] and len(words) == 3:
        wait(pathlib.Path(words[2]))
        prove(words[1])
    elif words[:1] == ["link"] and len(words) in (2, 3):
        link(words[1], words[2] if len(words) == 3 else gate.PROVED_LIBRARY)
    else:
        sys.exit(__doc__)


if __name__ == "__main__":
    main(sys.argv[1:])
