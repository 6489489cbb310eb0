"""The programs that are measured. Each is built when it is first wanted."""

import os
import shutil
import sys

from library import supervised
from library.runs import REPOSITORY
from tables.runs import LONGEST

BENCHMARKS = REPOSITORY + "/benchmarks"
# Programs in C++, by their sources.
COMPILED = {"tuned": "benchmarks/tuned/main.cpp", "limits": "benchmarks/tuned/limits.cpp",
            "used": "benchmarks/tuned/used.cpp",
            "drat2lrat": "tests/hints/drat2lrat.cpp", "lrat_check": "tests/hints/lrat_check.cpp"}
# Programs in Rattle that are no crates of the repository, and their libraries.
BESIDE = {"growth": "aig_base aig_format anyhow", "grids": "aig_base aig_sim anyhow"}


class Programs:
    """The programs by their names; `aig` is the one that is named, if one is."""

    def __init__(self, aig):
        self.named = aig
        self.found = {}

    def get(self, name):
        if name not in self.found:
            print(f"{name} ..", file=sys.stderr)
            self.found[name] = self.made(name)
        return self.found[name]

    def made(self, name):
        if name in COMPILED:
            return compiled(name)
        if name in BESIDE:
            return beside(name)
        proved = f"{REPOSITORY}/crates/{name}/out/{name}"
        if name == "aig" and self.named:
            return os.path.abspath(self.named)
        other = f"{os.path.dirname(self.named)}/{name}" if self.named else proved
        return next((it for it in (other, proved) if os.access(it, os.X_OK)), None) or unproved(name, REPOSITORY)

    def kind(self):
        said = supervised.run([self.get("aig"), "--version"], capture_output=True, text=True, check=False).stderr
        kind = "built without proofs, an estimate of the proved program" if "not proved" in said else "proved"
        return f"{self.get('aig')}, {kind}"


def compiled(name):
    """A program in C++. It is linked as `aig` is, without libraries that are found when it starts."""
    program = os.path.abspath(name)
    words = ["c++", "-O2", "-static", "-std=c++17", "-o", program, f"{REPOSITORY}/{COMPILED[name]}"]
    supervised.run(words, check=True, timeout=LONGEST)
    return program


def beside(name):
    """A Rattle program that is no crate of the repository: it is one in a copy. Its file has another ending here, since
    `rt ci` refuses a .rt file that no check reads."""
    copy = os.path.abspath("repository")
    shutil.rmtree(copy, ignore_errors=True)
    shutil.copytree(REPOSITORY + "/crates", copy + "/crates", ignore=shutil.ignore_patterns("out"))
    os.makedirs(f"{copy}/crates/{name}/src")
    shutil.copy(f"{BENCHMARKS}/{name}.rt.in", f"{copy}/crates/{name}/src/main.rt")
    shutil.copy(REPOSITORY + "/crates.txt", copy)
    with open(copy + "/crates.txt", "a", encoding="ascii") as file:
        file.write(f"{name}: {BESIDE[name]}\n")
    return unproved(name, copy)


def unproved(name, repository):
    program = os.path.abspath(name)
    if not os.path.exists(program):
        supervised.run([REPOSITORY + "/tools/build_unproved.sh", repository, name, program], check=True,
                       timeout=LONGEST)
    return program
