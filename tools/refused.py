"""The sums of the crates whose planted bugs were all refused, in refused.txt."""

import functools
import hashlib
import re
import sys

import gate
from judge.bugs import bugs_of
from judge.crates import ROOT

REFUSED = ROOT / "tools" / "refused.txt"
# What decides whether a bug is refused, beside the toolchain.
JUDGE = (*sorted((ROOT / "tools" / "judge").glob("*.py")),
         *(ROOT / "tools" / "sources" / name for name in ("clauses.py", "planted.py")))
# The files of a library's proofs/ that are of one function's proof: no other crate can cite them.
UNCITED = ("Answers.antt", "Invariants.antt", "Proof.antt")
HEAD = "# The crates whose planted bugs were all refused, and the sum of their files then: see planted.py --record\n"


def sum_of(folder, parts):
    """Returns the SHA-256 of the files of these parts of a crate's folder."""
    total = hashlib.sha256()
    for name in (it for part in parts for it in sorted((folder / part).rglob("*"))):
        if name.is_file():
            total.update(f"{name.relative_to(folder)} {hashlib.sha256(name.read_bytes()).hexdigest()}\n".encode())
    return total.hexdigest()


@functools.lru_cache(maxsize=None)
def cited_sum(library):
    """Returns the SHA-256 of what crates above can cite of a proved library: its interface, its contracts, definitions
    and lemmas. A row of made.json has the name and the sum of a module that the toolchain made."""
    total = hashlib.sha256()
    parts = [library / "interface", library / "lang" / "antt" / "specs", library / "lang" / "antt" / "proofs"]
    for name in (it for part in parts for it in sorted(part.rglob("*"))):
        if name.is_file() and name.name not in UNCITED:
            total.update(f"{name.relative_to(library)} {hashlib.sha256(name.read_bytes()).hexdigest()}\n".encode())
    made = (library / "toolchain" / "made.json").read_text()
    modules = re.findall(r'(?m)^\["((?:facade|specs)(?:/[^"]*)?)",\d+,\d+,"(\w+)"', made)
    if {"facade", "specs"} - {name for name, _ in modules} or not (library / "interface").is_dir():
        raise ValueError(f"{library} is not laid out as it was: what can be cited of it is not known")
    total.update("".join(f"{name} {made_sum}\n" for name, made_sum in modules).encode())
    return total.hexdigest()


@functools.lru_cache(maxsize=None)
def sum_of_judge():
    """Returns the SHA-256 of what decides whether a bug is refused."""
    each = [gate.asked("rt", "version") or sys.exit("rt does not say its version"), *(it.read_text() for it in JUDGE)]
    return hashlib.sha256("\0".join(each).encode()).hexdigest()


def listed_for(crate):
    """Returns the lines of crates.txt about a crate and those below it."""
    names = {crate.name, *crate.below}
    lines = [line.partition("#")[0].strip() for line in (ROOT / "crates.txt").read_text().splitlines()]
    return sorted(line for line in lines if line and line.partition(":")[0].split()[0] in names)


def sum_for(crate):
    """Returns the SHA-256 of what the planted bugs of a crate are tried on: those in the gate, the parts of its folder
    that a check reads, its lines in crates.txt, what it can cite of the proved libraries below, and what judges the
    bugs."""
    below = [f"{name} {cited_sum(crate.libraries[name])}" for name in sorted(crate.below)]
    own = [*map(repr, bugs_of(crate.name, with_more=False)), sum_of(crate.folder, crate.parts), *listed_for(crate)]
    return hashlib.sha256("\n".join([sum_of_judge(), *own, *below]).encode()).hexdigest()


def recorded():
    """Returns the sums in refused.txt, by crate."""
    lines = REFUSED.read_text().splitlines() if REFUSED.exists() else []
    return dict(line.split() for line in lines if not line.startswith("#"))


def record(refused, file=REFUSED):
    """Puts the sums of crates beside those of refused.txt, in this file."""
    kept = {name: total for name, total in recorded().items() if (ROOT / "crates" / name).is_dir()}
    lines = [f"{name} {total}\n" for name, total in sorted({**kept, **refused}.items())]
    file.parent.mkdir(exist_ok=True)
    file.write_text(HEAD + "".join(lines))
