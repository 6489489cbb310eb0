#!/usr/bin/env python3
"""Counts the lines of contracts that repeat a clause of their file, and prints the files that have most of them.

  repeated.py [--most N]

A clause is a `requires` or an `ensures` of a function, with what it says; its name does not count, nor blanks. It is
repeated if an earlier function of the same file has one that says the same. All its lines count then. The script reads
text and proves nothing."""

import argparse
import collections
import re
import sys

from sources.clauses import signature
from sources.specs import ROOT

FUNCTION = re.compile(r"(?m)^ *(?:pub(?:\(crate\))? )?(?:const |unsafe |extern \"C\" )*fn \w+")


def clauses(text):
    """Yields the clauses of the functions in a source: what each says, and how many lines it has."""
    text = "\n" + re.sub(r"(?m)//.*$", "", text)
    for at in FUNCTION.finditer(text):
        _, found = signature(text, at.start() + len(at[0]) - len(at[0].lstrip()))
        for head, says in found:
            yield f"{head.split()[0]} {' '.join(says.split())}", 1 + says.count("\n")


def repeated(text):
    """How many lines of clauses a source has, and how many of them repeat one."""
    seen, lines, again = set(), 0, 0
    for says, count in clauses(text):
        lines += count
        again += count if says in seen else 0
        seen.add(says)
    return lines, again


def main():
    reader = argparse.ArgumentParser(description=__doc__, formatter_class=argparse.RawDescriptionHelpFormatter)
    reader.add_argument("--most", type=int, default=20, help="how many files it prints (else 20)")
    chosen = reader.parse_args()
    found, lines = collections.Counter(), 0
    for path in sorted((ROOT / "crates").glob("*/src/**/*.rt")):
        all_lines, again = repeated(path.read_text(encoding="utf-8"))
        lines += all_lines
        found[str(path.relative_to(ROOT))] = again
    for name, again in found.most_common(chosen.most):
        print(f"{again:5} {name}")
    print(f"{sum(found.values())} of {lines} lines of contracts repeat a clause of their file")
    return 0


if __name__ == "__main__":
    sys.exit(main())
