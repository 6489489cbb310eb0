#!/usr/bin/env python3
"""Tests that each crate of others serves what it was asked for: arguments, digits, ends of lines, lists of readers,
symbols, faults. A crate must not be dropped to save time, or stay in crates.txt without its work.

Each row of SERVES names the crate, its work, the file that does the work, and the call that shows it. The rule for
`thiserror` is of all files: a type with a message derives `Error`, and no file implements it by hand."""

import collections
import re
import sys

from sources.specs import ROOT

CRATES = ROOT / "crates"
Service = collections.namedtuple("Service", "crate work file call")
SERVES = (
    Service("clap", "arguments of the command line", "aig_cli/src/subcommands.rt", r"\bCommand::new\("),
    Service("itoa", "decimal digits", "aig_bytes/src/digits.rt", r"\bwrite_digits\("),
    Service("memchr", "ends of lines", "aig_bytes/src/line.rt", r"\bmemchr\("),
    Service("smallvec", "lists of the gates that read a variable", "aig_base/src/readers/gate_lists.rt",
            r"\bSmallVec<"),
    Service("indexmap", "symbols", "aig_parts/src/symbols/table.rt", r"\bIndexMap<"),
)
# A fault that a message shows, with its attributes and the lines before it.
FAULT = re.compile(r"((?:^[ \t]*(?:#|//).*\n)*)^pub (?:enum|struct) (\w*Fault|Memory|Io)\b", re.MULTILINE)
BY_HAND = re.compile(r"^impl\b.*\bError for (\w+)", re.MULTILINE)
DISPLAY = re.compile(r"^impl\b.*\bDisplay for (\w+)", re.MULTILINE)


def libraries():
    """Returns what crates.txt gives each crate."""
    lines = re.findall(r"(?m)^(\w+)[^:\n]*:(.*)$", (ROOT / "crates.txt").read_text(encoding="utf-8"))
    return {name: of.split() for name, of in lines}


def wrong_services():
    """Yields each service that is missing."""
    listed = libraries()
    for it in SERVES:
        text = re.sub(r"//.*", "", (CRATES / it.file).read_text(encoding="utf-8"))
        if it.crate not in listed[it.file.split("/")[0]] or not re.search(it.call, text):
            yield f"{it.file} does not use {it.crate} for {it.work}"


def wrong_faults():
    """Yields each fault whose message does not come from `thiserror`."""
    for path in sorted(CRATES.glob("*/src/**/*.rt")):
        text, place = path.read_text(encoding="utf-8"), path.relative_to(CRATES)
        derived = {name for lines, name in FAULT.findall(text) if re.search(r"derive\([^)]*\bError\b", lines)}
        for name in BY_HAND.findall(text):
            yield f"{place}: {name} implements Error by hand, and does not derive it"
        for name in DISPLAY.findall(text):
            if re.fullmatch(r"\w*Fault|Memory|Io", name) and name not in derived:
                yield f"{place}: {name} writes its message by hand, and does not derive it"


def main():
    wrong = [*wrong_services(), *wrong_faults()]
    for line in wrong:
        print(line)
    if not wrong:
        print("each crate of others serves what it was asked for, and each fault derives its message")
    return 1 if wrong else 0


if __name__ == "__main__":
    sys.exit(main())
