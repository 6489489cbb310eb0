#!/usr/bin/env python3
"""What becomes of concurrent assertions that none of us wrote: those of the test suites of Yosys and Verilator, which
Debian's source packages have. `apt-get` fetches them into FOLDER, and needs lines `deb-src` in its sources.

It prints a line for each file that Yosys does not read as it is, and that has a concurrent assertion: whether Yosys reads
the translation (without `$finish` and `$stop`, which it does not know outside of `initial`), which line and word the
translation rejects, or what Yosys says of it. Then it has `aig-verdicts` find the verdicts of Yosys' tests/sva: each
assertion holds, and one of each file fails if the macro FAIL is defined. The status is 1 if a verdict is another one.

usage: foreign_assertions.py FOLDER [PROGRAM]. It needs yosys, cadical and ABC."""

from __future__ import annotations

import argparse
import json
import os
import re
import subprocess
import sys
import tempfile
from collections import Counter
from pathlib import Path
from typing import Dict, Iterator, List

from foreign.packages import PACKAGES, Package, sources, unpacked
from library import supervised

REPOSITORY = Path(__file__).resolve().parent.parent
sys.path.insert(0, str(REPOSITORY / "verdicts" / "tests"))
from paths import PYTHONPATH  # noqa: E402
from aig_verdicts.sva.translation import Untranslated, translated  # noqa: E402

SUITES = {("yosys", "0.23-6"): "tests/sva", ("verilator", "5.006-3"): "test_regress/t"}
CONCURRENT = re.compile(r"(?m)\b(?:assert|assume|cover|restrict)\s+(?:property|sequence)\b|^\s*(?:property|sequence)\b")
ENDS = re.compile(r"\$(?:finish|stop)\b\s*(?:\(\s*\d*\s*\))?\s*;")
READ, REJECTED, NOT_BY_YOSYS = "read", "rejected by line and word", "not read by Yosys for another reason"


def suite(package: Package, folder: Path) -> Path:
    return unpacked(package, folder) / SUITES[package.name, package.version]


def files(folder: Path) -> Iterator[Path]:
    """The files with concurrent assertions."""
    for package in PACKAGES:
        if (package.name, package.version) in SUITES:
            root = suite(package, folder)
            if not root.is_dir():
                print(f"left out: {package.label}: apt-get did not fetch its sources", flush=True)
            paths = [it for it in sources(package._replace(skipped=()), unpacked(package, folder)) if it.parent == root]
            yield from (it for it in paths if CONCURRENT.search(it.read_text(encoding="latin-1")))


def included(path: Path) -> Dict[str, str]:
    """The texts of a file and of those beside it that it includes, by their names."""
    text = path.read_text(encoding="latin-1")
    paths = [path.parent / it for it in re.findall(r'`include\s+"([^"]+)"', text)]
    return {path.name: text, **{it.name: it.read_text(encoding="latin-1") for it in paths if it.is_file()}}


def said_by_yosys(texts: Dict[str, str], name: str) -> str:
    """The first error of Yosys; nothing if it reads a file."""
    with tempfile.TemporaryDirectory() as folder:
        for each, text in texts.items():
            Path(folder, each).write_text(text, encoding="latin-1")
        words = ["yosys", "-q", "-p", f"read_verilog -sv -formal {name}; proc; stat"]
        done = supervised.run(words, cwd=folder, stdin=subprocess.DEVNULL, capture_output=True, text=True, check=False)
    error = next((it for it in (done.stderr + done.stdout).splitlines() if "ERROR" in it), f"status {done.returncode}")
    return error if done.returncode else ""


def outcome(path: Path) -> str:
    """What becomes of a file, and why."""
    texts = included(path)
    try:
        texts.update(translated(texts, [path.name], []).texts)
    except Untranslated as error:
        return f"{REJECTED}: {str(error).splitlines()[0]}"
    error = said_by_yosys({name: ENDS.sub(";", text) for name, text in texts.items()}, path.name)
    return f"{NOT_BY_YOSYS}: {error}" if error else READ


def verdicts(path: Path, macros: List[str], program: str) -> str:
    """`holds`, `fails`, or why there are no verdicts."""
    with tempfile.TemporaryDirectory() as folder:
        words = [sys.executable, "-m", "aig_verdicts", "run", str(path), "--top", "top", *macros, "-o", f"{folder}/out"]
        settings = {**os.environ, "AIG_PROGRAM": program, "PYTHONPATH": PYTHONPATH}
        done = supervised.run([*words, "--no-simulator", "-j", "1"], env=settings, stdin=subprocess.DEVNULL,
                              capture_output=True, text=True, check=False, timeout=supervised.SCRIPT_SECONDS)
        if not Path(folder, "out", "MANIFEST.json").exists():
            return f"no verdicts: {done.stderr.splitlines()[0]}"
        rows = json.loads(Path(folder, "out", "MANIFEST.json").read_text())["rows"]
    found = {row["result"] for row in rows if row["kind"] == "assert"}
    return "fails" if "fails" in found else " and ".join(sorted(found))


def main() -> int:
    parser = argparse.ArgumentParser(description=__doc__, formatter_class=argparse.RawDescriptionHelpFormatter)
    parser.add_argument("folder", type=Path, metavar="FOLDER")
    parser.add_argument("program", nargs="?", metavar="PROGRAM", default=str(REPOSITORY / "crates/aig/out/aig"))
    given = parser.parse_args()
    counts: Counter[str] = Counter()
    for path in files(given.folder):
        if said_by_yosys(included(path), path.name):
            found = outcome(path)
            counts[found.partition(":")[0]] += 1
            print(f"{path.name}: {found}", flush=True)
    wrong: Counter[str] = Counter()
    for path in sorted(suite(PACKAGES[0], given.folder).glob("*.sv")):
        for macros, wanted in ([], "holds"), (["-DFAIL"], "fails"):
            found = verdicts(path, macros, os.path.abspath(given.program))
            kind = "right" if found == wanted else "no verdicts" if found.startswith("no verdicts") else "wrong"
            wrong[kind] += 1
            print(f"{path.name} {' '.join(macros)}: {found if kind == 'no verdicts' else f'{kind}: {found}'}", flush=True)
    print(f"files: {dict(counts)}; verdicts: {dict(wrong)}")
    return 1 if wrong["wrong"] else 0


if __name__ == "__main__":
    sys.exit(main())
