#!/usr/bin/env python3
"""Pairs of versions of a design, forward and back: `run --since` finds the truth that is written by hand beside each
pair, its changes and its exit status are those that are written there, and Icarus Verilog sees each failing run. The
same changes come from `compare`. It needs yosys, cadical and iverilog."""

import contextlib
import functools
import os
import shutil
import tempfile
from pathlib import Path

import paths  # noqa: F401
from bundles.common import called, manifest_of
from library import runs
from versions.pairs import BASE, LAST, PAIRS, TRUTH

KEPT = tempfile.TemporaryDirectory()
WORDS = ("--frames", "8", "-j", "2", "-q")


def sources_of(pair):
    """The files of a version, and the line of its assertion without a label."""
    text = BASE
    for old, new in pair.edits if pair else ():
        assert old in text, (pair.name, old)
        text = text.replace(old, new)
    folder = Path(pair.name if pair else "base")
    folder.mkdir()
    files = [folder / "queue.v"]
    files[0].write_text(text)
    if pair and pair.more:
        files.append(folder / "more.v")
        files[1].write_text(pair.more)
    line = text[: text.index(LAST)].count("\n") + 1
    return files, f"queue.v:{line}"


def results(folder):
    """The words of each assertion and cover."""
    return {it["name"]: it["result"] for it in manifest_of(folder)["rows"] if it["kind"] in ("assert", "cover")}


def changes(out):
    """The changes in a table, by name."""
    lines = [line.split("  ") for line in out.partition("\n\n")[2].splitlines()]
    cells = [[cell.strip() for cell in line if cell.strip()] for line in lines]
    return {line[2]: line[0] for line in cells}


@functools.lru_cache(maxsize=None)
def base():
    """The folder with BASE and its results, its files, and the name of the assertion without a label."""
    folder = Path(KEPT.name).resolve()
    with contextlib.ExitStack() as stack:
        here = os.getcwd()
        stack.callback(os.chdir, here)
        os.chdir(folder)
        files, unlabelled = sources_of(None)
        found = called("run", *files, "-o", "old", *WORDS)
    return found, [folder / it for it in files], unlabelled


def on_pair(pair):
    """The part of a pair."""
    def part(program, tally, _):
        for name in ("yosys", "cadical", "iverilog"):
            if shutil.which(name) is None:
                raise runs.LeftOut(f"there is no {name}")
        os.environ["AIG_PROGRAM"] = program.path
        (status, _, err), files, unlabelled = base()
        shutil.copytree(Path(KEPT.name, "old"), "old")
        wanted = {name or unlabelled: word for name, word in TRUTH.items()}
        tally.compare(f"base: {err}", (status, results("old")), (5, wanted))
        seen_in_simulator(tally, "base", "old")
        of_pair(tally, pair, wanted, files, unlabelled)

    part.__doc__ = f"The edit {pair.name}, forward and back."
    return part


def of_pair(tally, pair, base, base_files, base_unlabelled):
    files, unlabelled = sources_of(pair)
    wanted = {name or unlabelled: word for name, word in {**TRUTH, **pair.truth}.items() if word}
    _, out, err = status_of(tally, pair.name, pair.forward, "run", *files, "--since", "old", "-o", "new", *WORDS)
    tally.compare(f"{pair.name}: the truth: {err}", results("new"), wanted)
    tally.compare(f"{pair.name}: forward", named(changes(out), unlabelled), pair.forward[1])
    seen_in_simulator(tally, pair.name, "new")
    _, out, _ = status_of(tally, f"{pair.name}, back", pair.back, "run", *base_files, "--since", "new", "-o", "again",
                          "--no-simulator", *WORDS)
    tally.compare(f"{pair.name}: the truth, back", results("again"), base)
    tally.compare(f"{pair.name}: back", named(changes(out), base_unlabelled), pair.back[1])
    status_of(tally, f"{pair.name}, compared", pair.forward, "compare", "old", "new", "-j", "2")


def status_of(tally, name, wanted, *words):
    found = called(*words)
    tally.compare(f"{name}: the status: {found[2]}", found[0], wanted[0])
    return found


def named(found, unlabelled):
    return {("" if name == unlabelled else name): word for name, word in found.items()}


def seen_in_simulator(tally, name, folder):
    """Each run fails in the simulator, too, and nothing is denied."""
    manifest = manifest_of(folder)
    said = manifest["simulated"]
    ran = {str(it["position"]) for it in manifest["rows"] if it.get("by") == "run" and it["kind"] in ("assert", "cover")}
    agreed = {at for at, (word, _) in said["rows"].items() if word == "agrees"}
    tally.compare(f"{name}: Icarus Verilog", (said["agrees"], ran - agreed), (True, set()))


PARTS = {pair.name: on_pair(pair) for pair in PAIRS}

if __name__ == "__main__":
    runs.main(__doc__, PARTS)
