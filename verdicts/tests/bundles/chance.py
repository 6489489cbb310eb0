"""A forger by chance: what a bundle says is changed at random, and all sums are made right. What `recheck` accepts may
say no more than what is true."""

from __future__ import annotations

import copy
import json
import random
import re
import resource
import shutil
import xml.etree.ElementTree as tree
from pathlib import Path

from bundles.common import HERE, SMALL_SOLVER, called, kept, manifest_of, write_manifest

# The words of tables.
WORDS = ("holds", "fails", "vacuous", "reached", "never reached", "undecided", "left out")
# Those that say nothing.
OPEN = ("undecided", "left out")
# What a field may become, beside what a field of its name is elsewhere.
VALUES = ("", None, True, False, 0, 1, 2, 3, 4, 5, -1, [], {})
# How a row was decided.
DECIDED = ("verdict", "by", "frames", "files", "commands", "result", "needed", "needs")
# Files that no field of a manifest names.
NAMED_BY_NOTHING = ("circuit.aig", "yosys.ys")
# What a doubt of a row begins with.
DOUBT = "whether"
BOUND = re.compile(r"(?:holds|not reached) within (\d+)")
MOST_FRAMES = 1 << 30


def fields(value, path=()):
    """Yields the place of each field of a manifest."""
    pairs = value.items() if isinstance(value, dict) else enumerate(value) if isinstance(value, list) else ()
    for key, each in pairs:
        yield (*path, key)
        yield from fields(each, (*path, key))


def holder(manifest, path):
    """What has the last field of a place."""
    for key in path[:-1]:
        manifest = manifest[key]
    return manifest


class Forger:
    """A bundle in a folder, whose manifest and files are changed."""

    def __init__(self, folder, chance):
        self.folder, self.chance = folder, chance
        self.manifest = manifest_of(folder)
        self.files = sorted(name for name in self.manifest["sums"] if name != "circuit.aig")
        self.left = {}

    def forge(self):
        """One to three changes."""
        for _ in range(self.chance.randint(1, 3)):
            self.chance.choice((self.field, self.field, self.without, self.row, self.decided, self.decided, self.file))()

    def place(self):
        """The place of a field. Sums are made right, so none of them is changed."""
        return self.chance.choice([place for place in fields(self.manifest) if place[0] != "sums"])

    def rows(self):
        rows = self.manifest.get("rows")
        return [row for row in rows if isinstance(row, dict)] if isinstance(rows, list) else []

    def field(self):
        """A field becomes what a field of this name is elsewhere, or another value."""
        path = self.place()
        alike = [holder(self.manifest, it)[it[-1]] for it in fields(self.manifest) if it[-1] == path[-1]]
        value = self.chance.choice(self.chance.choice((alike, VALUES)))
        holder(self.manifest, path)[path[-1]] = copy.deepcopy(value)

    def without(self):
        """A field is not there any more."""
        path = self.place()
        del holder(self.manifest, path)[path[-1]]

    def row(self):
        """A row is dropped, told twice, or moved."""
        rows = self.rows()
        if rows:
            row, how = self.chance.choice(rows), self.chance.choice(("drop", "twice", "move"))
            if how != "twice":
                rows.remove(row)
            if how != "drop":
                rows.insert(self.chance.randrange(len(rows) + 1), copy.deepcopy(row))
            self.manifest["rows"] = rows

    def decided(self):
        """A row is decided as another one, or by nothing."""
        rows = self.rows()
        if len(rows) > 1:
            one, other = self.chance.sample(rows, 2)
            for key in DECIDED:
                one.pop(key, None)
                if key in other:
                    one[key] = copy.deepcopy(other[key])
            if self.chance.random() < 0.5:
                one.update(verdict=self.chance.choice(("undecided", "left out")), by="", commands=[])
                one.pop("files", None)
                one.pop("frames", None)

    def file(self):
        """A file gets what another one has, a part of what it has, or another byte."""
        path = self.folder / self.chance.choice(self.files)
        data, how = bytearray(path.read_bytes()), self.chance.choice(("other", "part", "byte"))
        if how == "other":
            data = (self.folder / self.chance.choice(self.files)).read_bytes()
        elif how == "part":
            del data[self.chance.randrange(len(data) + 1):]
        elif data:
            data[self.chance.randrange(len(data))] ^= 1 << self.chance.randrange(8)
        path.write_bytes(data)

    def accepted(self):
        """The rows that `recheck` prints, its status, and the places of the rows that it doubts; None where it rejects the
        bundle. Where it says that a result is another one, the forger tries all words."""
        while True:
            self.drop_unnamed()
            write_manifest(self.folder, self.manifest)
            status, out, err = called("recheck", self.folder, "--json", "--jobs", 1, "--junit", "said.xml")
            if status in (0, 4, 5):
                return json.loads(out)["rows"], status, doubts("said.xml")
            label = err.strip().rpartition(": result of ")[2]
            row = next((it for it in self.rows() if f"b{it.get('position')}" == label), None)
            if row is None or not self.another(row, label):
                return None

    def drop_unnamed(self):
        """Only files that are named have a sum."""
        text = json.dumps({key: value for key, value in self.manifest.items() if key != "sums"})
        self.manifest["sums"] = {name: value for name, value in self.manifest["sums"].items()
                                 if json.dumps(name.rpartition("/")[2]) in text or name in NAMED_BY_NOTHING}

    def another(self, row, label):
        """Gives a row another word as its result. False where all were tried."""
        if label not in self.left:
            bounds = [f"{word} within {frames}" for word in ("holds", "not reached") for frames in range(1, 6)]
            self.left[label] = [None, *bounds, *WORDS]
        if not self.left[label]:
            return False
        row["result"] = self.left[label].pop()
        if row["result"] is None:
            del row["result"]
        return True


def doubts(path):
    """The places of the rows of a table of JUnit that say that something is not known."""
    cases = tree.parse(path).getroot().iter("testcase")
    said = [" ".join([*case.itertext(), *(it.get("message", "") for it in case)]) for case in cases]
    return {place for place, text in enumerate(said) if DOUBT in text}


def is_true(row, true, is_doubted):
    """Whether a row of an accepted table says what is true of it, or less."""
    result, right = row.get("result"), true.get("result")
    if any(row.get(key) != true.get(key) for key in ("position", "kind", "name", "of")):
        return False
    if result == right or result in OPEN:
        return True
    bound, known = (BOUND.fullmatch(str(it)) for it in (result, right))
    if bound:
        shorter = true["frames"] - 1 if true["by"] == "run" else MOST_FRAMES
        return int(bound[1]) <= (int(known[1]) if known else shorter)
    return right == "vacuous" and result in ("holds", "never reached") and is_doubted


def wanted_status(rows, doubted):
    """The status that these rows ask for."""
    if any(row["result"] in ("fails", "never reached") for row in rows):
        return 5
    return 4 if doubted or any(row["result"] not in ("holds", "reached") for row in rows) else 0


def wrong_in(accepted, true):
    """What an accepted table says that is not true; nothing if it says no more than the right one."""
    rows, status, doubted = accepted
    table = [row for row in rows if row["kind"] in ("assert", "cover")]
    wanted = [row for row in true if row["kind"] in ("assert", "cover")]
    if len(rows) != len(true) or len(table) != len(wanted):
        return f"{len(table)} of {len(wanted)} rows"
    for place, (row, right) in enumerate(zip(table, wanted)):
        if not is_true(row, right, place in doubted):
            return f"{right['name']}: {row.get('name')} {row.get('result')}, and it is {right['result']}"
    asked = wanted_status(table, doubted)
    return "" if status == asked else f"status {status}, and it is {asked}"


def right_bundles():
    """The bundles that are forged, in the current folder: two that are kept, and one with assumptions that a run keeps."""
    words = (HERE / "needs.aag", "--abc", "", "--solver", SMALL_SOLVER, "--frames", 4, "-q")
    called("run", *words, "--out", "assumed.verdicts")
    return [kept("every"), kept("contradiction"), Path("assumed.verdicts")]


def used():
    """Processor seconds, with those of programs."""
    return sum(usage.ru_utime + usage.ru_stime
               for usage in map(resource.getrusage, (resource.RUSAGE_SELF, resource.RUSAGE_CHILDREN)))


def by_chance(_, tally, words):
    """Bundles are forged at random, and what `recheck` accepts says no more than the right one."""
    began, accepted = used(), 0
    bundles = [(path, manifest_of(path)["rows"]) for path in right_bundles()]
    for path, true in bundles:
        tally.compare(f"chance: {path.stem} is right", wrong_in(Forger(path, random.Random(0)).accepted(), true), "")
    for seed in range(words.seed, words.seed + words.count):
        if used() - began > words.seconds:
            break
        for path, true in bundles:
            folder = Path("forged.verdicts")
            shutil.rmtree(folder, ignore_errors=True)
            shutil.copytree(path, folder)
            forger = Forger(folder, random.Random(f"{path.stem} {seed}"))
            forger.forge()
            found = forger.accepted()
            accepted += found is not None
            wrong = wrong_in(found, true) if found is not None else ""
            tally.check(f"chance: {path.stem}, seed {seed}", not wrong, wrong)
    return f"{accepted} accepted, "
