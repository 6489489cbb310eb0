"""Files of cuts: forged ones, what `recheck` shows of them, and what each leaves of a circuit."""

from __future__ import annotations

import json
import shutil
from pathlib import Path

from aig_verdicts.audit import pieces, sentences
from aig_verdicts.audit.bundle import Wrong
from bundles import common
from bundles.common import called, manifest_of, of_script, rows_of, why_rejected, write_manifest
from bundles.cores import CIRCUIT, copied, cut_of, made
from library.runs import contents

# -- forgers: what each changes, and what `recheck` says of it. The sums are mended afterwards.


def _cuts(path, name, text):
    Path(path, rows_of(path)[name]["files"]["cuts"]).write_text(text)


def _more(name, line):
    """Cuts one more line of a row, beside the proofs that are there."""
    def forge(path, manifest):
        _cuts(path, name, "\n".join([*cut_of(path, name), line, ""]))
    return forge


def _less(path, manifest):
    """The page then has to say that more is needed; the manifest does not."""
    _cuts(path, "trivial", "".join(f"{line}\n" for line in cut_of(path, "trivial") if line != "f 18"))


def _text(text):
    def forge(path, manifest):
        _cuts(path, "toggles", text)
    return forge


def _whole(path, manifest):
    """The proofs of the whole circuit, beside the cuts."""
    for name in ("1.base.drat", "1.step.drat"):
        there = rows_of(path)["toggles"]["files"]
        shutil.copy(made() / rows_of(made())["toggles"]["files"][name.split(".")[1]], path / there[name.split(".")[1]])


def _whole_and_more(path, manifest):
    """The same, where a register is cut that is needed."""
    _whole(path, manifest)
    _more("toggles", "f 8")(path, manifest)


def _says_less(path, manifest):
    next(it for it in manifest["rows"] if it.get("name") == "chain")["needs"]["registers"].remove("go")


def _says_nothing(path, manifest):
    del next(it for it in manifest["rows"] if it.get("name") == "chain")["needs"]


def _says_of_others(path, manifest):
    manifest["rows"][0]["needs"] = {"registers": [], "resets": [], "assumptions": []}


def _of_another_row(path, manifest):
    next(it for it in manifest["rows"] if it.get("name") == "chain")["files"]["cuts"] = "0.cuts"


def _for_a_run(path, manifest):
    row = next(it for it in manifest["rows"] if it.get("name") == "fails")
    row["files"]["cuts"] = "5.cuts"
    (path / "5.cuts").write_text("")
    manifest["sums"]["5.cuts"] = ""


def _older(path, manifest):
    manifest["format"] = "aig-verdicts 2"


def _without_file(path, manifest):
    del next(it for it in manifest["rows"] if it.get("name") == "toggles")["files"]["cuts"]
    del manifest["sums"]["1.cuts"]


FORGED = (
    (_more("toggles", "f 8"), "aig refute: proof"), (_more("toggles", "r 10"), "aig refute: proof"),
    (_more("chain", "f 12"), "aig refute: proof"), (_more("assumed", "c 2"), "aig refute: proof"),
    (_less, "b0"), (_whole, "aig refute: proof"), (_whole_and_more, "aig refute: proof"),
    (_text("f 8"), "cut: cuts: line 1"), (_text("f 08\n"), "cut: cuts: line 1"), (_text("f 2\n"), "cut: cuts: line 1"),
    (_text("f 18\nc 3\n"), "cut: cuts: line 2"), (_text("g 8\n"), "cut: cuts: line 1"),
    (_says_less, "needs of b2"), (_says_nothing, "needs of b2"), (_says_of_others, "needs of constraints"),
    (_of_another_row, "file '0.cuts' of b2"), (_for_a_run, "files of b5"), (_without_file, "aig refute: proof"),
    (_older, "format of MANIFEST.json"),
)


def forged(_, tally, __):
    """Cuts that are wrong, or not what the manifest says: `recheck` rejects the bundle, and `recheck.sh` says WRONG
    where the cuts or the proofs are."""
    for at, (forge, why) in enumerate(FORGED):
        path = copied("--cores")
        said = common.forged(path, forge)
        tally.check(f"forged: {at}: rejected", said is not None and why in said, said)
        if "aig" in why or "cut: " in why:
            done = of_script(path)
            is_about = forge is not _without_file  # the script has the cuts in its lines
            tally.check(f"forged: {at}: recheck.sh", (done.returncode == 1 and "WRONG" in done.stderr) or not is_about,
                        done.stderr)


def follows(_, tally, __):
    """Cuts that leave more than the manifest of a forger said: where the proofs fit, all that is shown follows the
    cuts."""
    path = copied()
    manifest = manifest_of(path)
    row = next(it for it in manifest["rows"] if it.get("name") == "toggles")
    row["files"]["cuts"], manifest["format"] = "1.cuts", "aig-verdicts 3"
    (path / "1.cuts").write_text("")
    manifest["sums"]["1.cuts"] = ""
    row["needs"] = {"registers": ["state"], "resets": ["state"], "assumptions": []}
    write_manifest(path, manifest)
    tally.compare("follows: less in the manifest", why_rejected(path), "needs of b1")
    every = ["data", "delay", "go", "late", "state"]
    row["needs"] = {"registers": every, "resets": every, "assumptions": ["no_b", "no_c", "not_both"]}
    write_manifest(path, manifest)
    _, out, _ = called("recheck", path, "--page", "page.html")
    tally.check("follows: recheck", "toggles  needs 5 registers, 3 assumptions" in out, out)
    tally.check("follows: page", "5 registers, 3 assumptions" in contents("page.html").decode())
    _, out, _ = called("recheck", path, "--json")
    shown = next(it for it in json.loads(out)["rows"] if it.get("name") == "toggles")
    tally.compare("follows: JSON", shown["needs"]["registers"], every)


# Files of cuts, and what they leave: registers, those of them whose resets are left, and assumptions. All else is cut.
BITS = {"state": (8, 10), "go": (12,), "delay": (14,), "late": (16,), "data": (18, 20)}
EVERY = [f"{letter} {literal}" for literals in BITS.values() for literal in literals for letter in "fr"] + [
    "c 0", "c 1", "c 2"]
LEFT = (
    ((), ((), (), ())), (EVERY, (tuple(sorted(BITS)), tuple(sorted(BITS)), ("no_b", "no_c", "not_both"))),
    (["f 8"], (("state",), (), ())), (["f 10"], (("state",), (), ())), (["r 20"], (("data",), ("data",), ())),
    (["f 8", "f 10", "r 16"], (("late", "state"), ("late",), ())), (["c 0"], ((), (), ("not_both",))),
    (["c 2", "f 14"], (("delay",), (), ("no_c",))),
)
# What is no file of cuts.
NO_CUTS = (b"f 8", b"f 08\n", b"f  8\n", b"f 8\r\n", b"\nf 8\n", b"g 8\n", b"f -8\n", b"f 8 \n", b"# 8\n",
           b"f 99999999999\n")


def reading(_, tally, __):
    """What a file of cuts leaves is needed: a register where one bit of it is left, its next state or its reset."""
    circuit = CIRCUIT.read_bytes()
    for left, wanted in LEFT:
        lines = [line for line in EVERY if line not in left]
        for text in (lines, lines[::-1], lines + lines[:3]):
            found = pieces.needs_of(circuit, "".join(f"{line}\n" for line in text).encode())
            tally.compare(f"reading: {left}", found[:3], wanted)
        tally.compare(f"reading: {left}: trivial", found.is_trivial, not left)
    tally.check("reading: without cuts nothing is known", pieces.needs_of(circuit, None) is None)
    for text in NO_CUTS:
        try:
            tally.check(f"reading: {text!r}", False, pieces.needs_of(circuit, text))
        except Wrong:
            tally.check(f"reading: {text!r}", True)
    words = [sentences.of_needs(pieces.Needs(*it)) for it in (
        ((), (), (), False), ((), (), (), True), (("a",), (), (), False), (("a", "b"), ("a",), ("c",), True),
        (("past_3", "u.value_4"), (), (), True), (("past_3", "q"), (), (), True), (("m[0]", "m[1]"), (), (), False),
        (("m[0]", "m[1]", "m[2]", "n"), (), ("c", "d"), True))]
    tally.compare("reading: words", words, [
        "nothing: trivial", "nothing: trivial", "1 register", "2 registers, 1 assumption",
        "its own registers alone, no assumption", "2 registers, no assumption", "2 registers",
        "2 registers, 2 assumptions"])
