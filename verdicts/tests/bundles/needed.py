"""What every proof needs (`--needed`): runs of circuits in which one piece is cut, forged ones, and what makes of them
nothing else than that."""

from __future__ import annotations

import pickle
import re
from concurrent.futures import ProcessPoolExecutor
from contextlib import closing
from dataclasses import replace
from pathlib import Path

from aig_verdicts.audit import needed, pieces, sentences
from aig_verdicts.pages import needs as needs_page
from aig_verdicts.audit.bundle import Wrong
from aig_verdicts.search.bundled import session_of
from aig_verdicts.audit.checked import CONFIRMED, Claim, check
from aig_verdicts.search.decide import decide
from aig_verdicts.search.task import Bounds, Hint, Narrow, Programs, Task
from aig_verdicts.audit.recheck import recheck
from aig_verdicts.search.workers import Work
from aig.tools import Stop
from aig_verdicts.search.tried_runs import reached_by
from aig_verdicts.search.workers import check_all
from bundles.common import SMALL_SOLVER, called, forged, kept, manifest_of, of_script, rows_of, tool, why_rejected
from bundles.cores import CIRCUIT, NEEDS, WORDS, copied, made, needs_of, run
from hints.programs import built
from library.runs import contents

# How many registers, resets and assumptions every proof of a row needs. One of two equal assumptions may go.
EVERY = {"trivial": (0, 0, 0), "toggles": (1, 1, 0), "chain": (3, 2, 0), "either": (0, 0, 0), "assumed": (0, 0, 1)}
IN_EVERY = {name: f"{word}; each of these is needed" if any(EVERY[name]) else word for name, word in WORDS.items()}
ASKED = ("--cores", "--needed")


def every_of(path):
    """What MANIFEST.json has of what every proof of a row needs."""
    found = {name: it["needs"].get("every_proof", {}) for name, it in rows_of(path).items() if "needs" in it}
    return {name: tuple(len(it.get(kind, ())) for kind in ("registers", "resets", "assumptions")) for name,
            it in found.items()}


def runs_of(path, name):
    return rows_of(path)[name].get("needed", [])


def runs_kept(_, tally, __):
    """Each piece of a core has a run of the circuit without it, if there is one. The manifest, the table, `recheck`,
    its page and `recheck.sh` say so. The runs outlive a later search of cores, in which pieces with a run are not
    tried."""
    path = made(*ASKED)
    tally.compare("runs kept: needs", needs_of(path), NEEDS)
    tally.compare("runs kept: in every proof", every_of(path), EVERY)
    status, out, _ = called("recheck", path, "--page", "page.html")
    lines = {line.split("  ")[2]: line.split("  ")[3] for line in out.splitlines() if "  needs" in line}
    tally.compare("runs kept: recheck", (status, lines),
                  (5, {name: f"needs {word}" for name, word in IN_EVERY.items()}))
    page = contents("page.html").decode()
    chips = set(re.findall('class="chip every">([^<]*)<', page))
    tally.compare("runs kept: page", (chips, page.count("thick border")), ({"state", "delay", "go", "late", "no_c"}, 3))
    words = [it["files"]["witness"] for name in EVERY for it in runs_of(path, name)]
    tally.check("runs kept: commands on the page", all(f" cut.aag {it}\n{CONFIRMED}" in page for it in words), words)
    files = {f"{needed.FOLDER}/{it.name}" for it in (path / needed.FOLDER).iterdir()}
    tally.compare("runs kept: files", files, {it for it in manifest_of(path)["sums"] if it.startswith(needed.FOLDER)})
    done = of_script(path)
    tally.compare("runs kept: recheck.sh",
                  (done.returncode, done.stderr, done.stdout.count(f"{CONFIRMED}: cut --cuts")),
                  (0, "", len(words)))
    words = ("--solver", SMALL_SOLVER, "--abc", "", "--drat2lrat", built("drat2lrat"), "-q", "--jobs", "1")
    for name, asked, more in (("known", ASKED, ()), ("smaller", ASKED, ("--minimal",)),
                              ("later", ("--cores",), ("--needed",)),
                              ("again", ASKED, ("--needed",))):
        path = copied(*asked, to=name)
        called("cores", path, *words, *more)
        tally.compare(f"runs kept: {name}", (needs_of(path), every_of(path), why_rejected(path)), (NEEDS, EVERY, None))
        files = {f"{needed.FOLDER}/{it.name}" for it in (path / needed.FOLDER).iterdir()}
        tally.check(f"runs kept: {name}: files", files <= set(manifest_of(path)["sums"]), files)
    called("run", CIRCUIT, "--out", "known", "--abc", "", "--solver", SMALL_SOLVER, "--frames", 2, "-q", "--zip",
           "all.zip")
    tally.compare("runs kept: by another run", (every_of("known"), called("recheck", "all.zip")[0]), (EVERY, 5))
    Path("known", needed.FOLDER, "2.1.wit").write_bytes(b"1\nb2\n")
    called("run", CIRCUIT, "--out", "known", "--abc", "", "--solver", SMALL_SOLVER, "--frames", 2, "-q")
    tally.compare("runs kept: up to one that is broken", (len(runs_of("known", "chain")), why_rejected("known")),
                  (1, None))
    tally.check("runs kept: a note", any(it.startswith("an earlier run: ") for it in rows_of("known")["chain"]["notes"]))
    with ProcessPoolExecutor(1) as pool, closing(session_of(copied(to="pool"),
                                                            Programs(SMALL_SOLVER, None))) as session:
        session.open()
        session.narrow(Narrow(Hint("", 0), built("drat2lrat"), is_needed=True), Work(pool, 1))
    tally.compare("runs kept: of other processes", (needs_of("pool"), every_of("pool"), why_rejected("pool")),
                  (NEEDS, EVERY, None))
    path = kept("contradiction")
    called("cores", path, *words, "--needed")
    row = manifest_of(path)["rows"][0]
    tally.compare("runs kept: assumptions", (len(row["needs"]["every_proof"]["assumptions"]), why_rejected(path)),
                  (2, None))
    done = of_script(path)
    tally.check("runs kept: assumptions by recheck.sh",
                done.returncode == 0 and "alive: cut --cuts needed/alive.0" in done.stdout,
                done.stderr)


# -- forgers


def _row(manifest, name):
    return next(it for it in manifest["rows"] if it.get("name") == name)


def _text(at, ending, change):
    """Changes a file of the runs of `chain`."""
    def forge(path, manifest):
        file = path / needed.FOLDER / f"2.{at}.{ending}"
        file.write_text(change(file.read_text()))
    return forge


def _of_another_piece(path, manifest):
    one, two = (path / needed.FOLDER / f"2.{at}.wit" for at in (0, 1))
    one.write_bytes(two.read_bytes())
    manifest["rows"][3]["needed"][0]["frames"] = manifest["rows"][3]["needed"][1]["frames"]


def _entry(change):
    """Changes what the manifest says of the first run of `chain`."""
    def forge(path, manifest):
        change(_row(manifest, "chain")["needed"][0])
    return forge


def _list(change):
    """Changes its list of runs."""
    def forge(path, manifest):
        row = _row(manifest, "chain")
        row["needed"] = change(row["needed"])
        used = {name for it in manifest["rows"] for run in it.get("needed", []) for name in run["files"].values()}
        for name in [it for it in manifest["sums"] if it.startswith(needed.FOLDER) and it not in used]:
            del manifest["sums"][name]
    return forge


def _says_more(path, manifest):
    """One of two assumptions of which each is enough."""
    row = _row(manifest, "either")
    row["needs"]["every_proof"] = {"registers": [], "resets": [], "assumptions": row["needs"]["assumptions"]}


def _says_less(path, manifest):
    del _row(manifest, "chain")["needs"]["every_proof"]


def _of_another_row(path, manifest):
    """Runs to `chain` for `toggles`, and its own ones for nothing."""
    rows = {name: _row(manifest, name) for name in ("toggles", "chain")}
    for at in (0, 1):
        for ending in ("cuts", "wit"):
            text = (path / needed.FOLDER / f"2.{at}.{ending}").read_text()
            (path / needed.FOLDER / f"1.{at}.{ending}").write_text(text.replace("b2", "b1"))
        rows["toggles"]["needed"][at]["frames"] = rows["chain"]["needed"][at]["frames"]


def _without_core(path, manifest):
    """Of a row with a run, which needs no core."""
    row = _row(manifest, "fails")
    row["needed"] = [{"frames": 1, "files": {"cuts": "needed/5.0.cuts", "witness": "needed/5.0.wit"}}]
    (path / "needed/5.0.cuts").write_text("f 8\nf 10\n")
    (path / "needed/5.0.wit").write_bytes((path / row["files"]["witness"]).read_bytes())
    manifest["sums"].update({"needed/5.0.cuts": "", "needed/5.0.wit": ""})


def _as_verdict(path, manifest):
    """A run without a piece, as the verdict of the row."""
    row = _row(manifest, "chain")
    run, = row.pop("needed")[:1]
    row.update(by="needed", verdict="confirmed", frames=run["frames"], files=run["files"], result="fails")


def _as_run(path, manifest):
    """The same as a run of the whole circuit."""
    row = _row(manifest, "chain")
    for name in row["files"].values():
        del manifest["sums"][name]
    for it in row.pop("needed"):
        for name in it["files"].values():
            del manifest["sums"][name]
    text = (path / needed.FOLDER / "2.1.wit").read_text()
    (path / "2.wit").write_text(text)
    row.update(by="run", verdict="confirmed", frames=text.count("\n") - 4, files={"witness": "2.wit"}, result="fails")
    del row["needs"]
    manifest["sums"]["2.wit"] = ""


BAD = "needed of b2"
FORGED = (
    (_of_another_piece, "b2: aig check"), (_text(0, "wit", lambda it: it.replace("b2", "b1")), "for another property"),
    (_text(0, "wit", lambda it: it.replace("1", "0")), "aig check"), (_text(0, "cuts", lambda _: ""), "b2"),
    # a reset more is no new input, so the run stays one: it shows nothing of one piece
    (_text(0, "cuts", lambda it: f"{it}r 18\n"), "not about one piece"), (_text(0, "cuts", lambda it: f"{it}f 18\n"), "aig check"),
    (_text(0, "cuts", lambda _: "f 18\n"), "b2: aig check"), (_text(0, "cuts", lambda it: it[:-1]),
                                                              "cut: cuts: line 1"),
    (_entry(lambda it: it.update(frames=it["frames"] + 1)), "another number of frames"),
    (_entry(lambda it: it.update(frames=0)), BAD), (_entry(lambda it: it.update(frames=True)), BAD),
    (_entry(lambda it: it.update(frames=1 << 20)), BAD), (_entry(lambda it: it.update(frames="2")), BAD),
    (_entry(lambda it: it.update(piece="go")), BAD), (_entry(lambda it: it["files"].update(cuts="needed/2.1.cuts")),
                                                      BAD),
    (_entry(lambda it: it["files"].pop("cuts")), BAD), (_list(lambda it: it[1:]), BAD), (_list(lambda it: it[::-1]), BAD),
    (_list(lambda it: it[:-1]), "needs of b2"), (_list(lambda it: []), "needs of b2"),
    (_says_more, "needs of b3"), (_says_less, "needs of b2"), (_of_another_row, "b1: aig check"), (_without_core, "needed of b5"),
    (_as_verdict, "a row of an unknown kind"), (_as_run, "b2: aig check"),
)


def runs_forged(_, tally, __):
    """Runs that are none, that are about other pieces, or that are not what the manifest says: `recheck` rejects the
    bundle. `recheck.sh` says WRONG where a run is none."""
    for at, (forge, why) in enumerate(FORGED):
        path = copied(*ASKED)
        said = forged(path, forge)
        tally.check(f"runs forged: {at}: rejected", said is not None and why in said, said)
        if said is not None and "aig check" in said and "by" not in forge.__name__:
            done = of_script(path)
            is_in_script = forge not in (_of_another_row, _as_run, _of_another_piece)
            tally.check(f"runs forged: {at}: recheck.sh",
                        not is_in_script or done.returncode == 1 and "WRONG" in done.stderr,
                        done.stderr)
    path = copied(*ASKED)
    forged(path, _text(0, "cuts", lambda it: f"{it}r 18\n"))
    status, _, err = called("run", CIRCUIT, "--out", path, "--abc", "", "--solver", SMALL_SOLVER, "--frames", 2)
    tally.compare("runs forged: in a folder that is run again", (status, runs_of(path, "chain"), why_rejected(path)),
                  (5, [], None))
    tally.check("runs forged: that is said", "not about one piece" in err, err)
    path = copied(*ASKED)
    outside = Path("outside")
    outside.mkdir()
    (outside / "5.0.wit").write_text("of somebody else")
    for name in (path / needed.FOLDER).iterdir():
        name.rename(outside / name.name)
    (path / needed.FOLDER).rmdir()
    (path / needed.FOLDER).symlink_to(outside.resolve())
    before = {it.name: it.read_bytes() for it in outside.iterdir()}
    tally.check("runs forged: a folder that is a link", "needed/" in (why_rejected(path) or ""), why_rejected(path))
    called("run", CIRCUIT, "--out", path, "--abc", "", "--solver", SMALL_SOLVER, "--frames", 2, "-q")
    tally.compare("runs forged: nothing outside is touched", {it.name: it.read_bytes() for it in outside.iterdir()},
                  before)
    path = kept("contradiction")
    called("cores", path, "--solver", SMALL_SOLVER, "--abc", "", "--drat2lrat", built("drat2lrat"), "-q", "--needed")

    def shorter(path, manifest):
        """A run that keeps the other assumption for a frame less than no run keeps both."""
        it = manifest["rows"][0]["needed"][0]
        it["frames"] -= 1

    tally.check("runs forged: a short run", "another number of frames" in (forged(path, shorter) or ""))


# -- what makes of a run nothing else


def runs_believed(_, tally, __):
    """A run without a piece is no verdict, another process' word is no check, and a piece is what one file cuts."""
    circuit, path = CIRCUIT.read_bytes(), made(*ASKED)
    known = pieces.pieces_of(circuit)
    for text, wanted in (("f 8\nf 10\n", "state"), ("f 8\n", "state"), ("r 12\n", "go"), ("c 2\n", "no_c")):
        tally.compare(f"runs believed: {text!r}", known.only(pieces.read_cuts(text.encode())).name, wanted)
    for text in ("", "f 8\nf 12\n", "f 8\nr 8\n", "f 22\n", "c 0\nc 1\n", "c 9\n"):
        tally.check(f"runs believed: {text!r}", raised(known.only, pieces.read_cuts(text.encode())))
    tally.compare("runs believed: alone", known.alone(pieces.Piece("f", "state")), b"f 8\nf 10\n")
    bundle = recheck(path)
    rows = {it.name: it for it in bundle.rows}
    chain, toggles = rows["chain"], rows["toggles"]
    run, = chain.runs[:1]
    tally.check("runs believed: no verdict", raised(chain.take, run, run.circuit))
    tally.check("runs believed: of another row", raised(toggles.take_needed, [run], []))
    tally.check("runs believed: no proof", raised(chain.take_needed, [chain.checked], []))
    tally.check("runs believed: of another circuit", raised(needed.pieces_that, circuit + b"c\n", [run]))
    tally.check("runs believed: a row without a verdict", raised(replace(chain, _checked=None).take_needed, [run], []))
    read = bundle.summed
    for name, claim in (("without cuts", Claim(2, "needed", run.frames, run.claim.named[1:])),
                        ("of another property", replace(run.claim, position=1)), ("longer", replace(run.claim, frames=run.frames + 1))):
        tally.check(f"runs believed: {name}", raised(check, claim, circuit, read, Stop()))
    files = {role: read(name) for role, name in run.claim.named}
    for name, found, is_good in (("good", files, True),
                                 ("lie", {**files, "witness": files["witness"].replace(b"1", b"0")}, False)):
        other = needed.Run(run.claim, found)
        check_all([other], circuit, Stop())
        tally.compare(f"runs believed: a worker's {name}", (other.checked is not None, bool(other.notes)),
                      (is_good, not is_good))
    tally.check("runs believed: from another process",
                pickle.loads(pickle.dumps(needed.Run(run.claim, files, [], run))).checked is None)
    others = [needed.Run(run.claim, {**files, "cuts": b"f 18\n"}, [], run), needed.Run(run.claim, files, [], run)]
    tally.compare("runs believed: a check of other files", needed.give(chain, others, circuit), {})
    tally.compare("runs believed: a check of these", len(needed.give(chain, others[1:], circuit)), 2)
    tally.compare("runs believed: what is said then", sentences.of_needs(chain.needs),
                  f"{WORDS['chain']}; 1 of these is needed")
    hint = Hint("induction", rows["toggles"].frames, {role: read(name) for role, name in toggles.files.items()})
    for name, body, count in (("that lies", "echo s SATISFIABLE; exit 10", 0), ("that crashes", "kill -SEGV $$", 0)):
        solver = tool("solver", f'case "$*" in *version*) exit;; esac; {body}')
        task = replace(Task.of(circuit, 1, Bounds(2), Programs(solver, None)), narrow=Narrow(hint, is_needed=True))
        found = decide(task)
        tally.check(f"runs believed: a solver {name}", len(found.needed) == count and found.notes, found)
    found = decide(replace(Task.of(circuit, 1, Bounds(2), Programs(SMALL_SOLVER, None)),
                           narrow=Narrow(hint, is_needed=True)))
    tally.compare("runs believed: a good one",
                  [known.only(pieces.read_cuts(it.files["cuts"])).name for it in found.needed],
                  ["state", "state"])
    tally.check("runs believed: it is checked", all(it.checked is not None for it in found.needed), found.needed)
    memory = [pieces.Piece("f", f"m[{at}]") for at in range(4)]
    for every, words, thick in ((memory, "each of these is needed", 1), (memory[:3], "0 of these are needed", 0)):
        it = pieces.Needs(tuple(it.name for it in memory), (), (), False, frozenset(every))
        tally.check(f"runs believed: {words}", sentences.of_needs(it) == f"1 register; {words}", sentences.of_needs(it))
        tally.compare(f"runs believed: chips, {words}", needs_page.of_row(it).count("chip every"), thick)


# Circuits and the properties that random states and runs reach: where the assumptions are kept, and without them.
DRAWN = (
    ("aag 3 1 2 0 0 4 1\n2\n4 2\n6 4\n4\n5\n6\n1\n4\n", {0, 2, 3},
     {0, 1, 3}),  # nothing is kept where the first register is 0
    ("aag 3 1 2 0 0 2 0\n2\n4 2 1\n6 6 6\n5\n6\n", {0, 1}, {0, 1}),
    ("aag 4 2 0 0 2 2 2\n2\n4\n6\n8\n7\n4\n6 2 4\n8 7 4\n", {1}, {0, 1}),
)


def drawn(_, tally, __):
    """What runs that are drawn at random reach is reached: their properties are known by thought, also where a gate
    comes before its sides."""
    text = Path(CIRCUIT).read_bytes()
    tally.compare("drawn: any state", reached_by(text).anywhere, frozenset({1, 2, 5}))
    tally.compare("drawn: from the resets", reached_by(text).unassuming, frozenset({3, 4, 5}))
    for circuit, anywhere, unassuming in DRAWN:
        tally.compare(f"drawn: {circuit!r}", reached_by(circuit.encode()), (frozenset(anywhere), frozenset(unassuming)))
    lines = text.split(b"\n")
    first = next(at for at, line in enumerate(lines) if line == b"22 2 3")
    turned = b"\n".join([*lines[:first], *lines[first : first + 8][::-1], *lines[first + 8 :]])
    tally.compare("drawn: gates in another order", reached_by(turned), reached_by(text))


def raised(call, *words):
    """Whether a call raises a Wrong."""
    try:
        call(*words)
    except Wrong:
        return True
    return False
