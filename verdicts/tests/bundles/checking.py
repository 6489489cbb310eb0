"""A verdict is what a check made: nothing else makes a `Checked`, and what it is about is compared by content."""

from __future__ import annotations

import ast
import copy
import dataclasses
import os
import pickle
from pathlib import Path

from aig_verdicts import rechecking
from aig_verdicts.audit.bundle import Bundle
from aig_verdicts.audit.checked import Checked, Claim, Wrong, check, sum_of
from aig_verdicts.search.decide import decide
from aig_verdicts.search.task import Bounds, Found, Programs, Task
from aig_verdicts.audit.decisions import Decided
from aig_verdicts.reading.design import read_aiger
from aig_verdicts.audit.recheck import recheck
from aig_verdicts.audit.row import Row
from aig_verdicts.search.session import Plan, Session
from aig.tools import Stop
from aig_verdicts.search.workers import check_all
from believed import believed, check_of
from bundles.common import FEW, SMALL_SOLVER, called, kept, tool
from bundles.judging import judge
from paths import ROOT

COMMANDS = ROOT / "tools" / "aig-verdicts"
# The bound of a property of FEW that any proof shows, and its proof.
BOUND, PROOF = Claim(0, "bound", 3, (("base", "0.base.drat"),)), b"0\n"


def raised(kind, call, *words, **named):
    """The text of the exception of this kind, or of one of these, that a call raises; nothing if it raises none."""
    try:
        call(*words, **named)
    except kind as error:
        return str(error) or type(error).__name__
    return ""


def made(circuit=None, claim=BOUND, data=PROOF):
    return check(claim, FEW.read_bytes() if circuit is None else circuit, lambda _: data, Stop())


# What makes a check, or gives a row one: calls of these names, and these names and texts anywhere.
CALLS, WORDS = ("Checked", "__new__", "__setattr__", "__setstate__"), ("_KEY", "_checked")


def makers(path):
    """What a source has of them."""
    found = set()
    for node in ast.walk(ast.parse(path.read_text())):
        if isinstance(node, ast.Call):
            found.add(getattr(node.func, "attr", getattr(node.func, "id", "")))
        found |= {it for it in (getattr(node, part, "") for part in ("id", "attr", "name", "value"))
                  if isinstance(it, str) and it in WORDS}
    return sorted(found & {*CALLS, *WORDS})


def checking(_, tally, __):
    """Who makes a check, what it says, and what it is about."""
    sources = [*sorted(it for package in ("python", "verdicts") for it in (ROOT / package / "src").rglob("*.py")), COMMANDS]
    found = {path.name: names for path in sources for names in [makers(path)] if names}
    tally.compare("checking: who makes one", found, {"checked.py": ["Checked", "_KEY"], "row.py": ["_checked"]})
    tally.check("checking: all sources are looked at", len(sources) > 80, len(sources))
    for text, wanted in (("checked.Checked(claim, '', {}, key)", ["Checked"]), ("x = checked._KEY", ["_KEY"]),
                         ("from .checked import _KEY as key", ["_KEY"]), ("getattr(checked, '_KEY')", ["_KEY"]),
                         ("row._checked = it", ["_checked"]), ("setattr(row, '_checked', it)", ["_checked"]),
                         ("object.__new__(kind)", ["__new__"]), ("object.__setattr__(it, 'frames', 9)", ["__setattr__"]),
                         ("row.checked", [])):
        Path("source.py").write_text(text)
        tally.compare(f"checking: {text}", makers(Path("source.py")), wanted)
    one = made()
    for name, call in {
        "without the key": lambda: Checked(BOUND, "", {}, object()), "a copy": lambda: copy.copy(one),
        "a deep copy": lambda: copy.deepcopy(one), "from a file": lambda: pickle.dumps(one),
    }.items():
        tally.check(f"checking: {name}", raised(TypeError, call))
    # Python 3.13 raises another one than those before
    kinds = (ValueError, TypeError)
    tally.check("checking: another one of it", raised(kinds, dataclasses.replace, one, circuit="1"))
    tally.check("checking: it stays as it is", raised(dataclasses.FrozenInstanceError, setattr, one, "circuit", "1"))
    lines(tally)
    content(tally)
    rows(tally)
    workers(tally)
    counts(tally)


def lines(tally):
    """An `aig` that prints something else, or ends with another status, confirms nothing."""
    one = made()
    tally.compare("checking: what it says", (one.line, one.by, one.frames), ("unreachable within 3", "bound", 3))
    tally.check("checking: a claim of nothing", "nothing shows" in raised(Wrong, made, claim=Claim(0, "", 0)))
    line, real = "unreachable within 3", os.environ["AIG_PROGRAM"]
    for name, body in {
        "status 1": f"echo '{line}'; exit 1", "no end of line": f"printf '{line}'", "two ends": f"echo '{line}'; echo",
        "a blank before": f"echo ' {line}'", "another line": "echo unreachable", "a longer bound": f"echo '{line}0'",
        "nothing": "exit 0", "its beginning": "echo unreachable within",
    }.items():
        os.environ["AIG_PROGRAM"] = tool("other_aig", body)
        try:
            said = raised(Wrong, made)
        finally:
            os.environ["AIG_PROGRAM"] = real
        tally.check(f"checking: {name}", said.startswith("b0: aig refute prints "), said)


def content(tally):
    """What a check is about: the claim, the circuit and the files, by their bytes. Each file is read once."""
    circuit, files = FEW.read_bytes(), {"base": PROOF}
    one, other = made(), circuit[:-2] + bytes([circuit[-2] ^ 1]) + circuit[-1:]
    tally.compare("checking: sums", (one.circuit, one.sums), (sum_of(circuit), {"base": sum_of(PROOF)}))
    for name, words, wanted in (
        ("itself", (BOUND, sum_of(circuit), files), True),
        ("a circuit of the same length", (BOUND, sum_of(other), files), False),
        ("a file of the same length", (BOUND, sum_of(circuit), {"base": b"1\n"}), False),
        ("no file", (BOUND, sum_of(circuit), {}), False),
        ("more files", (BOUND, sum_of(circuit), {**files, "step": PROOF}), False),
        ("more frames", (dataclasses.replace(BOUND, frames=4), sum_of(circuit), files), False),
        ("another property", (dataclasses.replace(BOUND, position=1), sum_of(circuit), files), False),
        ("a proof for all frames", (dataclasses.replace(BOUND, by="induction"), sum_of(circuit), files), False),
    ):
        tally.compare(f"checking: about {name}", one.is_about(*words), wanted)
    read = []
    run = decide(Task.of(circuit, 2, Bounds(frames=3), Programs(SMALL_SOLVER, None)))
    tally.compare("checking: a run", (run.verdict, sorted(run.files)), ("confirmed", ["concrete", "shorter", "witness"]))
    names = {name: run.files[role] for role, name in run.checked.claim.named}
    check(run.checked.claim, circuit, lambda name: read.append(name) or names[name], Stop())
    tally.compare("checking: each file is read once", sorted(read), sorted(names))


def rows(tally):
    """A row takes the check of its own property and circuit. A table is about one circuit."""
    row, other = Row(1, "assert", "a"), sum_of(FEW.read_bytes())
    tally.check("checking: of another property", "another property" in raised(Wrong, row.take, made(), other))
    row = Row(0, "assert", "a")
    tally.check("checking: of another circuit", "another circuit" in raised(Wrong, row.take, made(), "0" * 64))
    tally.compare("checking: no verdict", (row.verdict, row.by, row.frames, row.files, row.commands()),
                  ("undecided", "", 0, {}, []))
    row.take(made(), other)
    tally.compare("checking: a verdict", (row.verdict, row.by, row.frames, row.files),
                  ("unreachable within 3", "bound", 3, BOUND.files))
    row.forget()
    tally.compare("checking: forgotten", (row.verdict, judge([row])[0].words), ("undecided", "undecided"))
    for by in ("kept", "alive"):
        it = believed(Row(0, "assert", "a"), by=by, frames=1)
        tally.check(f"checking: an assertion that is {by}", "another kind of row" in raised(Wrong, judge, [it]))
    two = [Row(at, "assert", "a") for at in range(2)]
    for at, row in enumerate(two):
        row.take(check_of(at, "bound", 1, circuit=str(at) * 64), str(at) * 64)
    tally.check("checking: of two circuits", "several circuits" in raised(Wrong, judge, two))
    three = [believed(Row(-1, "constraints", ""), by="alive", frames=2),
             believed(Row(0, "assert", "a"), by="bound", frames=1),
             believed(Row(1, "assert", "b"), by="induction", frames=1), Row(2, "assert", "c")]
    tally.compare("checking: the check of each word", [isinstance(it.said, Decided) and it.said.shown.line
                                                       for it in judge(three)], ["no run of 2 frames"] * 2 + [False])
    tally.compare("checking: the same without a contradiction", [isinstance(it.said, Decided) and it.said.shown.line
                                                                 for it in judge(three[1:])],
                  ["unreachable within 1", "unreachable", False])
    bundle = Bundle(kept("every"))
    tally.compare("checking: a bundle has no verdicts", {it.verdict for it in bundle.rows}, {"undecided"})
    known, all_rows = sum_of(bundle.circuit()), recheck(kept("every")).rows
    tally.compare("checking: all are checked, about its circuit",
                  [it.checked and it.checked.circuit for it in all_rows[1:]], [known] * 10)


def workers(tally):
    """What another process found is checked here, and what a check is about is looked at."""
    found = decide(Task.of(FEW.read_bytes(), 1, Bounds(frames=3), Programs(SMALL_SOLVER, None)))
    sent = pickle.loads(pickle.dumps(found))
    tally.compare("checking: sent", (sent.checked, sent.verdict, sent.files == found.files),
                  (None, found.verdict, True))
    several = [pickle.loads(pickle.dumps(found)) for _ in range(60)]
    check_all(several, FEW.read_bytes(), Stop())
    tally.compare("checking: of several, each", sum(it.checked is not None for it in several), 60)
    proof, plan = {"base": PROOF, "step": PROOF}, Plan(Bounds(frames=3), Programs(tool("none", "exit 0"), None))
    for name, it, wanted in (
        ("what is right", sent, found.verdict),
        ("a word", Found(1, "unreachable", "induction", 1, {"base": b"1\n", "step": b"1\n"}), "undecided"),
        ("a bound for a proof", Found(0, "unreachable", "bound", 3, {"base": PROOF}), "unreachable within 3"),
        ("an induction that is none", Found(2, "unreachable", "induction", 1, proof), "undecided"),
        ("a check of other files", Found(0, "x", "bound", 3, {"base": b"c\n0\n"}, checked=made()), "undecided"),
        ("a check of fewer frames", Found(0, "x", "bound", 4, {"base": PROOF}, checked=made()), "undecided"),
        ("a check of another circuit", Found(0, "x", "bound", 3, {"base": PROOF}, checked=check_of(
            0, "bound", 3, BOUND.named)), "undecided"),
        ("a verdict without a way", Found(0, "unreachable", "", 0), "undecided"),
    ):
        session = Session(read_aiger(FEW), Path(name), plan)
        session.open(1)
        check_all([it], FEW.read_bytes(), Stop())
        session.take(it)
        session.close()
        row, has_note = session.rows[it.position + 1], wanted == "undecided" and it.by != ""
        tally.compare(f"checking: {name}", (row.verdict, bool(row.notes)), (wanted, has_note))


    session = Session(read_aiger(FEW), Path("both"), plan)
    session.open(1)
    for it in (Found(0, "", "bound", 3, {"base": PROOF}), Found(0, "", "bound", 9, {"base": PROOF})):
        check_all([it], FEW.read_bytes(), Stop())
        session.take(it)
    session.close()
    tally.compare("checking: a bound stays", (session.rows[1].verdict, bool(session.rows[1].notes)),
                  ("unreachable within 3", True))


def counts(tally):
    """The last line and the status count the rows of the manifest, also where the table has fewer."""
    usual = rechecking.recheck

    def fewer(*words, **named):
        bundle = usual(*words, **named)
        bundle.rows = some(bundle.rows)
        return bundle

    status, _, err = called("recheck", kept("every"), "-q")
    tally.check("checking: all rows", status == 5 and "; all checked by aig;" in err, err)
    for name, some in (("some", lambda rows: [it for it in rows if it.name not in ("two", "never")]),
                       ("the last one", lambda rows: rows[:-1]), ("the last condition", lambda rows: rows[:3]),
                       ("the first one", lambda rows: rows[1:])):
        rechecking.recheck = fewer
        try:
            status, _, err = called("recheck", kept("every"), "-q")
        finally:
            rechecking.recheck = usual
        tally.check(f"checking: rows without an answer, {name}",
                    status == 1 and "a row is missing where rows are judged" in err, (status, err))
