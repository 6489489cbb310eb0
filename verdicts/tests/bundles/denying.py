"""What a simulator says beside the verdicts: which rows it denies, and that nobody believes a bundle that says so."""

from __future__ import annotations

from pathlib import Path

from aig_verdicts.audit.simulated import AsIn, Said, Simulated, are_facts, of_facts
from aig_verdicts.audit.table import Table, compared
from bundles.common import called, judged, kept, manifest_of, write_manifest
from bundles.judging import FOUND, _row, judge

# What a simulator says of a row: where it says nothing against the circuit, whether the row is denied; and where it
# does, whether the row has its verdict, and whether the row says that its circuit is denied.
SAID = {
    "agrees": (False, (True, False)), "disagrees": (True, (False, False)), "open": (False, (True, True)),
    None: (False, (True, True)),
}
RIGHT = {"by": "S 1", "circuit": "it is the same", "agrees": True,
         "rows": {"0": ["agrees", "as it is"], "12": ["open", ""]}}
# Facts that no run writes.
WRONG = {
    "no object": [], "a part is missing": {key: RIGHT[key] for key in ("by", "circuit", "agrees")},
    "a part more": {**RIGHT, "more": 1}, "a number": {**RIGHT, "by": 1}, "no text": {**RIGHT, "circuit": None},
    "a word for yes": {**RIGHT, "agrees": "yes"}, "1 for yes": {**RIGHT, "agrees": 1}, "a list": {**RIGHT, "rows": []},
    "a negative row": {**RIGHT, "rows": {"-1": ["agrees", ""]}}, "no row": {**RIGHT, "rows": {"a": ["agrees", ""]}},
    "a huge row": {**RIGHT, "rows": {"9" * 10: ["agrees", ""]}}, "a word": {**RIGHT, "rows": {"0": "agrees"}},
    "a word less": {**RIGHT, "rows": {"0": ["agrees"]}}, "a word more": {**RIGHT, "rows": {"0": ["agrees", "", ""]}},
    "a row of numbers": {**RIGHT, "rows": {"0": ["agrees", 1]}}, "another digit": {**RIGHT, "rows": {"²": ["open", ""]}},
}


def denying(_, tally, __):
    """Each way to a verdict with each word of a simulator, beside others; facts of a manifest, right and wrong; and a
    bundle whose manifest says what a simulator said."""
    for found in FOUND:
        for word, (is_denied, (stays, is_doubted)) in SAID.items():
            table = judge([_row(at, "assert", found) for at in range(3)])
            rows = {} if word is None else {1: Said(word, f"it {word}")}
            for agrees in (True, False):
                first, it, _ = Simulated("S 1", "a sentence", agrees, rows).beside(table)
                keeps = stays if not agrees else not is_denied
                name = f"denying: {found}, {word}, {agrees}"
                tally.compare(name, (it.words, it.simulated), (table[1].words if keeps else "disagrees",
                                                               f"it {word}" if word else ""))
                tally.compare(f"{name}: its circuit", (bool(it.denied), bool(first.denied)),
                              (is_doubted and not agrees, not agrees))
                status = max(table[1].status, 4) if it.denied else table[1].status
                tally.compare(f"{name}: status", it.status, status if keeps else 4)
    facts(tally)
    for agrees, word in ((True, "agrees"), (False, "disagrees")):
        path = kept("every")
        right = judged(path)
        manifest = manifest_of(path)
        manifest["simulated"] = {"by": "S 1", "circuit": "S 1 said so", "agrees": agrees,
                                 "rows": {"9": [word, "it says so"]}}
        write_manifest(path, manifest)
        status, out, err = called("recheck", path, "--page", "page.html", "--junit", "j.xml")
        tally.check(f"denying: a bundle that {word}", status == 5 and "not compared with the sources" in err
                    and judged(path) == right, (status, err))
        said = [name for name in ("page.html", "j.xml") if "S 1" in Path(name).read_text() or "says so" in
                Path(name).read_text()]
        tally.check(f"denying: a bundle that {word} is not believed", said == [] and "S 1" not in out + err, said)


def facts(tally):
    said = of_facts(RIGHT)
    tally.compare("denying: facts", (said.facts(), said.rows), (RIGHT, {0: Said("agrees", "as it is"),
                                                                        12: Said("open", "")}))
    denied = Simulated("S 1", "another", False, {})
    tally.compare("denying: facts of a circuit that is denied", of_facts(denied.facts()), denied)
    unknown = Simulated("S 1", "S 1 cannot play the design", None, {})
    table = judge([_row(0, "assert", "proof")])
    tally.compare("denying: nothing compared", (of_facts(unknown.facts()), are_facts(unknown.facts()),
                                                unknown.beside(table)[0].status, Table(table).line_of_run(True, unknown)),
                  (unknown, True, 0, "1 assertion: 1 hold; not compared with a simulator"))
    why = unknown._replace(why="S 1 cannot play the design")
    tally.compare("denying: why", Table(table).line_of_run(True, why),
                  "1 assertion: 1 hold; not compared with a simulator: S 1 cannot play the design")
    as_in = AsIn("S 1", 3, 4000, 1, 2, 1, ("m.v:3",), 1, True, 7, "no x")
    tally.compare("denying: what was compared", as_in.said,
                  "3 signals, 4,000 values: as in S 1; 1 is x there; not compared: 2 signals, 1 assertion, 1 run; no row is about "
                  "m.v:3; no x; concurrent assertions as they were translated (seed 7)")
    same = Simulated("S 1", as_in.said, True, {}, as_in)
    tally.compare("denying: of a sender it is no comparison", of_facts(same.facts()), same._replace(as_in=None))
    tally.check("denying: facts of a comparison", are_facts(same.facts()) and same.facts()["compared"]["seed"] == 7)
    for name, (it, wanted) in {"of ours": (same, "which is no proof"), "a sentence alone": (
            Simulated("S 1", "9 signals, 9 values: as in S 1", True), "so nothing is said of the sources")}.items():
        tally.check(f"denying: as in, {name}", compared(True, "", it).endswith(wanted), compared(True, "", it))
    try:
        AsIn("S 1", 0, 0)
        tally.check("denying: as in, without a value", False)
    except ValueError:
        tally.check("denying: as in, without a value", True)
    tally.compare("denying: no facts", (Simulated().facts(), of_facts({})), ({}, Simulated()))
    tally.compare("denying: right facts", [are_facts(it) for it in (RIGHT, {}, denied.facts())], [True] * 3)
    for name, wrong in WRONG.items():
        tally.check(f"denying: {name}", not are_facts(wrong), wrong)
    path = kept("every")
    manifest = manifest_of(path)
    manifest["simulated"] = WRONG["a word for yes"]
    write_manifest(path, manifest)
    tally.check("denying: a manifest of wrong facts", judged(path) is None)
