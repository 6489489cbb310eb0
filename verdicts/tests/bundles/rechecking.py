"""What `recheck` says of right and of harmed bundles, with each option. `aig` may print or end in another way, and
Yosys may make another circuit of the sources."""

from __future__ import annotations

import hashlib
import json
import os
import xml.etree.ElementTree as tree
from dataclasses import replace
from pathlib import Path

from aig_verdicts.compare import again as once_more
from aig_verdicts.audit import recheck
from aig_verdicts.audit.bundle import Bundle, Wrong, sum_of
from aig_verdicts.reading.design import Assertion, Design
from aig_verdicts.audit.manifest import rows_as_json
from bundles.common import called, judged, kept, manifest_of, raises, tool, why_rejected, write_manifest

CIRCUIT = "circuit.aig"


def right(_, tally, __):
    """The bundles that are kept are right: status, rows, words, and what `--json` prints."""
    for name, wanted, rows in (("every", 5, 11), ("contradiction", 4, 2)):
        path = kept(name)
        status, out, err = called("recheck", path, "--json")
        tally.compare(f"right: {name}", status, wanted)
        tally.check(f"right: {name}: the last line", "; all checked by aig; not compared with the sources" in err, err)
        said = json.loads(out)["rows"] if status == wanted else []
        tally.compare(f"right: {name}: rows", (len(said), said), (rows, manifest_of(path)["rows"]))
    path = kept("every")
    manifest = manifest_of(path)
    two = next(it for it in manifest["rows"] if it.get("name") == "two")
    del manifest["sums"][two["files"].pop("shorter")]
    later = next(it for it in manifest["rows"] if it.get("name") == "later")
    del manifest["sums"][later.pop("files")["base"]], later["by"], later["frames"]
    later.update(verdict="undecided", result="undecided")
    write_manifest(path, manifest)
    said = {row[2]: row[3] for row in judged(path) or []}
    tally.compare("right: without a proof that none is shorter, and one open", (said.get("two"), said.get("later")),
                  ("confirmed", "undecided"))
    tally.compare("right: words", {it["name"]: it.get("result") for it in rows_as_json(recheck.recheck(path).rows)[1:]
                                   if it["kind"] in ("assert", "cover")},
                  {"a_nothing": "vacuous", "back": "reached", "later": "undecided", "never": "never reached",
                   "same": "holds", "stops": "holds", "three": "holds", "two": "fails"})


def harms(_, tally, __):
    """A byte more, another byte, and nothing, in the place of each file: rejected. With all sums mended, so are those
    without which nothing is shown."""
    path = kept("every")
    names = [*manifest_of(path)["sums"]]
    for name in names:
        data = (path / name).read_bytes()
        for how, changed in (("a byte more", data + b"\n"), ("another byte", data[:-1] + bytes([data[-1] ^ 1])),
                             ("empty", b"")):
            (path / name).write_bytes(changed)
            why = why_rejected(path) or ""
            tally.check(f"harms: {how} in {name}", f"{name} has another sum" in why, why)
        (path / name).write_bytes(data)
    needed = {"a witness": "2.wit", "a step": "8.step.drat", "a certificate": "6.cert.aag", "its proof": "6.cert.drat",
              "the circuit": CIRCUIT}
    for name, file in needed.items():
        path = kept("every")
        (path / file).write_bytes(b"")
        write_manifest(path, manifest_of(path))
        tally.check(f"harms: {name} is empty", why_rejected(path) is not None)
    path = kept("contradiction")
    (path / "alive.drat").write_bytes(b"")
    manifest = manifest_of(path)
    manifest["rows"][0]["frames"], manifest["rows"][0]["verdict"] = 1, "no run of 1 frames"
    write_manifest(path, manifest)
    tally.check("harms: no run that keeps the assumptions", why_rejected(path) is not None)
    long = b"x" * (1 << 21)
    tally.compare("harms: sums", [sum_of(data) for data in (long + b"1", long + b"2", b"")],
                  [hashlib.sha256(data).hexdigest() for data in (long + b"1", long + b"2", b"")])
    (path / CIRCUIT).write_bytes((path / CIRCUIT).read_bytes() + b"c\n")
    bundle = Bundle(path)
    tally.check("harms: the circuit by itself", raises(Wrong, bundle.circuit) and bundle.read(CIRCUIT))
    (path / "sources/contradiction.v").write_text("module other; endmodule\n")
    tally.compare("harms: a source for the page", bundle.source("contradiction.v"), None)


def with_aig(tally, name, body, wanted=1, rows=("two", "three")):
    """A re-check with an `aig` that does something else for these rows: none of them is right."""
    path, real = kept("every"), os.environ["AIG_PROGRAM"]
    for which in rows:
        at = next(it["position"] for it in manifest_of(path)["rows"] if it.get("name") == which)
        text = f'case "$*" in *--property={at}\\ *) {body} ;; esac\nexec "{real}" "$@"'
        os.environ["AIG_PROGRAM"] = tool("other_aig", text.replace("REAL", f'"{real}"'))
        try:
            why = why_rejected(path)
            status, out, err = called("recheck", path, "-q")
        finally:
            os.environ["AIG_PROGRAM"] = real
        tally.check(f"{name}: {which}", why is not None and f"b{at}" in why, why)
        tally.check(f"{name}: {which}: status", status == wanted and "all checked" not in err, (status, err))


def lines(_, tally, __):
    """An `aig` that prints less or more than the line of the verdict, another one, or nothing."""
    for name, body in {
        "less": 'said=$(REAL "$@"); echo "${said%?}"; exit 0', "a word more": 'echo "$(REAL "$@") within 4"; exit 0',
        "a line more": 'REAL "$@"; echo more; exit 0', "nothing": "exit 0", "a blank line": "echo; exit 0",
        "of another": 'echo alive; exit 0', "capitals": 'REAL "$@" | tr a-z A-Z; exit 0',
        "not bad": "echo not bad; exit 1", "within": "echo unreachable within 65536; exit 0",
    }.items():
        with_aig(tally, f"lines: {name}", body)


def ends_of_aig(_, tally, __):
    """An `aig` that prints the right line, and then is killed, ends with another status, or prints a message: the last
    one alone rejects the bundle."""
    for name, end in {"killed": "kill -9 $$", "a crash": "kill -SEGV $$", "status 2": "exit 2", "status 3": "exit 3",
                      "status 5": "exit 5", "status 130": "exit 130",
                      "a message": "echo 'aig: proof: step 1' >&2; exit 0",
                      "a message and status 1": "echo 'aig: proof: step 1' >&2; exit 1"}.items():
        with_aig(tally, f"ends of aig: {name}", f'REAL "$@" 2> err; {end}', 1 if "message" in name else 4)


def again(_, tally, __):
    """`recheck --yosys`, where Yosys is a function of this test: the same circuit and places, and others. Whether
    another circuit does the same is a function, too."""
    path = kept("every")
    rows = Bundle(path).rows[1:]
    places = [Assertion(it.position, it.kind, it.name, it.file, it.first, it.last, it.of) for it in rows]
    circuit = (path / CIRCUIT).read_bytes()
    usual = once_more.made, once_more.version, once_more._difference, once_more.do_the_same
    once_more.version = lambda name, _: manifest_of(path)["versions"][name]
    once_more._difference, once_more.do_the_same = lambda *_: "its gates are others", lambda *_: False

    def why(data=circuit, assertions=places, change=None):
        read = []

        def made(paths, stop, options, asserts=()):
            read.extend(it.read_bytes() for it in paths)
            return Design("every", data, assertions)

        bundle = Bundle(kept("every"))
        if change:
            change(bundle)
        once_more.made = made
        try:
            once_more.same_design(bundle)
        except Wrong as error:
            return str(error)
        finally:
            once_more.made = usual[0]
        return "" if read == [(path / "sources/every.v").read_bytes()] else "other sources"

    tally.compare("again: the same", why(), "")
    turned = bytearray(circuit)
    turned[-2] ^= 1
    for name, data in (("one bit", bytes(turned)), ("a byte more", circuit + b"\n"), ("nothing", b"")):
        tally.check(f"again: {name}", "another circuit" in why(data))
    once_more.do_the_same = lambda old, new, _: (old, new) == (circuit, bytes(turned))
    tally.compare("again: one that does the same", [why(bytes(turned)), why(circuit + b"\n") != ""], ["", True])
    for name, change in {"line": {"last": 99}, "first line": {"first": 1}, "file": {"file": "x.v"},
                         "name": {"name": "x"}, "kind": {"kind": "cover"}}.items():
        for at in (0, len(places) - 1):
            others = [replace(it, **change) if it.position == at else it for it in places]
            tally.check(f"again: another {name} of b{at}", "at another place" in why(assertions=others))
    source = Path("every.verdicts/sources/every.v")
    tally.check("again: a source of another sum",
                "another sum" in why(change=lambda _: source.write_bytes(b"module m; endmodule")))
    for name, options in {"none": {}, "another": {"top": "every", "defines": [], "conditions": True, "more": True},
                          "one more": {"top": "every", "defines": [], "conditions": True, "wires": True, "more": True},
                          "a number": {"top": "every", "defines": [], "conditions": 1, "wires": True},
                          "a text": {"top": "every", "defines": "X", "conditions": True, "wires": True},
                          "no text": {"top": None, "defines": [], "conditions": True, "wires": True}}.items():
        said = why(change=lambda bundle: bundle.manifest.update(options=options))
        tally.check(f"again: options: {name}", said != "", said)
    options = {"top": "every", "defines": [], "conditions": True, "wires": True}
    for name, more in {"files alone": {"asserts": ["every.v"]},
                       "a text of them": {"asserts": "every.v", "module": "m"}}.items():
        said = why(change=lambda bundle: bundle.manifest.update(options={**options, **more}))
        tally.check(f"again: assertions: {name}", said != "", said)
    tally.check("again: another translation", "the translation" in why(change=_with_a_translation))
    tally.compare("again: no sources", why(change=lambda bundle: bundle.manifest.update(sources=[])),
                  "the bundle has no sources")
    tally.compare("again: no sources and no options", "the bundle has no sources",
                  why(change=lambda bundle: bundle.manifest.update(sources=[], options={})))
    once_more.version = lambda *_: "yosys Yosys 9.9"
    others = [replace(it, first=it.first - 1) for it in places]
    tally.compare("again: another Yosys may begin a line before", why(assertions=others), "")
    _, once_more.version, once_more._difference, once_more.do_the_same = usual


def _with_a_translation(bundle):
    """A bundle that says that Yosys read a copy of its source."""
    copy = Path("every.verdicts/translated/every.v")
    copy.parent.mkdir()
    copy.write_bytes(b"x")
    bundle.manifest.update(translated=["every.v"])
    bundle.sums["translated/every.v"] = sum_of(b"x")


def rechecked(_, tally, __):
    """`recheck` with each option: what it checks, what it asks Yosys, its last line and its status."""
    asked = []
    usual = once_more.same_design
    once_more.same_design = lambda bundle, stop: asked.append(bundle) or once_more.Remade.SAME
    try:
        for words in ((), ("-q",), ("--json",), ("--jobs", "1"), ("--page", "page.html"), ("-q", "--junit", "j.xml")):
            for more in ((), ("--yosys",)):
                asked.clear()
                status, _, err = called("recheck", kept("every"), *words, *more)
                tally.compare(f"rechecked: {words}, {more}", (status, len(asked)), (5, len(more)))
                tally.compare(f"rechecked: {words}, {more}: the last line", "Yosys makes the same" in err, bool(more))

        def other(*_):
            raise Wrong("Yosys makes another circuit")

        once_more.same_design = other
        for words in ((), ("-q",), ("--json",)):
            status, _, err = called("recheck", kept("every"), "--yosys", *words)
            tally.compare(f"rechecked: another circuit, {words}", (status, "all checked" in err), (1, False))
    finally:
        once_more.same_design = usual
    case = tree.parse("j.xml").getroot().find("testsuite/testcase[@name='two']/failure")
    tally.check("rechecked: the cycle of a run", "run of 3, at cycle 2" in (case.text if case is not None else ""))
    path = kept("every")
    (path / "2.wit").write_bytes((path / "2.wit").read_bytes().replace(b"1", b"0"))
    write_manifest(path, manifest_of(path))
    for words in ((), ("-q",), ("--json",), ("--page", "page.html")):
        tally.compare(f"rechecked: a wrong row, {words}", called("recheck", path, *words)[0], 1)
    status, _, err = called("recheck", kept("every"), "--megabytes", "0")
    tally.check("rechecked: the largest file", status in (1, 2), (status, err))
    path = kept("every")
    with (path / "sources/every.v").open("ab") as file:
        file.write(b" " * (1 << 21))
    write_manifest(path, manifest_of(path))
    status, _, err = called("recheck", path, "--megabytes", "1")
    tally.check("rechecked: a file of 2 MB", status == 1 and "every.v is too large" in err, (status, err))
    tally.compare("rechecked: vacuous", called("recheck", kept("contradiction"))[0], 4)
    path = kept("every")
    manifest = manifest_of(path)
    for name in ("later", "same"):
        it = next(it for it in manifest["rows"] if it.get("name") == name)
        for file in it.pop("files").values():
            del manifest["sums"][file]
        it.update(verdict="undecided", result="undecided", by="")
        it.pop("frames", None)
    write_manifest(path, manifest)
    status, _, err = called("recheck", path, "--page", "page.html")
    tally.check("rechecked: rows that are open", status == 5 and "; 6 of 8 checked by aig;" in err, err)
    page = Path("page.html").read_text(encoding="utf-8")
    tally.check("rechecked: the page names the program here", "aig 0.2.0" not in page and ">aig " in page)
    manifest = manifest_of(path)
    manifest["notes"], manifest["versions"]["yosys"] = ["foreign"], "foreign"
    manifest["rows"][1]["notes"] = ["foreign"]
    write_manifest(path, manifest)
    _, out, _ = called("recheck", path, "--json", "--page", "page.html", "--junit", "rows.xml")
    page = Path("page.html").read_text(encoding="utf-8")
    shown = page + out + Path("rows.xml").read_text(encoding="utf-8")
    tally.check("rechecked: nothing of the sender but names",
                "foreign" not in shown and "aria-label=\"source\"" not in page, shown)
