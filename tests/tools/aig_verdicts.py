"""`aig-verdicts` from Verilog to a bundle: each kind of row, names, warnings, hostile paths and sources, the same
bytes from threads and processes, and the circuit that Yosys makes again."""

import json
import os
import sys
from concurrent.futures import ProcessPoolExecutor
from pathlib import Path
from subprocess import DEVNULL

from hints.programs import built
from library import supervised
from library.runs import REPOSITORY, LeftOut, leave_out
from library.supervised import SCRIPT_SECONDS
from tools.external import Tools

sys.path.insert(0, f"{REPOSITORY}/verdicts/tests")
from paths import PYTHONPATH  # noqa: E402
from aig_verdicts.search import workers  # noqa: E402
from aig_verdicts.search.task import Bounds  # noqa: E402
from aig_verdicts.reading.design import Reading, read_verilog  # noqa: E402
from aig_verdicts.search.session import Plan, Session  # noqa: E402
from aig.tools import Stop  # noqa: E402
from aig_verdicts.search.workers import Work  # noqa: E402
from bundles.common import (  # noqa: E402
    HERE, called, judged, manifest_of, rows_of, same_manifests, write_manifest,
)

EVERY = HERE / "every.verdicts" / "sources" / "every.v"
# The roles of proofs that these designs have.
PROOFS = ("shorter", "base", "step", "proof", "alive")
# A Python that has Dask.
DASK = os.environ.get("AIG_DASK_PYTHON", "/usr/bin/python3")
DECIMAL = """\
module decimal(input clk, input e, output reg [3:0] q);
  initial q = 0;
  always @(posedge clk) if (e) q <= q == 9 ? 0 : q + 1;
  always @* a: assert (q != 13);
endmodule
"""
COUNTER = """\
module counter(input clk, output reg [5:0] q);
  initial q = 0;
  always @(posedge clk) q <= q + 1;
  always @* a: assert (q != 40);
endmodule
"""


def aig_verdicts(program, tally, _):
    Tools()
    os.environ["AIG_PROGRAM"] = program.path
    kinds(tally)
    by_abc(tally)
    hints(tally)
    sources(tally)
    hostile(tally)
    again(tally)
    same_bytes(tally)


def run(path, *words, out="out"):
    return called("run", path, "--out", out, *words)


def written(name, text):
    Path(name).write_text(text)
    return name


def kinds(tally):
    """A row of each kind. Assertions that say the same are two rows."""
    status, out, _ = run(EVERY, "--frames", "4")
    found = {line.split()[3]: " ".join(line.split()[4:]) for line in out.splitlines()}
    wanted = {"two": "fails run of 3", "three": "holds", "same": "holds", "a_nothing": "vacuous", "stops": "holds",
              "later": "fails run of 9", "back": "reached run of 2", "never": "never reached"}
    tally.compare("kinds: status", status, 5)
    tally.compare("kinds: names", sorted(found), sorted(wanted))
    for name, word in wanted.items():
        tally.check(f"kinds: {name}", found.get(name, "").startswith(word), found.get(name))
    tally.check("kinds: re-checked", judged("out") is not None)
    tally.check("kinds: places", all(f"every.v:{place}" in out for place in range(8, 16)), out)
    status, out, _ = run(HERE / "contradiction.verdicts" / "sources" / "contradiction.v", "--frames", "5", out="none")
    tally.check("kinds: contradiction", status == 4 and "vacuous" in out, out)
    tally.compare("kinds: its proof", judged("none")[0][3], "no run of 5 frames")
    status, out, _ = run(EVERY, "--frames", "4", "--no-conditions", out="without")
    tally.check("kinds: without conditions", {it["kind"] for it in manifest_of("without")["rows"]} == {
        "assert", "cover", "constraints"})


def by_abc(tally):
    """What induction does not show, and a run that is longer than --frames: ABC knows both, and `aig` checks them."""
    status, _, _ = run(written("decimal.v", DECIMAL), "--frames", "3", out="decimal")
    tally.compare("by ABC: an invariant", (status, rows_of("decimal")["a"]["by"]), (0, "certificate"))
    status, _, _ = run(written("counter.v", COUNTER), "--frames", "5", out="counter")
    row = rows_of("counter")["a"]
    tally.compare("by ABC: a long run", (status, row["frames"], sorted(row["files"])),
                  (5, 41, ["concrete", "shorter", "witness"]))
    status, _, _ = run("counter.v", "--frames", "5", "--abc", "", out="bounded")
    tally.compare("by ABC: without it", (status, rows_of("bounded")["a"]["verdict"]), (4, "unreachable within 5"))
    status, _, _ = run("counter.v", "--frames", "5", out="bounded")
    tally.compare("by ABC: later", (status, rows_of("bounded")["a"]["frames"]), (5, 41))


def hints(tally):
    """Proofs of each kind with hints, where there is a compiler of C++: the verdicts are as without them."""
    try:
        words = ("--frames", "5", "--drat2lrat", built("drat2lrat"))
    except LeftOut as reason:
        leave_out("aig_verdicts: hints", reason)
        return
    roles = set()
    for name, source in (("every", EVERY), ("contradiction", HERE / "contradiction.verdicts/sources/contradiction.v"),
                         ("decimal", written("decimal.v", DECIMAL)), ("counter", written("counter.v", COUNTER))):
        run(source, "--frames", "5", out=f"{name}_drat")
        run(source, *words, out=f"{name}_lrat")
        tally.compare(f"hints: {name}", judged(f"{name}_lrat"), judged(f"{name}_drat"))
        for row in manifest_of(f"{name}_lrat")["rows"]:
            proofs = {role: file for role, file in row.get("files", {}).items()
                      if role not in ("witness", "concrete", "certificate")}
            tally.check(f"hints: {name}: {row['position']}", all(it.endswith(".lrat") for it in proofs.values()), row)
            roles |= set(proofs)
    tally.compare("hints: of each kind", roles & {*PROOFS}, {*PROOFS})


def sources(tally):
    """Sources that Yosys rejects, without an assertion, that are missing; its warnings are notes."""
    for name, text in {"broken": "module m(input a); assert(", "none": "module m(input a); endmodule",
                       "empty": ""}.items():
        status, _, err = run(written(f"{name}.v", text), out=f"of_{name}")
        tally.check(f"sources: {name}", status == 1 and err.startswith("aig-verdicts: "), (status, err))
        tally.check(f"sources: {name}: no folder", not Path(f"of_{name}").exists())
    tally.compare("sources: missing", run("missing.v")[0], 3)
    text = "module t(input clk); reg n = 0; always @(posedge clk) n <= !n; always @* a: assert (coumt != 1); endmodule"
    status, _, err = run(written("t.v", text), "--frames", "3", out="t")
    tally.check("sources: a warning", status == 5 and "implicitly declared" in err, err)
    tally.check("sources: a note", "implicitly declared" in " ".join(manifest_of("t")["notes"]))
    tally.check("sources: on the page", "implicitly declared" in Path("t/index.html").read_text())
    two = DECIMAL + DECIMAL.replace("module decimal", "module other")
    tally.compare("sources: --top", run(written("two.v", two), "--top", "other", "-q", out="two")[0], 0)
    tally.compare("sources: the top module", manifest_of("two")["options"]["top"], "other")
    macro = DECIMAL.replace("13", "`LIMIT")
    status, out, _ = run(written("macro.v", macro), "-D", "LIMIT=7", "-q", out="macro")
    tally.compare("sources: -D", (status, rows_of("macro")["a"]["frames"]), (5, 8))
    os.mkdir("headers")
    written("headers/limit.vh", "`define LIMIT 6\n")
    written("including.v", f'`include "limit.vh"\n{macro}')
    tally.compare("sources: without -I", run("including.v", "-q", out="including")[0], 1)
    tally.compare("sources: -I", run("including.v", "-I", "headers", "-q", out="including")[0], 5)
    tally.compare("sources: what it includes", rows_of("including")["a"]["frames"], 7)
    os.rename("headers/limit.vh", "limit")
    tally.compare("sources: -I, again without the folder", called("recheck", "--yosys", "including")[0], 5)


def hostile(tally):
    """Paths, names of modules and macros that would be commands of Yosys; comments that would be parts of the page."""
    name = written("a b; shell touch owned .v", EVERY.read_text())
    status, _, err = run(name, "--frames", "2", "--only", "two", out="path")
    tally.check("hostile: a path", status == 5 and judged("path") is not None, (status, err))
    for words in (("--top", "every; shell touch owned"), ("-D", "X; shell touch owned"),
                  ("-D", "X=1; shell touch owned")):
        tally.compare(f"hostile: {words}", run(name, *words, out="words")[0], 1)
    tally.check("hostile: no command ran", not list(Path().rglob("owned")))
    comment = "// </pre><script>alert(1)</script> \u202e\n"
    run(written("comment.v", DECIMAL.replace("  always @* a", f"{comment}  always @* a")), out="comment")
    page = Path("comment/index.html").read_text()
    tally.check("hostile: a comment", "<script" not in page and "\u202e" not in page and "script&#62;" in page)


def again(tally):
    """`recheck --yosys` makes the same circuit of the sources. It never runs the script of the bundle. It finds changed
    sources, which `recheck` alone cannot."""
    run("counter.v", "--frames", "5", out="again")
    path = Path("again")
    good = manifest_of(path)
    (path / "yosys.ys").write_text("shell touch owned\n")
    write_manifest(path, good)
    tally.compare("again: the same circuit", called("recheck", "--yosys", path)[0], 5)
    tally.check("again: the script is not run", not list(Path().rglob("owned")))
    source = path / "sources" / "counter.v"
    text = source.read_text()
    for name, changed, why in (
        ("another circuit", text.replace("q != 40", "q != 39"), "another circuit"),
        ("another place", f"\n{text}", "at another place"), ("no module", "", "aig-verdicts: "),
    ):
        source.write_text(changed)
        write_manifest(path, good)
        tally.compare(f"again: {name}: without --yosys", called("recheck", path)[0], 5)
        status, _, err = called("recheck", "--yosys", path)
        tally.check(f"again: {name}", status == 1 and why in err, (status, err))
    source.write_text(text)
    for change in ({"top": "other"}, {"conditions": False, "wires": 1}, {"defines": ["X; shell touch owned"]}):
        write_manifest(path, {**good, "options": {**good["options"], **change}})
        tally.compare(f"again: options {change}", called("recheck", "--yosys", path)[0], 1)
    tally.check("again: no command ran", not list(Path().rglob("owned")))


def same_bytes(tally):
    """One worker, four workers and two processes write the same bytes, also where a bound on conflicts ends
    questions."""
    for name, words in (("frames", ("--frames", "6")), ("conflicts", ("--frames", "6", "--conflicts", "5"))):
        words = (*words, "--no-simulator")  # as a session has none of its own
        run(EVERY, *words, "-j", "1", out=f"{name}_1")
        run(EVERY, *words, "-j", "4", out=f"{name}_4")
        tally.check(f"same bytes: {name}", same_manifests(f"{name}_1", f"{name}_4"))
    design = read_verilog([EVERY], Reading(), Stop())
    for name, large in (("processes", workers.LARGE), ("by_path", 1)):
        usual, workers.LARGE = workers.LARGE, large
        session = Session(design, Path(name), Plan(Bounds(frames=6)))
        try:
            session.open()
            with ProcessPoolExecutor(2) as pool:
                tally.check(f"same bytes: {name}: complete", session.search(Work(pool)))
        finally:
            workers.LARGE = usual
            session.close()
        tally.check(f"same bytes: {name}", same_manifests("frames_1", name))


_DASK = """\
import sys
from dask.distributed import LocalCluster
from aig_verdicts import command
from aig_verdicts.search import workers
if __name__ == "__main__":
    with LocalCluster(n_workers=2, threads_per_worker=1, processes=True, dashboard_address=None) as cluster:
        words = ["run", sys.argv[1], "--frames", "6", "-q", "--dask", cluster.scheduler_address, "--out"]
        for out, large in (("dask", workers.LARGE), ("dask_shared", 1)):
            workers.LARGE = large
            print("status", command.main([*words, out]))
"""


def dask(program, tally, _):
    """`aig-verdicts --dask`: two workers of Dask, in processes of their own, write the same bytes as a thread; a large
    circuit is sent to them once."""
    Tools()
    os.environ["AIG_PROGRAM"] = program.path
    has_dask = supervised.run([DASK, "-c", "import dask.distributed"], capture_output=True)
    if has_dask.returncode != 0:
        raise LeftOut(f"{DASK} has no dask.distributed: apt-get install python3-distributed, or set AIG_DASK_PYTHON")
    run(EVERY, "--frames", "6", "-j", "1", out="alone")
    environment = {**os.environ, "PYTHONPATH": PYTHONPATH, "AIG_PROGRAM": program.path}
    written("by_dask.py", _DASK)
    done = supervised.run([DASK, "by_dask.py", str(EVERY)], env=environment, stdin=DEVNULL,
                          capture_output=True, timeout=SCRIPT_SECONDS)
    tally.compare("dask: statuses", done.stdout.decode().splitlines()[-1:], ["status 5"])
    for out in ("dask", "dask_shared"):
        tally.check(f"dask: {out}: the same bytes", Path(out).exists() and same_manifests("alone", out),
                    done.stderr[-400:])
