"""Pages that `aig-verdicts run` made, with Yosys and cadical: each picture beside the plain simulator and explainer."""

import contextlib
import html
import io
import json
import os
import re
import shutil
import signal
import subprocess
import sys
from pathlib import Path

import aig
from aig_verdicts import command
from aig_verdicts.audit.bundle import Bundle, sum_of
from aig.waves.runs import Told, story
from aig.waves.svg import parts
from library import runs, supervised
from pages.tags import read
from pages.values import compared

DESIGNS = Path(__file__).resolve().parent.parent / "designs"
SMALL = """\
module small(input clk, input a, input [10:0] d, output reg [1:0] n, output reg [10:0] kept);
  initial n = 0;
  wire both = a && n == 1;
  always @(posedge clk) begin if (a) n <= n + (n != 2); kept <= d; end
  always @* begin
    two: assert (n != 2); // </pre><script>alert(1)</script> \u202e
    three: assert (n != 3);
    wide: assert (kept != 11'h5a5 || !both);
    back: cover (both);
    never: cover (n == 3);
  end
endmodule
"""


def called(*words):
    """The status of a command. Signals are as they were afterwards, for the command takes them."""
    before = [(number, signal.getsignal(number)) for number in (signal.SIGINT, signal.SIGTERM)]
    with contextlib.redirect_stdout(io.StringIO()), contextlib.redirect_stderr(io.StringIO()):
        try:
            return command.main([str(word) for word in words])
        finally:
            for number, handler in before:
                signal.signal(number, handler)


def made(_, tally, __):
    """Two designs, from Verilog and from a circuit with hostile names, to their pages."""
    for tool in ("yosys", "cadical"):
        if not shutil.which(tool):
            raise runs.LeftOut(f"there is no {tool}")
    Path("small.v").write_text(SMALL, encoding="utf-8")
    hostile = supervised.run([sys.executable, str(DESIGNS / "hostile.py")], stdout=subprocess.PIPE, check=True).stdout
    runs.write("hostile.aag", hostile)
    for file, wanted in (("small.v", ["b0", "b1", "b2", "b3", "b4"]), ("hostile.aag", ["b0"])):
        folder = f"{file}.out"
        tally.compare(f"{file}: the status", called("run", file, "--out", folder, "--frames", "20", "--abc", ""), 5)
        page = Path(folder, "index.html").read_text(encoding="utf-8")
        text = read(tally, file, page)
        tally.check(f"{file}: scripts are text", "<script>alert(1)</script>" in text)
        tally.compare(f"{file}: sections", [it for it in wanted if f'id="{it}"' not in page], [])
        pictured(tally, file, folder)
        opened(tally, file, folder, page)
        valued(tally, file, folder)
    tally.check("the register is shown", ">n</text>" in Path("small.v.out/index.html").read_text(encoding="utf-8"))


def opened(tally, file, folder, page):
    """What the page says to type for a dump: one with x, and one with the values that were found, if there is an x."""
    if not Path("path").exists():
        os.mkdir("path")
        os.symlink(os.path.abspath(os.environ["AIG_PROGRAM"]), "path/aig")
    path = f"{os.path.abspath('path')}:{os.environ['PATH']}"
    section = page.partition('<section id="b0"')[2].partition("<summary>Open it</summary>")[2].partition("</pre>")[0]
    typed = [html.unescape(line)[2:] for line in re.findall(r"\$ [^\n]*", section)]
    tally.compare(f"{file}: what is typed", [re.findall(r"aig [a-z]+", line) for line in typed],
                  [["aig shell"], ["aig wave"]] + [["aig wave"]] * (b"x" in Path(folder, "0.wit").read_bytes()))
    witness, dumps = Path(folder, "0.wit").read_bytes(), []
    for command, data in zip(typed[1:], (witness, *(it.read_bytes() for it in Path(folder).glob("0.concrete.wit")))):
        supervised.run(["sh", "-c", command], cwd=folder, env={**os.environ, "PATH": path}, check=True)
        dumps.append(Path(folder, "0.vcd").read_bytes())
        runs.write("run.wit", data)
        wanted = supervised.run(["path/aig", "wave", "--witness", f"{folder}/circuit.aig", "run.wit"],
                                stdout=subprocess.PIPE, check=True).stdout
        tally.check(f"{file}: {command}", dumps[-1] == wanted, dumps[-1])
    is_free = [re.search(rb"(?m)^(x|b[01]*x)", it.partition(b"$enddefinitions")[2]) is not None for it in dumps]
    tally.compare(f"{file}: which dump has x", is_free, [True, False] if b"x" in witness else [False])


def pictured(tally, file, folder):
    """Each run of a bundle beside the plain simulator."""
    circuit = aig.read(os.path.join(folder, "circuit.aig"))
    rows = json.loads(Path(folder, "MANIFEST.json").read_text())["rows"]
    shown = 0
    for row in rows:
        if "witness" in row.get("files", {}):
            witness = aig.Witness(circuit, Path(folder, row["files"]["witness"]).read_bytes())
            shown += compared(tally, f"{file} b{row['position']}", witness, "both n")
    tally.check(f"{file}: pictures", shown > 1, shown)


def valued(tally, file, folder):
    """The pale digits of a page are those of the concrete run in the folder, here with 1 for each x."""
    shutil.copytree(folder, f"{folder}.ones")
    bundle = Bundle(Path(f"{folder}.ones"))
    manifest, told, seen = bundle.manifest, Told(aig.read(os.path.join(folder, "circuit.aig"))), ""
    for path in Path(f"{folder}.ones").glob("*.concrete.wit"):
        data = path.with_name(path.name.replace(".concrete", "")).read_bytes().replace(b"x", b"1")
        path.write_bytes(data)
        manifest["sums"][path.name] = sum_of(data)
    Path(f"{folder}.ones", "MANIFEST.json").write_text(json.dumps(manifest))
    tally.compare(f"{file}: ones", called("recheck", f"{folder}.ones", "-q", "--page", "ones.html"), 5)
    page = Path("ones.html").read_text(encoding="utf-8")
    for row in bundle.rows:
        files = row.claim.files if row.claim is not None and row.kind in ("assert", "cover") else {}
        if "concrete" in files:
            run = story(told, bundle.read(files["witness"]), "", bundle.read(files["concrete"]))
            section = page.partition(f'<section id="b{row.position}"')[2].partition("</section>")[0]
            found, wanted = (re.findall(r'class="f">([0-9a-f]+)<', it)
                             for it in (section, parts(run.lanes, row.claim.frames)[1]))
            tally.compare(f"{file}: pale digits of b{row.position}", found, wanted)
            seen += "".join(wanted)
    tally.check(f"{file}: values", "1" in seen, seen)
