"""The pages of theorems: a page that differs from the sources is seen, whatever of it differs. Beside them, how the
functions between the clauses and the system are found, and how definitions are shown; and that docs/PROVED.md names all
laws, and all calls without a clause."""

import pathlib
import re
import shutil
import sys

from library.runs import REPOSITORY, write

sys.path.insert(0, REPOSITORY + "/tools")
import contracts  # noqa: E402
import definitions  # noqa: E402
import theorems  # noqa: E402
from sources import between as found_between  # noqa: E402
from sources import shown  # noqa: E402
from sources.specs import Specs, words  # noqa: E402

# What is changed on a page, how, and a piece of what is printed then; and whether --write mends it.
WRONG = (
    ("circuit.md", "limit = 4194303", "limit = 4194304", "+limit = 4194303", True),
    ("circuit.md", "-- no entry has two names\n", "", "+-- no entry has two names", True),
    ("circuit.md", "pub comment: Option<Bytes>", "pub comment: Bytes", "+    pub comment: Option<Bytes>", True),
    ("circuit.md", "to believe: 170", "to believe: 17", "+Lines of definitions to believe: 170", True),
    ("circuit.md", "read_circuit.circuit", "read_circuit.fault", "nothing left to show of IsCircuit", False),
    ("refute.md", "OnOk result (Says", "OnErr result (Says", "+    ensures says { OnOk result (Says", True),
    ("refute.md", "beside the 170", "beside the 71", "+Lines of definitions to believe: ", True),
    ("refute.md", "<!-- show asked_of -->", "<!-- show asked_for -->", "nothing left to show of asked_for", False),
    ("refute.md", "Says rest -->", "Says -->", "refute.md does not show ", False),
    ("toaig.md", "renumbered raw order = ", "renumbered raw order =", "+renumbered raw order = ", True),
    ("notation.md", "`AllPairs R xs`", "AllPairs", "circuit.md uses AllPairs, which notation.md does not have", False),
    ("notation.md", "`zip`, `keys_of`", "`zip`", "circuit.md uses keys_of, which notation.md does not have", False),
    ("notation.md", "fn flush(&mut self)", "fn flush(self)", "+    fn flush(&mut self)", True),
    ("sim.md", "<!-- end -->", "", "sim.md: a block has no end", False),
    ("sim.md", "<!-- clause -->\n", "", "sim.md does not show its clause", False),
    ("sim.md", "<!-- theorem sim.ends ", "<!-- theorem", "sim.md is about no clause", False),
)


def said(promises):
    """Returns all that the script says of its pages, and the pages."""
    pages = theorems.all_pages(promises)
    return [*theorems.differences(pages), *(line for page in pages.values() for line in page.changes())], pages


def pages(_, tally, __):
    """Each page is as the sources are. A page that differs is seen, and `--write` writes what is in its blocks."""
    promises, usual = definitions.Promises(), theorems.FOLDER
    tally.compare("theorems: as they are", said(promises)[0], [])
    wanted = {"bench", "check", "circuit", "notation", "refute", "shell", "sim", "toaig"}
    tally.compare("theorems: all are there", {path.stem for path in usual.glob("*.md")}, wanted)
    theorems.FOLDER = pathlib.Path("theorems").absolute()
    try:
        for name, old, new, line, is_mended in WRONG:
            shutil.rmtree("theorems", ignore_errors=True)
            shutil.copytree(usual, "theorems")
            text = (usual / name).read_text(encoding="utf-8")
            tally.check(f"theorems: {name} has {old}", old in text)
            write(f"theorems/{name}", text.replace(old, new, 1).encode())
            found, after = said(promises)
            tally.check(f"theorems: {name} with {new or 'less'}", any(line in it for it in found), found[:9])
            if is_mended:
                tally.compare(f"theorems: {name} is mended from {new or 'less'}", after[name].new, text)
    finally:
        theorems.FOLDER = usual


# A module, and its functions that are between the clauses and the system.
MODULE = """//! rt.stdin()
fn main(rt: HostRuntime) -> u8 {
    0
}

/// Opens one.
pub fn opens<R: Files>(rt: &R, name: &str) -> Result<R::File, Exit>
where
    R::File: AsFd,
    ensures one { IfOk result (λ file.
        record { a = 1 } ≡ file) }
{
    match fs::open(rt, name) {
        Ok(file) => Ok(file),
        // fs::open(rt, other)
        Err(_) => Err(Exit),
    }
}

fn idle<R: Files>(rt: &R) -> Option<R::File> {
    fs::open(rt, "/dev/null").ok()
}

impl One {
    pub fn reads(&self) {
        let mut lines = Std::new(self.rt.reader());
    }

    // io::writer(rt)
    fn neither(&self) {}
}

trait Two {
    fn three(&self) -> u8;
}
"""


def between(_, tally, __):
    """The functions between the clauses and the system are found with their lines."""
    text = "\n".join(re.sub("//.*", "", line) for line in MODULE.split("\n"))
    bodies = dict(found_between.bodies(text))
    tally.compare("between: functions", [*bodies], ["main", "opens", "idle", "reads", "neither", "three"])
    tally.compare("between: lines", [len(lines) for lines in bodies.values()], [1, 4, 1, 1, 0, 0])
    asks = [name for name, lines in bodies.items() if found_between.ASKS.search("\n".join(lines))]
    tally.compare("between: those that ask", asks, ["opens", "reads"])
    files = {(file, name) for file, name, _ in found_between.code()}
    tally.check("between: of this program", {("aig/src/main.rt", "main"), ("aig_files/src/files.rt", "open")} <= files,
                files)


    tally.compare("between: code that tells types apart", found_between.telling(), [])
    lines = {"if size_of::<R>() == 0 {": True, "mem::size_of_val(&reader)": True, "any::type_name::<W>()": True,
             "TypeId::of::<R>()": True, "default fn read(&mut self) {": True, "(bit_in run) (size_of run)": False,
             "reader.type_identity()": False}
    tally.compare("between: such lines", {line: bool(found_between.TELLS.search(line)) for line in lines}, lines)


# Lines of code, and the lines that they become at a width of 40.
LINES = (
    ("f x = " + "a" * 30, ["f x = " + "a" * 30]),
    ("P xs ys zs = (Q xs ys zs × (R xs)) × (S ys)", ["P xs ys zs = (Q xs ys zs × (R xs))", "    × (S ys)"]),
    ("  pub a_field : A_long_type → B_long_type × C", ["  pub a_field : A_long_type", "      → B_long_type × C"]),
    ("    one_long_name xs ++ two_names ys ++ three", ["    one_long_name xs ++ two_names ys", "    ++ three"]),
)


def shown_text(_, tally, __):
    """A definition is shown with its comment, after those that it cites, in lines of a width."""
    usual = shown.WIDTH
    shown.WIDTH = 40
    try:
        for line, wanted in LINES:
            tally.compare(f"shown: {line}", [*shown.narrow(line)], wanted)
        comment = ["-- " + "word " * 9 + "end", "-- more", "f = 1"]
        wanted = ["-- " + "word " * 6 + "word", "-- word word end more", "f = 1"]
        tally.compare("shown: a comment", shown.narrowed(comment), wanted)
    finally:
        shown.WIDTH = usual
    tally.compare("shown: words", words('codes "within \\"it" ++ x.now'), {"codes", "++", "x.now"})
    specs = Specs()
    keys = specs.reached(key for key in specs.table if key[2] == "IsCircuit")
    ordered = shown.in_order(specs, keys)
    tally.compare("shown: each once", sorted(ordered), sorted(keys))
    early = [key[2] for place, key in enumerate(ordered)
             if specs.cited(specs.table[key].words, specs.table[key].known, key[:2]) - {*ordered[: place + 1]}]
    tally.compare("shown: after those that it cites", early, [])
    tally.check("shown: with its comment", shown.source(specs, ordered[0])[0].startswith("-- ") or
                len(shown.source(specs, ordered[0])) > 1)
    missing = [key for key in specs.table if key[2] not in shown.commented(specs.table[key].path)]
    tally.compare("shown: all definitions have lines", missing, [])
    write("one.antt", "-- head\nuse Rattle.a.specs.B.{\n  c,\n  d}\n\n-- e\n-- f\nabbrev pub g : h\ng = 1\n\n"
                      "data I where\n  -- j\n  k : I\n")
    tally.compare("shown: comments", shown.commented(pathlib.Path("one.antt")), {
        "g": ["-- e", "-- f", "abbrev pub g : h", "g = 1"], "I": ["data I where", "  -- j", "  k : I"]})


# What is changed in docs/PROVED.md, how, and what is printed then.
NAMES = (
    ("`law_of_read_map`", "`law_of_dimacs`", "docs/PROVED.md does not name law_of_read_map"),
    ("`law_of_cut`", "`law_of_cuts`", "docs/PROVED.md names law_of_cuts, which no crate exports"),
    ("`Near`", "`Nearest`", "docs/PROVED.md does not name Near::name, which has no clause"),
    ("`FileSource::none`", "`none`", "docs/PROVED.md does not name FileSource::none, which has no clause"),
)


def names(_, tally, __):
    """docs/PROVED.md names each law and each call without a clause."""
    promises, usual = definitions.Promises(), contracts.PROVED
    tally.compare("names: as they are", [*contracts.wrong_names(promises)], [])
    contracts.PROVED = pathlib.Path("PROVED.md")
    try:
        for old, new, line in NAMES:
            text = usual.read_text(encoding="utf-8")
            tally.check(f"names: {old}", old in text)
            write("PROVED.md", text.replace(old, new).encode())
            found = [*contracts.wrong_names(promises)]
            tally.check(f"names: {new}", line in found, found)
    finally:
        contracts.PROVED = usual
