"""Which planted bugs of crates the gate tries again, and how they are read."""

import contextlib
import io
import os
import pathlib
import sys

from library.runs import REPOSITORY, write

sys.path.insert(0, REPOSITORY + "/tools")
import gate  # noqa: E402
import planted  # noqa: E402
import refused  # noqa: E402
from judge import bugs as of_crates  # noqa: E402
from judge.bugs import Edit  # noqa: E402
from judge.crates import Crate  # noqa: E402
from judge.trials import FALSE, Goal, judged  # noqa: E402
from sources import planted as files_of_bugs  # noqa: E402

# The files of a proved library, with what is changed in each, and whether crates above can cite that.
LIBRARY = {
    "interface/lang/src/lib.rt": ("pub fn one ( ) -> u32 ;", "pub fn two ( ) -> u32 ;", True),
    "lang/src/lib.rt": ("pub fn one() -> u32 { 1 }", "pub fn one() -> u32 { 2 - 1 }", False),
    "lang/antt/specs/One.antt": ("one = 1", "one = 2", True),
    "lang/antt/proofs/OneLemmas.antt": ("same = refl", "same = sym refl", True),
    "lang/antt/proofs/one/Answers.antt": ("answer = refl", "answer = sym refl", False),
    "lang/antt/proofs/one/Invariants.antt": ("holds = refl", "holds = sym refl", False),
    "toolchain/mir.json": ("[1]", "[2]", False),
}
# The modules that the toolchain made, with their places in a file, in the same way.
MADE = {"facade": True, "facade/one": True, "specs": True, "specs/contracts/one": True, "proofs/one/Code/Mir": False}


def made_json(changed=None, at=9):
    """The list of modules, where one has another sum."""
    return "".join(f'["{name}",{at},72,"{"f" if name == changed else "0"}{number}",false]\n'
                   for number, name in enumerate(MADE))


def library(changed=None, module=None, at=9):
    """A folder like a proved library, where a file or a module is changed."""
    folder = pathlib.Path(os.path.abspath(f"library{len(os.listdir())}"))
    for name, (text, other, _) in LIBRARY.items():
        (folder / name).parent.mkdir(parents=True, exist_ok=True)
        (folder / name).write_text(other if name == changed else text)
    (folder / "toolchain/made.json").write_text(made_json(module, at))
    return folder


def cited(_, tally, __):
    """The sum of a library is that of what crates above can cite."""
    plain = refused.cited_sum(library())
    tally.compare("cited: in another folder", refused.cited_sum(library(at=10)), plain)
    for name, (_, _, is_cited) in LIBRARY.items():
        tally.compare(f"cited: {name}", refused.cited_sum(library(name)) != plain, is_cited)
    for name, is_cited in MADE.items():
        tally.compare(f"cited: the module {name}", refused.cited_sum(library(module=name)) != plain, is_cited)
    for name in ("interface", "toolchain/made.json"):
        other = library()
        (other / name).rename(other / "moved")
        if name != "interface":
            (other / name).write_text('{"modules": []}\n')
        try:
            refused.cited_sum(other)
            tally.check(f"cited: without {name}", False, "it has a sum")
        except ValueError:
            tally.check(f"cited: without {name}", True)


def crate(name, folder, below):
    """A crate as planted.py has them, with these libraries below it."""
    (folder / "src").mkdir(parents=True, exist_ok=True)
    (folder / "src/one").write_text("src")
    return Crate(name, folder, ("src", ), {*below}, below, [], None)


def sums(_, tally, __):
    """The sum of a crate changes with its own files and bugs, its lines in crates.txt, the toolchain and the judge."""
    write_bugs("aig_parts", BUG)
    with replaced(of_crates, "PLANTED", pathlib.Path.cwd()):
        sums_of_one(tally)


def sums_of_one(tally):
    folder = pathlib.Path(os.path.abspath("crate"))
    one = crate("aig_parts", folder, {"aig_bytes": library()})
    plain = refused.sum_for(one)
    tally.compare("sums: the same", refused.sum_for(crate("aig_parts", folder, {"aig_bytes": library()})), plain)
    changes = {
        "a body below": (False, crate("aig_parts", folder, {"aig_bytes": library("lang/src/lib.rt")})),
        "a definition below": (True, crate("aig_parts", folder, {"aig_bytes": library("lang/antt/specs/One.antt")})),
        "another library below": (True, crate("aig_parts", folder, {"aig_bytes": library(), "aig_base": library()})),
        "other lines of crates.txt": (True, crate("aig_values", folder, {"aig_bytes": library()})),
    }
    for name, (is_other, changed) in changes.items():
        tally.compare(f"sums: {name}", refused.sum_for(changed) != plain, is_other)
    (folder / "src/one").write_text("other")
    tally.check("sums: src/", refused.sum_for(one) != plain)
    crate("aig_parts", folder, {})
    for name, (text, is_other) in {
        "another bug": (BUG.replace("= 2", "= 3"), True), "one more": (BUG + BUG.replace("one:", "two:"), True),
        "one more outside of the gate": (BUG + BUG.replace("one: No.", "two: No.\nmore: not in the gate"), False),
    }.items():
        write_bugs("aig_parts", text)
        tally.compare(f"sums: {name}", refused.sum_for(one) != plain, is_other)
    write_bugs("aig_parts", BUG)
    for place, path in enumerate(refused.JUDGE):
        others = (*refused.JUDGE[:place], pathlib.Path(__file__), *refused.JUDGE[place + 1:])
        with replaced(refused, "JUDGE", others), of_kit("kit"):
            tally.check(f"sums: another {path.name}", refused.sum_for(one) != plain)
    tools = [pathlib.Path(module.__file__).parent for module in (planted, refused)]
    tally.check("sums: the scripts that list bugs are not in it", not {*tools} & {it.parent for it in refused.JUDGE})
    with of_kit("kit"):
        tally.compare("sums: the same judge", refused.sum_for(one), plain)
    with of_kit("another kit"):
        tally.check("sums: another rt version", refused.sum_for(one) != plain)


# A bug of a crate, as its file has it.
BUG = "\none: No.\nguards: last\nclause: is_one\nold: = 1\nnew: = 2\n"


def write_bugs(name, text):
    """Writes the planted bugs of a source of a crate below the current folder."""
    os.makedirs(name, exist_ok=True)
    write(f"{name}/lib.bugs", f"file: crates/{name}/src/lib.rt\n{text}")


def bugs_of_crates(_, tally, __):
    """The planted bugs of a crate: their files, and what each changes."""
    os.makedirs("crates/aig_parts/src")
    write("crates/aig_parts/src/lib.rt", "pub fn one() -> u32\n    ensures is_one { result = 1 }\n{\n    1\n}\n")
    texts = {"one": "one: No.\nclause: is_one\nold:     1\nnew:     2", "gone": "gone: No.\nold: 7\nnew: 8",
             "added": "added: No.\nmore: not in the gate\nold: pub fn one\nnew: fn two() { } pub fn one"}
    write_bugs("aig_parts", "\n" + "\n\n".join(texts.values()) + "\n")
    crate_folder = pathlib.Path("crates/aig_parts")
    with replaced(of_crates, "PLANTED", pathlib.Path.cwd()):
        _, edits, wrong = of_crates.edits_of(crate_folder, True, None)
        tally.compare("bugs: names", [[it.name for it in some] for some in (edits, wrong)],
                      [["one", "added"], ["gone"]])
        tally.compare("bugs: of the gate", [it.name for it in of_crates.bugs_of("aig_parts", False)], ["gone", "one"])
        tally.compare("bugs: with a name", [it.name for it in of_crates.edits_of(crate_folder, True, ["add"])[1]],
                      ["added"])
        must_fail(tally, crate_folder)
        write_bugs("aig_parts", "\n" + texts["one"] + "\n\n" + texts["one"] + "\n")
        tally.compare("bugs: two of a name", raised(of_crates.bugs_of, "aig_parts", False),
                      "several planted bugs of aig_parts have the name one")
    tally.compare("bugs: what one changes", edits[0], Edit(
        "one", "is_one", False, [("src/lib.rt", 3, "    1", "    2")], edits[0].functions))
    tally.compare("bugs: its function", [(it.name, it.clauses) for it in edits[0].functions], [("one", ["is_one"])])
    tally.compare("bugs: a function that one adds", [it.name for it in edits[1].functions], ["one", "two"])
    goals = {"one": [Goal("returns-clause-other", FALSE)], "two": []}
    for edit, kind in ((edits[0], None), (edits[1], FALSE)):
        found, _ = judged(edit, dict.fromkeys(goals, "not proved"), goals)
        tally.compare(f"bugs: another clause of {edit.name} is open", found, kind)
    for name, text in {"no file": "one: No.\n", "no pairs": "file: a\n\none: No.\n",
                       "old alone": "file: a\n\none: No.\nold: 1\n"}.items():
        tally.check(f"bugs: {name}", raised(files_of_bugs.of_text, text))


def must_fail(tally, folder):
    """The edits that `rt ci` tries have to be planted bugs."""
    (folder / "must-fail").mkdir()
    for name, text, is_right in (("one", "old:     1\nnew:     2\n", True), ("one", "old:     1\nnew:     3\n", False),
                                 ("other", "old:     1\nnew:     2\n", False)):
        path = folder / "must-fail" / f"{name}.edit"
        path.write_text(f"No.\nfile: src/lib.rt\n{text}")
        one = crate("aig_parts", folder, {})
        tally.compare(f"bugs: must-fail {name}", [*planted.copies(one)], [] if is_right else [path.name])
        path.unlink()


def raised(call, *words):
    """What the ValueError of a call says; nothing if there is none."""
    try:
        call(*words)
    except ValueError as error:
        return str(error)
    return ""


@contextlib.contextmanager
def of_kit(version):
    """The sums where `rt version` prints this."""
    refused.sum_of_judge.cache_clear()
    with replaced(gate, "asked", lambda *_: version):
        yield
    refused.sum_of_judge.cache_clear()


@contextlib.contextmanager
def replaced(module, name, value):
    """A module that has something else under this name."""
    usual = getattr(module, name)
    setattr(module, name, value)
    try:
        yield
    finally:
        setattr(module, name, usual)


def again(_, tally, __):
    """A tenth of the bugs that were refused before is tried again, crate by crate, and one that is proved then is a
    failure."""
    counts, commits = {f"aig_{number}": 1 + number % 20 for number in range(60)}, [f"{it:040x}" for it in range(100)]
    chosen = [planted.tried_again(commit, counts) for commit in commits]
    tally.compare("again: the same commit", planted.tried_again(commits[0], dict(reversed(counts.items()))), chosen[0])
    sizes = [sum(counts[name] for name in each) for each in chosen]
    tenth = sum(counts.values()) // 10
    tally.check("again: a tenth", all(tenth <= size < tenth + max(counts.values()) for size in sizes), sizes)
    tally.compare("again: of few bugs", [len(planted.tried_again("0", {"aig_0": count})) for count in (0, 1, 11)],
                  [0, 1, 1])
    tally.compare("again: each crate by some commit", set().union(*chosen), {*counts})
    tally.check("again: others by another commit", chosen[0] != chosen[1])
    one = crate("aig_parts", pathlib.Path("crate"), {})
    edits = [Edit(f"{number}", "clause", False, [], [number]) for number in range(30)]
    for kind, says_so in ((FALSE, False), (None, True)):
        for names, tried in (({one.name}, len(edits)), ({"aig_bytes"}, 0)):
            found, said = told(one, edits, names, kind)
            tally.compare(f"again: what is tried of {names}, {kind}", found, [kind] * tried)
            tally.compare(f"again: it fails for {names}, {kind}", "FAILED: refused.txt" in said, says_so and tried > 0)
    with replaced(refused, "REFUSED", pathlib.Path("missing")):
        tally.compare("again: without a record", refused.recorded(), {})


def told(one, edits, chosen, kind):
    """How the bugs of a recorded crate are refused where these crates are chosen, and what is printed."""
    def one_check(crate, room, known, texts, taken):
        return [kind for _ in taken]

    def in_one(folder, edits):
        return [({}, edits)]

    said = io.StringIO()
    with replaced(planted, "tried", one_check), replaced(planted, "rounds", in_one), contextlib.redirect_stdout(said):
        _, found = planted.told(one, [], edits, {one.name: refused.sum_for(one)}, chosen)
    return found, said.getvalue()
