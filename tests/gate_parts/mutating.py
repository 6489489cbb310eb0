"""Mutants of Python: what is changed, how they are tried, and the list of those that no test sees."""

import pathlib
import sys

from gate_parts.planting import replaced
from library.runs import REPOSITORY

sys.path.insert(0, REPOSITORY + "/tools")
import mutants as tool  # noqa: E402
from mutation import made  # noqa: E402
from planted_python import Shown  # noqa: E402

# Sources, and what their mutants change, each with its kind, what it was and what it becomes.
SOURCES = {
    "x = a < b <= c\n": [("compare", "<", "<="), ("compare", "<=", "<")],
    "x = a not in b\n": [("compare", "not in", "in")],
    "x = a is not b\n": [("compare", "is not", "is")],
    "x = 'ä' + y[1:2]\n": [("slice", "1", "(1) + 1"), ("slice", "2", "(2) - 1")],
    "def f(a=True, *, b='', c=MOST, d=x): pass\n": [("default", "True", "False"), ("default", "''", '"another"'),
                                                  ("default", "MOST", "(MOST + 1)")],
    "class A:\n    a: int = 3\n": [("default", "3", "4")],
    "expect(a, 'b')\n": [("expect", "a", "True")],
    "raise A('b')\n": [("raise", "raise A('b')", "pass")],
    "x = OPEN\n": [("status", "OPEN", "0")],
    "def f() -> int:\n    return 0\n": [("status", "0", "4")],
    "def f():\n    if a:\n        return 1\n    return 2\n": [("return", "return 1", "pass")],
}
RIGHT = "def f():\n    return a == b\n"
# What parts show, and what a mutant is then.
SHOWN = {
    "a failure": (Shown(True, "a"), tool.SEEN), "nothing": (Shown(False, "all checks pass"), tool.NOT_SEEN),
    "an exception": (Shown(None, "no check fails, status 1: NameError"), tool.SEEN),
    "a stop": (Shown(None, "no check fails, status None: "), tool.NOTHING),
    "a part that is left out": (Shown(None, "it is left out: a"), tool.NOTHING),
}


class Tries:
    """A copy of the tree, whose parts show these things one after the other, and what is in its file then."""

    def __init__(self, shown):
        self.folder, self.shows, self.texts = pathlib.Path.cwd(), list(shown), []

    def shown(self, _):
        self.texts.append(pathlib.Path("a.py").read_text(encoding="utf-8"))
        return self.shows.pop(0)


def mutants(_, tally, __):
    """What mutants change, how they are tried, and which are listed."""
    for text, wanted in SOURCES.items():
        found = made.Source("a.py", text).mutants()
        tally.compare(f"mutants: {text.strip()}", [(it.kind, it.old, it.new) for it in found], wanted)
        tally.check(f"mutants: right Python of {text.strip()}",
                    all(made.is_right_python(made.changed(text, it)) for it in found))
    one, = made.Source("a.py", RIGHT).mutants()
    tally.compare("mutants: the key of one", made.key_of(one), "a.py: f: compare: return a == b: == becomes !=")
    below, = made.Source("a.py", "\n" + RIGHT).mutants()
    tally.compare("mutants: the key after a line that was added", made.key_of(below), made.key_of(one))
    pathlib.Path("a.py").write_text(RIGHT, encoding="utf-8")
    for name, (shown, word) in SHOWN.items():
        copy = Tries([shown])
        tally.compare(f"mutants: {name}", tool.tried(copy, one, ["b"])[0], word)
        tally.compare(f"mutants: the file while {name}", copy.texts, [RIGHT.replace("==", "!=")])
    tally.compare("mutants: the file after it", pathlib.Path("a.py").read_text(encoding="utf-8"), RIGHT)
    two = Tries([Shown(False, ""), Shown(True, "")])
    tally.compare("mutants: the part that sees one", tool.tried(two, one, ["b", "c", "d"]), (tool.SEEN, "c"))
    pathlib.Path("list.txt").write_text(f"# no\n{made.key_of(one)}\n    It is alike.\n", encoding="utf-8")
    with replaced(tool, "UNSEEN", pathlib.Path("list.txt")):
        tally.compare("mutants: the list", tool.listed(), {made.key_of(one): "It is alike."})
    tally.check("mutants: each that is listed has a reason", all(tool.listed().values()))
    known = tool.parts_by_file()
    some = [path for path in tool.files() if path.name[:2] != "__"]
    tally.compare("mutants: files with no part", [it.name for it in some if not tool.parts_for(it, known)], [])
    some = some[:3]
    orders = [[made.name_of(it) for _, it in tool.in_order(some, seed)] for seed in ("one", "one", "two")]
    tally.check("mutants: the order of a commit", orders[0] == orders[1] != orders[2], len(orders[0]))
    tally.compare("mutants: all of them", sorted(orders[0]), sorted(orders[2]))
