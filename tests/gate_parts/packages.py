"""The list of packages of Python: what it says wrong is found, as an import in a function that closes a cycle."""

import os
import pathlib
import sys

from library.runs import REPOSITORY, write

sys.path.insert(0, REPOSITORY + "/tools")
import python_edges  # noqa: E402

LIST = """\
# Packages.

# A floor
aig.low:
aig: aig.low

# Another
aig_verdicts.audit: aig
aig_verdicts.pages: aig.low
    aig_verdicts.audit
aig_verdicts:
"""
# The files of a small tree, of which the list above says all.
FILES = {
    "python/src/aig/__init__.py": "",
    "python/src/aig/low.py": "import os\n",
    "python/src/aig/circuit.py": "from . import low\nfrom .low import name\n",
    "verdicts/src/aig_verdicts/__init__.py": "",
    "verdicts/src/aig_verdicts/audit/__init__.py": "",
    "verdicts/src/aig_verdicts/audit/row.py": "from aig.circuit import Circuit\nfrom aig.low import other\n",
    "verdicts/src/aig_verdicts/pages/__init__.py": "",
    "verdicts/src/aig_verdicts/pages/page.py": "import aig.low\nfrom ..audit import row\n",
}
AUDIT, LOW = "verdicts/src/aig_verdicts/audit/row.py", "python/src/aig/low.py"
# What is changed, and what is said of it.
WRONG = {
    "an import in a function": ({AUDIT: FILES[AUDIT] + "def f():\n    from ..pages.page import g\n"},
                                "aig_verdicts.audit does not list aig_verdicts.pages"),
    "an import for types": ({AUDIT: FILES[AUDIT] + "if TYPE_CHECKING:\n    from .. import pages\n"},
                            "aig_verdicts.audit does not list aig_verdicts.pages"),
    "a toolkit that knows verdicts": ({LOW: "def f():\n    import aig_verdicts.audit\n"},
                                      "aig.low does not list aig_verdicts.audit"),
    "a part that knows the whole": ({LOW: "from .circuit import Circuit\n"}, "aig.low does not list aig: "),
    "a package that nothing imports": ({"packages.txt": LIST.replace("audit: aig", "audit: aig aig_verdicts.pages")},
                                       "no file of aig_verdicts.audit imports aig_verdicts.pages"),
    "a cycle in the list": ({AUDIT: FILES[AUDIT] + "from ..pages import page\n",
                             "packages.txt": LIST.replace("audit: aig", "audit: aig aig_verdicts.pages")},
                            "aig_verdicts.pages is not above aig_verdicts.audit"),
    "a package that is not there": ({"packages.txt": LIST + "aig_verdicts.search:\n"}, "there is no aig_verdicts.search"),
    "a module of no package": ({"verdicts/src/other.py": ""}, "other is of no package"),
    "many modules": ({f"python/src/aig/m{count}.py": "" for count in range(23)}, "python/src/aig has 26 modules"),
}


def made(files):
    """What is said of a tree."""
    for path, text in {"packages.txt": LIST, **FILES, **files}.items():
        os.makedirs(os.path.dirname(path) or ".", exist_ok=True)
        write(path, text)
    said = [*python_edges.wrong(pathlib.Path.cwd())]
    for path in files:
        os.remove(path)
    return said


def packages(_, tally, __):
    """What packages.txt says wrong of imports, and folders with many modules."""
    tally.compare("packages: a right list", made({}), [])
    for name, (files, wanted) in WRONG.items():
        said = made(files)
        tally.check(f"packages: {name}", any(wanted in it for it in said), said)
    tally.compare("packages: 25 modules", made({f"python/src/aig/m{count}.py": "" for count in range(22)}), [])
