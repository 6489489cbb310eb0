"""The manual pages and the completions: they are what tools/make_manual.py and tools/make_completions.py write of the
program's help. A terminal of 80 columns shows the manual pages whole, and mandoc has nothing to say of them where it is
installed. The page on the examples names each of them."""

import os
import shutil

from library import supervised
from library.completion import shells
from library.manual import asker, pages as manual_pages
from library.runs import EXAMPLES, REPOSITORY, contents, leave_out


def pages(program, tally, _):
    ask = asker(program.path)
    has_groff = shutil.which("groff")
    if not has_groff:
        leave_out("pages: how they look", "there is no groff")
    for name, text in manual_pages(ask).items():
        file = f"{REPOSITORY}/man/{name}"
        tally.compare(f"pages: man/{name} (tools/make_manual.py writes it)", contents(file).decode(), text)
        tally.check(f"pages: man/{name}: files that an installed copy does not have", "docs/" not in text)
        if has_groff:
            is_shown(tally, name, file)
        if shutil.which("mandoc"):
            said = supervised.run(["mandoc", "-T", "lint", file], capture_output=True, text=True, check=False)
            tally.compare(f"pages: man/{name}: what mandoc says", said.stdout, "")
    for name, text in shells(ask).items():
        file = f"{REPOSITORY}/completions/{name}"
        tally.compare(f"pages: completions/{name} (tools/make_completions.py writes it)", contents(file).decode(), text)
    examples = contents(f"{EXAMPLES}/README.md").decode()
    missing = [name for name in os.listdir(EXAMPLES) if name != "README.md" and name.split(".")[0] not in examples]
    tally.compare("pages: examples/README.md: files that it does not name", missing, [])


def is_shown(tally, name, file):
    """A terminal of 80 columns shows each line of a manual page whole, and groff has nothing to say of its source."""
    shown = supervised.run(["groff", "-man", "-Tutf8", "-P-cbou", "-ww", "-rLL=80n", file], capture_output=True,
                           text=True, check=False)
    tally.compare(f"pages: man/{name}: warnings", shown.stderr, "")
    rows = shown.stdout.splitlines()
    tally.compare(f"pages: man/{name}: lines over 80 columns (of code, 73 in docs/FORMATS.md)",
                  [row for row in rows if len(row) > 80], [])
    tally.check(f"pages: man/{name}: its length", len(rows) > 100, len(rows))
