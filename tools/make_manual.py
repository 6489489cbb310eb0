#!/usr/bin/env python3
"""Writes the manual pages in man/ from what the help of the program and of aig-verdicts says, from docs/BEHAVIOUR.md,
docs/EXPLAIN.md and docs/FORMATS.md. usage: tools/make_manual.py PROGRAM"""

import os
import sys

ROOT = os.path.dirname(os.path.dirname(os.path.abspath(__file__)))
sys.path.insert(0, ROOT + "/tests")
from library.manual import asker, pages  # noqa: E402

if __name__ == "__main__":
    if len(sys.argv) != 2:
        sys.exit(__doc__)
    for name, text in pages(asker(sys.argv[1])).items():
        with open(f"{ROOT}/man/{name}", "w", encoding="ascii") as file:
            file.write(text)
