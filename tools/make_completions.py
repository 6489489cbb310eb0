#!/usr/bin/env python3
"""Writes aig.bash, _aig and those of aig-verdicts (bash, zsh, fish) in completions/ from what the help of the program
and of aig-verdicts says, and from the files beside them that end with .in. usage: tools/make_completions.py PROGRAM"""

import os
import sys

ROOT = os.path.dirname(os.path.dirname(os.path.abspath(__file__)))
sys.path.insert(0, ROOT + "/tests")
from library.completion import shells  # noqa: E402
from library.manual import asker  # noqa: E402

if __name__ == "__main__":
    if len(sys.argv) != 2:
        sys.exit(__doc__)
    for name, text in shells(asker(sys.argv[1])).items():
        with open(f"{ROOT}/completions/{name}", "w", encoding="ascii") as file:
            file.write(text)
