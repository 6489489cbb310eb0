#!/usr/bin/env python3
"""Writes the Debian package and the wheel of a program into a folder, for run_debians.sh. No gate has passed them.

usage: release.py PROGRAM FOLDER"""

import os
import sys

sys.path.insert(0, os.path.dirname(os.path.dirname(os.path.dirname(os.path.abspath(__file__)))) + "/tools")
import pack  # noqa: E402

if __name__ == "__main__":
    print(*pack.pack(pack.Made(sys.argv[1], None), "This is a test. No gate has passed.\n", 1_764_000_000, sys.argv[2]))
