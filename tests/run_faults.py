#!/usr/bin/env python3
"""Runs the built program where the system fails it: each allocation refused in turn, results that cannot be written,
each read and each write failing in turn, limits of memory. The program reports the failure and writes nothing after it.
Edits that need no memory go on. Parts that need a C compiler (`cc`) are left out where there is none."""

from faults.allocations import allocations
from faults.calls import calls
from faults.kept import kept
from faults.limits import limits
from faults.sessions import sessions
from faults.writes import writes
from library import runs

PARTS = {"allocations": allocations, "writes": writes, "calls": calls, "kept": kept, "sessions": sessions,
         "limits": limits}

if __name__ == "__main__":
    runs.main(__doc__, PARTS)
