#!/usr/bin/env python3
"""What `aig-explain` says of runs of the built program: a row for each cause (`rows`), and the table of causes on its page
(`diagnostics`). The command itself: its arguments, statuses and signals (`command`), what cannot be read or is not read
again (`files`), and what cannot be written (`outputs`). Each byte in files, names and arguments, and files that changed (`hostile`). How proofs are
spelled, beside plain readers (`spelling`)."""

import sys
from pathlib import Path

PYTHON = Path(__file__).resolve().parent.parent
sys.path.insert(0, str(PYTHON.parent / "tests"))
from explanations.command import command  # noqa: E402
from explanations.diagnostics import diagnostics  # noqa: E402
from explanations.files import files  # noqa: E402
from explanations.hostile import hostile  # noqa: E402
from explanations.outputs import outputs  # noqa: E402
from explanations.rows import explain  # noqa: E402
from explanations.spelling import spelling  # noqa: E402
from library import runs  # noqa: E402

PARTS = {"rows": explain, "diagnostics": diagnostics, "command": command, "files": files, "outputs": outputs,
         "hostile": hostile, "spelling": spelling}

if __name__ == "__main__":
    runs.main(__doc__, PARTS)
