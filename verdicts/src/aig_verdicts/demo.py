"""The design of `aig-verdicts demo`. The package has it, so a user of the wheel needs no folder of examples."""

from __future__ import annotations

from importlib.resources import files
from pathlib import Path

NAME = "queue.v"


def written(folder: Path) -> Path:
    """Writes the design into a folder. A file that is there already is never changed."""
    text = files(__package__).joinpath(NAME).read_bytes()
    path = folder / NAME
    try:
        with path.open("xb") as file:
            file.write(text)
    except FileExistsError:
        if path.read_bytes() != text:
            raise FileExistsError(f"another {NAME} is here: go to another folder") from None
    return path
