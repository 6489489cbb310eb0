"""Draws docs/wave.svg for tools/pictures.py: the signals of a circuit's run over a stimulus, as a waveform viewer shows
them. The values are those of the plain simulator of the tests."""

import pathlib
import re
import sys

ROOT = pathlib.Path(__file__).resolve().parent.parent
sys.path.insert(0, str(ROOT / "tests"))
from library import reference  # noqa: E402


def names(text):
    """The words of the symbols by section: those of a vector without their numbers."""
    found = {}
    for letter, position, name in re.findall(r"(?m)^([ilo])(\d+) (.*)$", text):
        found.setdefault((letter, re.sub(r"\[\d+\]$", "", name)), []).append(int(position))
    return found


def lanes(circuit, stimulus, lane):
    """The signals with their values, each made by `lane` of a name and its bits at each frame. A latch that is an
    output too is shown once."""
    parts = reference.Parts(circuit)
    frames = reference.values(parts, stimulus.split())
    literals = {"i": parts.inputs, "l": [latch for latch, _, _ in parts.latches], "o": parts.outputs}
    shown = {}
    for (letter, name), positions in names(circuit).items():
        values = ["".join(reference.literal(known, literals[letter][at]) for at in reversed(positions))
                  for known in frames]
        shown.setdefault(name, lane(name, values))
    return list(shown.values()), len(frames)
