#!/usr/bin/env python3
"""The page and the pictures of aig-verdicts, on the built program: each value, each thick line and each name of pictures
beside the plain simulator and the plain explainer of tests/library; pages as html.parser reads them, with hostile names
and sources, and of 1,000 rows."""

import os

import paths  # noqa: F401
from library import runs
from pages import browser, made, moments, sentences, sizes, tags, values, wide

PARTS = {
    "values": values.values, "names": values.names, "lines": values.lines, "frames": values.frames,
    "mentioned": values.mentioned, "wide": wide.wide,
    "pictures": tags.pictures, "hostile": tags.hostile, "many": tags.many, "sizes": sizes.sizes,
    "moments": moments.moments, "for_ever": moments.for_ever, "sentences": sentences.sentences,
    "browser": browser.browser, "made": made.made,
}


def of_program(part):
    """The part, where the package runs the program that is tested."""
    def run(program, tally, chosen):
        os.environ["AIG_PROGRAM"] = program.path
        return part(program, tally, chosen)

    run.__doc__ = part.__doc__
    return run


if __name__ == "__main__":
    runs.main(__doc__, {name: of_program(part) for name, part in PARTS.items()}, outside=("browser", "made"))
