#!/usr/bin/env python3
"""Runs the tours of README.md and verdicts/README.md in an empty folder, and prints them. Each command has to print what
the page shows."""

from library import runs
from library.tour import take


def tour(program, tally, _):
    take(program, runs.EXAMPLES, tally, prints=True)


if __name__ == "__main__":
    runs.main(__doc__, {"tour": tour})
