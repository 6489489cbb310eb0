"""Draws docs/checks.svg for tools/pictures.py: how long it takes to check a proof by its size, with hints and without,
beside the time in which cadical found it. The numbers are those of the table under "With hints" in
docs/PERFORMANCE.md."""

import pathlib
import re
import sys

ROOT = pathlib.Path(__file__).resolve().parent.parent
sys.path.insert(0, str(ROOT / "benchmarks"))
import plot  # noqa: E402

# The formulas of one kind, by the beginnings of their names, and the columns that are drawn.
KINDS = {"queue": "queue", "multiplier": "multiplier"}
COLUMNS = {"cadical finds it": "cadical", "aig, without hints": "aig", "aig, with hints": "trimmed aig"}
UNITS = {"ms": 1e-3, "s": 1.0, "MB": 1e6}
BYTES = {5: "0.1 MB", 6: "1 MB", 7: "10 MB", 8: "100 MB"}


def amount(cell):
    """The seconds or bytes of a cell; nothing where there are none, or only a bound."""
    found = re.fullmatch(r"([0-9.,]+) (ms|s|MB)", cell.strip())
    return float(found[1].replace(",", "")) * UNITS[found[2]] if found else None


def rows(page):
    """The rows of the table, by the heads of its columns. A column `aig` after `trimmed` is called `trimmed aig`."""
    table = re.findall(r"(?m)^\|.*\|$", page.partition("### With hints")[2].partition("\n## ")[0])
    heads = []
    for head in (cell.strip() for cell in table[0].strip("|").split("|")):
        before = next((it for it in reversed(heads) if it in ("DRAT", "LRAT", "trimmed")), "DRAT")
        heads.append(head if before == "DRAT" or head == "trimmed" else f"{before} {head}")
    return [dict(zip(heads, line.strip("|").split("|"))) for line in table[2:]]


def drawn(page):
    """The picture."""
    series = {}
    for kind, begin in KINDS.items():
        chosen = [row for row in rows(page) if row["formula"].strip().startswith(begin)]
        for name, column in COLUMNS.items():
            points = [(amount(row["DRAT"]), amount(row[column])) for row in chosen]
            series[f"{name} ({kind})"] = [point for point in points if None not in point]
    return plot.drawn(series, "size of the proof without hints (DRAT)", "time", BYTES)
