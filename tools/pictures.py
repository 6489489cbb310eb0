#!/usr/bin/env python3
"""Draws pictures of the pages, each of what is in the repository:

- verdicts/docs/verdict.svg, of verdicts/README.md: the assertion that fails, on the page of examples/queue.verdicts
- docs/wave.svg, of examples/README.md: the run of examples/counter.aag over examples/counter.stim
- docs/checks.svg, of docs/PERFORMANCE.md: the table of proofs with hints

Without --write it compares, and fails where a picture is not the one that it would draw. tools/edges.py draws
docs/floors.svg, and `benchmarks/measure.py` measures what docs/edits.svg (`plot`) and docs/scale.svg (`scale`) show."""

import argparse
import pathlib
import sys

import draw_checks
import draw_verdict
import draw_wave

ROOT = pathlib.Path(__file__).resolve().parent.parent
sys.path.insert(0, str(ROOT / "python" / "src"))
from aig.waves import svg  # noqa: E402


def read(name):
    return (ROOT / name).read_text(encoding="utf-8")


def verdict():
    return draw_verdict.drawn(read("examples/queue.verdicts/index.html"), "b0", svg.STYLE)


def wave():
    shown, frames = draw_wave.lanes(read("examples/counter.aag"), read("examples/counter.stim"), svg.Lane)
    picture = svg.waveform(shown, frames, None, "The run of the counter")
    return picture.replace(svg.STYLE, draw_verdict.light(svg.STYLE)) + "\n"


def checks():
    return draw_checks.drawn(read("docs/PERFORMANCE.md"))


PICTURES = {"verdicts/docs/verdict.svg": verdict, "docs/wave.svg": wave, "docs/checks.svg": checks}


def main():
    reader = argparse.ArgumentParser(description=__doc__, formatter_class=argparse.RawDescriptionHelpFormatter)
    reader.add_argument("--write", action="store_true", help="draw them anew")
    is_writing = reader.parse_args().write
    wrong = [name for name, drawn in PICTURES.items() if not (ROOT / name).exists() or read(name) != drawn()]
    for name in wrong:
        if is_writing:
            (ROOT / name).write_text(PICTURES[name](), encoding="utf-8")
        else:
            print(f"{name} is not what it is of: tools/pictures.py --write draws it anew")
    if is_writing or not wrong:
        print(f"{len(PICTURES)} pictures are as what they are of")
    return 1 if wrong and not is_writing else 0


if __name__ == "__main__":
    sys.exit(main())
