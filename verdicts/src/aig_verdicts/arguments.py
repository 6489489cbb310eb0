"""From Verilog or AIGER to a table of checked verdicts, a page, and a folder that anyone can check again."""

from __future__ import annotations

import argparse
from pathlib import Path
from typing import Callable, List, Tuple

from .search.task import ENGINES, Bounds, Programs
from .audit.row import MOST_FRAMES

STATUSES = """\
exit status:
  0    all assertions hold, and all covers are reached
  5    an assertion fails, or a cover is never reached
  4    else: one is vacuous, holds within a bound alone, or is undecided, a simulator disagrees, or aig crashed
  1    the sources, the circuit or the bundle was rejected, or Yosys failed
  2    wrong arguments
  3    a file cannot be read or written, or another run works in the folder
  130  stopped by Ctrl-C or SIGTERM: table, page and folder have what was done
"""
RUN = """\
Find a checked verdict for each assertion and cover of a design.

The design is Verilog (SystemVerilog with immediate and concurrent assertions), or one AIGER file with bad state
properties. The folder of results has a page (index.html) and all that shows the verdicts; `aig-verdicts
recheck FOLDER` checks them again with aig alone. If the folder is there already, its rows are checked again and only
what is missing is searched. `aig-verdicts FILE ..` is short for `aig-verdicts run FILE ..`.
"""
DEMO = """\
Write a small design with a bug, queue.v, into the current folder, and find its verdicts.

A queue.v of yours stays as it is: the command then stops. The bug is real, so the exit status is 5.
"""
RECHECK = """\
Check each row of a folder of results, or of a .zip of it, again with aig alone.

Nothing in the bundle is believed. The sources in it are read only with --yosys, by Yosys, and with --simulate, by Icarus
Verilog, which runs them: do that in a container if you do not trust them.
"""
CORES = """\
Find what the proofs of a folder of results need: registers, their resets, and assumptions.

All else of the circuit is cut at once, by `aig cut`, and the row is proved again. These proofs take the place of the old
ones, and `recheck` checks them. Rows whose needs are known stay as they are, unless --minimal or --needed is given.
"""
REPLAY = """\
Play the failing runs of a bundle in Icarus Verilog, after aig has checked the bundle.

The simulator reads the design's own sources; neither Yosys nor the circuit is on that way. In each frame, registers, named
wires and assertions have to have the values of the run. Where the simulator has x, it gets the value of the run. It runs
the sources in the bundle: do that in a container if you do not trust them.

exit status:
  0    each run fails its assertion, or reaches its cover, in the simulator too, and all values are the same
  5    the simulator disagrees about one, or about a random run
  4    one could not be played, is not decided there, or fails by other values
  1    the bundle was rejected, or there is no simulator
"""
COMPARE = """\
Say what changed from one version of a design to the next, after aig has checked the bundles of both.

An assertion is found again by its label, or else by its line after a diff of the sources. If its text is another one,
it is edited, and counts as a new one.

exit status:
  0    nothing became worse
  5    an assertion fails that did not fail before, or a cover is never reached that was not so before
  4    else: less is known of one, one is gone, a new one is not good, or there are more assumptions
  1    a bundle was rejected
"""
_Raw = argparse.RawDescriptionHelpFormatter
# A parser, or a group of one.
Arguments = argparse._ActionsContainer


# The files of designs.
CIRCUITS, VERILOG = (".aig", ".aag"), (".v", ".sv")


def with_verb(arguments: List[str]) -> List[str]:
    """The arguments, with `run` before those that begin with a design."""
    is_run = bool(arguments) and Path(arguments[0]).suffix in CIRCUITS + VERILOG
    return ["run"] * is_run + arguments


def parser() -> argparse.ArgumentParser:
    top = argparse.ArgumentParser(
        prog="aig-verdicts", formatter_class=_Raw, epilog=STATUSES, allow_abbrev=False,
        description=__doc__)
    top.add_argument("--version", action="store_true", help="print the version of aig, and end")
    verbs = top.add_subparsers(dest="verb", metavar="COMMAND")
    _run(verbs.add_parser("run", help="find the verdicts of a design", description=RUN, epilog=STATUSES,
                          formatter_class=_Raw, allow_abbrev=False))
    verbs.add_parser("demo", help="write a small design, and find its verdicts", description=DEMO, formatter_class=_Raw,
                     allow_abbrev=False)
    _recheck(verbs.add_parser("recheck", help="check a folder of results again", description=RECHECK, epilog=STATUSES,
                              formatter_class=_Raw, allow_abbrev=False))
    _cores(verbs.add_parser("cores", help="find what the proofs of a folder of results need", description=CORES,
                            epilog=STATUSES, formatter_class=_Raw, allow_abbrev=False))
    _compare(verbs.add_parser("compare", help="say what changed between two folders of results", description=COMPARE,
                              formatter_class=_Raw, allow_abbrev=False))
    _replay(verbs.add_parser("replay", help="run the failing runs in Icarus Verilog", description=REPLAY,
                             formatter_class=_Raw, allow_abbrev=False))
    return top


def _replay(replay: argparse.ArgumentParser) -> None:
    replay.add_argument("bundle", type=Path, metavar="BUNDLE", help="a folder of results, or a .zip of it")
    replay.add_argument("--only", action="append", default=[], metavar="NAME",
                        help="play only the run of this assertion or cover")
    replay.add_argument("--random", type=_whole(0, 65536), default=0, metavar="N",
                        help="play random runs of N frames too, and compare all values")
    replay.add_argument("--hold", action="append", default=[], type=_hold, metavar="SIGNAL=VALUE:FRAMES",
                        help="in random runs, this input has this value for so many frames")
    replay.add_argument("--to", type=Path, metavar="FOLDER",
                        help="write a testbench for each failing run, with the design in it")
    replay.add_argument("--simulator", default="iverilog", metavar="PROGRAM",
                        help="Icarus Verilog; its vvp is beside it (iverilog)")
    replay.add_argument("-v", "--verbose", action="store_true", help="name the signals that are not compared")


def _cores(cores: argparse.ArgumentParser) -> None:
    cores.add_argument("bundle", type=Path, metavar="FOLDER", help="a folder of results")
    cores.add_argument("--minimal", action="store_true", help="try each part that is left, too: it may take long")
    cores.add_argument("--needed", action="store_true",
                       help="look for runs that show what every proof needs: it may take long")
    cores.add_argument("-j", "--jobs", type=_whole(0, 4096), default=0, metavar="N",
                       help="questions at once (one per processor)")
    _programs(cores)
    cores.add_argument("--drat2lrat", metavar="PROGRAM",
                       help="the program that adds the hints that a solver did not write (drat2lrat)")
    _printed(cores)
    cores.add_argument("-q", "--quiet", action="store_true", help="print the table alone: no progress, no notes")
    cores.set_defaults(cores=True, hints=False, dask=None, only=[], engines=[], verbose=False)


def _programs(verb: Arguments) -> None:
    verb.add_argument("--solver", default=Programs().solver, metavar="PROGRAM",
                      help="a solver that writes proofs in DRAT or LRAT, with the options of cadical, or of kissat "
                           "if its name begins so (cadical)")
    verb.add_argument("--abc", default=Programs().abc, metavar="PROGRAM",
                      help="ABC; '' for none (berkeley-abc, or yosys-abc)")


def _printed(verb: Arguments) -> None:
    verb.add_argument("--json", action="store_true", help="print the manifest in place of the table")
    verb.add_argument("--junit", type=Path, metavar="FILE", help="write the table as JUnit XML, for a CI server")
    verb.add_argument("--zip", type=Path, metavar="FILE", help="write the folder of results as a .zip")


def _compare(compare: argparse.ArgumentParser) -> None:
    compare.add_argument("old", type=Path, metavar="OLD", help="the bundle of the version before: a folder or a .zip")
    compare.add_argument("new", type=Path, metavar="NEW", help="the bundle of the version now")
    compare.add_argument("-j", "--jobs", type=_whole(0, 4096), default=0, metavar="N",
                         help="checks at once (one per processor)")
    compare.add_argument("--megabytes", type=_whole(1, 2**31 - 1), default=1024, metavar="N",
                         help="the largest file that is read (1024)")
    compare.add_argument("--all", action="store_true", help="print the rows that are as before, too")
    compare.add_argument("--page", type=Path, metavar="FILE", help="write a page of what changed, with both runs")
    compare.add_argument("--json", action="store_true", help="print what changed as JSON")
    compare.add_argument("--junit", type=Path, metavar="FILE", help="write what changed as JUnit XML, for a CI server")


def _run(run: argparse.ArgumentParser) -> None:
    usual = Bounds()
    run.add_argument("files", nargs="*", type=Path, metavar="FILE",
                     help="Verilog sources (.v, .sv), or one circuit (.aig, .aag)")
    of_design = run.add_argument_group("design")
    of_design.add_argument("-f", "--list", action="append", default=[], type=Path, metavar="LIST", dest="lists",
                           help="read files and options (+incdir+, +define+, ..) of this list, as a simulator does")
    of_design.add_argument("--top", metavar="MODULE", help="the top module (default: Yosys finds it)")
    of_design.add_argument("-D", "--define", action="append", default=[], metavar="NAME[=VALUE]",
                           help="define a macro")
    of_design.add_argument("-P", "--parameter", action="append", default=[], metavar="NAME=VALUE",
                           help="give a parameter of the top module this value, a number or a text in quotes")
    of_design.add_argument("-I", "--include", action="append", default=[], type=Path, metavar="FOLDER",
                           help="a folder of files that the sources include")
    of_design.add_argument("--free", action="append", default=[], metavar="NAME",
                           help="leave out the body of this module: its outputs are free values; or give a signal any "
                                "value, as top.u0.count")
    of_design.add_argument("--assert", action="append", default=[], type=Path, metavar="FILE", dest="asserts",
                           help="put the assertions of this file before the end of the module of --module")
    of_design.add_argument("--module", metavar="MODULE", default="", help="the module of --assert")
    of_design.add_argument("--only", action="append", default=[], metavar="NAME",
                           help="search only this assertion or cover: its name, its position (b3), or a pattern with *")
    of_design.add_argument("--since", type=Path, metavar="BUNDLE",
                           help="begin with what this bundle of an earlier version has, say what changed, and fail "
                                "for that alone; it is believed, so it has to come from a trusted place")
    of_design.add_argument("--keep-open", action="store_true",
                           help="with --since: do not search rows further whose old bound still holds")
    of_design.add_argument("--fresh", action="store_true",
                           help="have Yosys make the circuit, even if an earlier run made it of the same sources")
    of_design.add_argument("--no-conditions", action="store_true",
                           help="do not ask whether the `if` around an assertion is ever true")
    of_design.add_argument("--no-wires", action="store_true", help="do not keep named wires for the page")
    search = run.add_argument_group("search")
    search.add_argument("--frames", type=_whole(1, MOST_FRAMES), default=usual.frames, metavar="N",
                        help=f"search runs and inductions of up to N frames ({usual.frames})")
    search.add_argument("--depth", action="append", default=[], type=_depth, metavar="NAME=N", dest="depths",
                        help="search this assertion or cover in up to N frames: its name, b3, or a pattern with *")
    search.add_argument("--seconds", type=_number(1, 10**7), default=usual.seconds, metavar="S",
                        help=f"limit of one question; a property gets five times as much ({usual.seconds:g})")
    search.add_argument("--total", type=_time, metavar="TIME",
                        help="end the search after so long, as 90s, 10m or 2h; the same command goes on (none)")
    search.add_argument("--conflicts", type=_whole(0, 2**31 - 1), default=usual.conflicts, metavar="N",
                        help="limit of one question that is the same on each machine (none)")
    search.add_argument("--megabytes", type=_whole(0, 2**31 - 1), default=usual.megabytes, metavar="N",
                        help="limit of the memory of one solver (none)")
    search.add_argument("--proof-megabytes", type=_whole(0, 2**31 - 1), default=usual.proof_megabytes, metavar="N",
                        help=f"limit of one proof on disk ({usual.proof_megabytes})")
    search.add_argument("-j", "--jobs", type=_whole(0, 4096), default=0, metavar="N",
                        help="questions at once (one per processor)")
    search.add_argument("--dask", metavar="ADDRESS", help="ask the workers of a Dask cluster")
    search.add_argument("--dask-seconds", type=_number(0, 10**7), default=30.0, metavar="S",
                        help="with --dask: end if no worker is there for so long (30)")
    search.add_argument("--engine", action="append", default=[], choices=ENGINES, dest="engines",
                        help="search by this alone: runs (bmc), runs and inductions, or ABC's pdr; may be given "
                             "again (all)")
    _programs(search)
    search.add_argument("--cores", action="store_true",
                        help="find what each proof needs, too: registers, their resets and assumptions")
    search.add_argument("--minimal", action="store_true",
                        help="with --cores: try each part that is left, too; it may take long")
    search.add_argument("--needed", action="store_true",
                        help="with --cores: look for runs that show what every proof needs; it may take long")
    search.add_argument("--simulator", default="iverilog", metavar="PROGRAM",
                        help="Icarus Verilog, which plays each run and compares the circuit on random runs (iverilog)")
    search.add_argument("--no-simulator", action="store_true", help="play nothing in a simulator")
    results = run.add_argument_group("results")
    results.add_argument("-o", "--out", type=Path, metavar="FOLDER", help="the folder of results (NAME.verdicts)")
    results.add_argument("--hints", action="store_true",
                         help="store all proofs with hints (LRAT), which `recheck` checks in much less time")
    results.add_argument("--drat2lrat", metavar="PROGRAM",
                         help="the program that adds the hints that a solver did not write; it implies --hints "
                              "(drat2lrat)")
    _printed(results)
    shown = results.add_mutually_exclusive_group()
    shown.add_argument("-v", "--verbose", action="store_true",
                       help="print rows as they are decided, also without a terminal")
    shown.add_argument("-q", "--quiet", action="store_true", help="print the table alone: no progress, no notes")


def _recheck(recheck: argparse.ArgumentParser) -> None:
    recheck.add_argument("bundle", type=Path, metavar="BUNDLE", help="a folder of results, or a .zip of it")
    recheck.add_argument("-j", "--jobs", type=_whole(0, 4096), default=0, metavar="N",
                         help="checks at once (one per processor)")
    recheck.add_argument("--yosys", action="store_true",
                         help="check too that Yosys makes the same circuit of the sources, or one that does the same")
    recheck.add_argument("--sources", nargs="+", default=[], type=Path, metavar="FILE",
                         help="check too that the sources in the bundle are these files, and what they include")
    recheck.add_argument("-I", "--include", action="append", default=[], type=Path, metavar="FOLDER",
                         help="a folder of files that these sources include")
    recheck.add_argument("--since", type=Path, metavar="BUNDLE",
                         help="check this bundle of an earlier version too, say what changed, and fail for that alone")
    recheck.add_argument("--simulate", action="store_true",
                         help="play the runs, and random ones, in Icarus Verilog, which reads the sources itself")
    recheck.add_argument("--simulator", default="iverilog", metavar="PROGRAM", help="Icarus Verilog (iverilog)")
    recheck.add_argument("--seed", type=_whole(1, 2**31 - 1), metavar="N",
                         help="play the random runs of this seed again (default: others each time)")
    recheck.add_argument("--megabytes", type=_whole(1, 2**31 - 1), default=1024, metavar="N",
                         help="the largest file that is read (1024)")
    recheck.add_argument("--page", type=Path, metavar="FILE", help="write the page of what was checked")
    recheck.add_argument("--json", action="store_true", help="print the manifest in place of the rows")
    recheck.add_argument("--junit", type=Path, metavar="FILE",
                         help="write the table as JUnit XML, for a CI server")
    recheck.add_argument("-q", "--quiet", action="store_true", help="print no rows")


def _whole(least: int, most: int) -> Callable[[str], int]:
    def number(text: str) -> int:
        if not (text.isascii() and text.isdigit() and len(text) < 12 and least <= int(text) <= most):
            raise ValueError
        return int(text)
    number.__name__ = f"number from {least} to {most}"
    return number


def _hold(text: str) -> object:
    from .replay.stimulus import hold_of

    return hold_of(text)


_hold.__name__ = "hold_of"


def _depth(text: str) -> Tuple[str, int]:
    """A name, and the frames of its row."""
    name, _, frames = text.rpartition("=")
    if not name:
        raise ValueError
    return name, _whole(1, MOST_FRAMES)(frames)


_depth.__name__ = "depth (NAME=N)"


_UNITS = {"s": 1, "m": 60, "h": 3600}


def _time(text: str) -> int:
    """Seconds of a time as 90s, 10m or 2h."""
    if text[-1:] not in _UNITS:
        raise ValueError
    return _whole(1, 10**7)(text[:-1]) * _UNITS[text[-1]]


_time.__name__ = "time (90s, 10m or 2h)"


def _number(least: float, most: float) -> Callable[[str], float]:
    def number(text: str) -> float:
        value = float(text)
        if not least <= value <= most:
            raise ValueError
        return value
    number.__name__ = f"number from {least:g} to {most:g}"
    return number
