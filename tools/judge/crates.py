"""The crates of a repository, and the commands of the toolchain that check them."""

import collections
import importlib.machinery
import importlib.util
import os
import pathlib
import shutil
import sys

ROOT = pathlib.Path(__file__).resolve().parent.parent.parent

Crate = collections.namedtuple("Crate", "name folder parts below libraries check build")


def toolchain(jobs, top=ROOT, as_source=False):
    """Returns the crates of a repository, lowest first, each with the parts of its folder that a check reads, the
    libraries below it, the command that checks it, and how to build those libraries with so many jobs. With `as_source`
    the command reads these libraries from their sources. All that the scripts take from inside the toolchain's command
    `rt` is here."""
    path = os.path.realpath(shutil.which("rt") or sys.exit("rt is not on the path"))
    sys.path.insert(0, os.path.dirname(path))
    loader = importlib.machinery.SourceFileLoader("toolchain_rt", path)
    module = importlib.util.module_from_spec(importlib.util.spec_from_loader("toolchain_rt", loader))
    loader.exec_module(module)
    rtlib = module.rtlib
    # with these words in front, a check ends where the script ends
    guarded = rtlib.guarded()

    def build(crate):
        for below in crate.below():
            if not os.path.isdir(below.rlib) and below.build_rlib(["--jobs", str(jobs)], anew=False):
                sys.exit(f"{below.name} is not proved")

    def read(crate):
        more = {"as_source": True} if as_source else {}
        check = [*guarded, rtlib.RATTLE, "check", *crate.words(["--jobs", "1"], keeps=False, **more)]
        below = {it.name: pathlib.Path(it.rlib) for it in crate.below()}
        return Crate(crate.name, pathlib.Path(crate.folder), rtlib.PARTS, {*below}, below, check, lambda: build(crate))

    return [read(it) for it in rtlib.crates_below(str(top))]
