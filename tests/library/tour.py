"""Commands that a document shows, and what it shows below each: those of the two first pages, and of
verdicts/docs/FLOW.md. A command that needs a program which is not there is left out."""

import os
import re
import shlex
import shutil
import subprocess
import sys

from library import supervised
from library.runs import REPOSITORY, contents, leave_out, write
from library.supervised import SCRIPT_SECONDS

# The first pages of the two products.
FIRST_PAGES = ("README.md", "verdicts/README.md")
SOURCE = f"{REPOSITORY}/verdicts/src:{REPOSITORY}/python/src"


def steps(document):
    """Yields the commands of a document, each with the output that it shows. A command goes on after a line that ends
    with a backslash, and up to the line `END` of a text that it reads (`<< 'END'`)."""
    text = contents(f"{REPOSITORY}/{document}").decode()
    command = r".*<< 'END'\n(?:    .*\n)*?    END|(?:.*\\\n)*.*"
    for found in re.findall(rf"(?m)^    \$ ({command})\n((?:    (?!\$ ).*\n)*)", text):
        yield tuple(re.sub(r"(?m)^    ", "", it) for it in found)


def take(program, examples, tally, prints=False):
    """Runs the commands of the first pages in a new folder `tour`, with these examples and with the program on the path. A
    folder that `aig-verdicts run` makes is then checked again, from another folder and by the name that it has
    there."""
    room(program, examples, "tour")
    verdicts_on_path(program)
    for command, shown in (step for page in FIRST_PAGES for step in steps(page)):
        if missing(command):
            leave_out(f"tour: {command}", f"there is no {missing(command)}")
            continue
        said = as_shown(typed("tour", command))
        if prints:
            print(f"$ {command}\n{said}", end="", flush=True)
        tally.compare(f"tour: {command}", said, shown)
    os.mkdir("elsewhere")
    for made in [name for name in os.listdir("tour") if name.endswith(".verdicts")]:
        os.rename(f"tour/{made}", "elsewhere/bundle")
        again = typed("elsewhere", "aig-verdicts recheck bundle")
        tally.check("tour: the folder that it made",
                    again.endswith("; all checked by aig; not compared with the sources\n"), again)


def as_shown(said):
    """What was printed, as a document shows it: nothing is said of programs that are missing, and the solver writes
    DRAT."""
    said = re.sub(r"(?m)^aig-verdicts: there is no program .*\n|; not compared with a simulator", "", said)
    return said.replace(".lrat", ".drat")


def missing(command):
    """The first program that a search needs and that is not there."""
    needed = ("yosys", "cadical") if command.startswith("aig-verdicts run ") else ()
    return next((name for name in needed if not shutil.which(name)), "")


def verdicts_on_path(program):
    """Puts `aig-verdicts` beside the program: the one that was installed with it, else that of the sources."""
    installed = f"{os.path.dirname(program.path)}/aig-verdicts"
    if os.path.exists(installed):
        os.symlink(os.path.abspath(installed), "path/aig-verdicts")
        return
    settings = f"AIG_PROGRAM={shlex.quote(program.path)} PYTHONPATH={shlex.quote(SOURCE)}"
    # Python writes each line as it comes, as for a terminal.
    write("path/aig-verdicts", f'#!/bin/sh\n{settings} exec {shlex.quote(sys.executable)} -u -m aig_verdicts "$@"\n')
    os.chmod("path/aig-verdicts", 0o755)


def room(program, examples, folder):
    """A new folder with a copy of the examples, and beside it one with the program, for the path."""
    os.makedirs("path")
    os.symlink(program.path, "path/aig")
    shutil.copytree(examples, f"{folder}/examples")


def typed(folder, command):
    """What a command prints that is typed in a folder."""
    path = f"{os.path.abspath('path')}:{os.environ['PATH']}"
    done = supervised.run(["sh", "-c", command], cwd=folder, env={**os.environ, "PATH": path}, text=True,
                          stdin=subprocess.DEVNULL, stdout=subprocess.PIPE, stderr=subprocess.STDOUT, check=False,
                          timeout=SCRIPT_SECONDS)
    return done.stdout
