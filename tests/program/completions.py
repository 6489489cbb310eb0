"""What bash and zsh complete: on a terminal, as a user types it; and in bash's function, for words that bash split, and
for each option of the help."""

import os
import pty
import select
import shutil
import signal
import subprocess
import tempfile
import time

from library import supervised
from library.completion import long_name, value_of
from library.helptext import commands, long_options
from library.manual import asker
from library.runs import REPOSITORY, LeftOut, leave_out, write

FOLDER = REPOSITORY + "/completions"
SECONDS = 20
FILES = ("b.aig", "a.aag", "notes", "rows.stim", "with space.aag")

# The words that bash splits a line into, the last of which is completed, and the answer.
SPLIT = (
    (["to"], ["toaig"]),
    (["--v"], ["--version"]),
    (["help", "un"], ["unroll"]),
    (["toaig", "--"], ["--help", "--to"]),
    (["--h"], ["--help"]),
    (["toaig", "--to", ""], ["aag", "aig"]),
    (["toaig", "--to", "aa"], ["aag"]),
    (["toaig", "--to", "="], ["aag", "aig"]),
    (["toaig", "--to", "=", "a"], ["aag", "aig"]),
    (["toaig", "--to", "=", "ai"], ["aig"]),
    (["toaig", "--to", "=", "aag", ""], ["a.aag", "b.aig", "sub", "with space.aag"]),
    (["toaig", "--to", "aag", ""], ["a.aag", "b.aig", "sub", "with space.aag"]),
    (["unroll", "--frames", "3", "--to", "=", "a"], ["aag", "aig"]),
    (["unroll", "--frames", "="], []),
    (["unroll", "--frames", "=", "3", "a"], ["a.aag"]),
    (["unroll", "--map", "=", "n"], ["notes"]),
    (["unroll", "--map", "n"], ["notes"]),
    (["info", "w"], ["with space.aag"]),
    (["info", "n"], ["notes"]),
    (["cnf", "--"],
     ["--alive", "--certificate", "--frames", "--help", "--property", "--step"]),
    (["cnf", "--certificate", "ro"], ["rows.stim"]),
    (["cnf", "--step", "a"], ["a.aag"]),
    (["cnf", "--frames", "3", "--property", "=", "1", "a"], ["a.aag"]),
    (["select", "--"], ["--as", "--from", "--help", "--names", "--property", "--to"]),
    (["select", "--from", "=", "o"], ["outputs"]),
    (["select", "--as", ""], ["bad", "outputs"]),
    (["cut", "--"], ["--cuts", "--help", "--to"]),
    (["cut", "--cuts", "ro"], ["rows.stim"]),
    (["check", "--"],
     ["--alive", "--frames", "--help", "--properties", "--property", "--trace"]),
    (["check", "--alive", "--frames", "3", "a"], ["a.aag"]),
    (["witness", "--"],
     ["--alive", "--certificate", "--frames", "--help", "--model", "--property", "--step"]),
    (["witness", "--model", "ro"], ["rows.stim"]),
    (["witness", "--step", "--model", "ro"], ["rows.stim"]),
    (["witness", "--alive", "--model", "ro"], ["rows.stim"]),
    (["witness", "--model", "rows.stim", "--frames", "3", "a"], ["a.aag"]),
    (["select", "--property", "0", "--property", "1", "a"], ["a.aag"]),
    (["refute", "--"],
     ["--alive", "--certificate", "--frames", "--help", "--property", "--step"]),
    (["refute", "--certificate", "rows.stim", "a"], ["a.aag"]),
    (["refute", "--alive", "a"], ["a.aag"]),
    (["strengthen", "--"], ["--certificate", "--help", "--property", "--to"]),
    (["strengthen", "--certificate", "ro"], ["rows.stim"]),
    (["refute", "--step", "ro"], ["rows.stim"]),
    (["reduce", "--"], ["--help"]),
    (["reduce", "a.aag", "ro"], ["rows.stim"]),
    (["why", "--"], ["--depth", "--frame", "--help", "--json", "--of", "--witness"]),
    (["why", "--of", "o0", "a.aag", "ro"], ["rows.stim"]),
    (["refute", "--frames", "3", "a.aag", "ro"], ["rows.stim"]),
    (["sim", "a.aag", ""], ["a.aag", "b.aig", "notes", "rows.stim", "sub", "with space.aag"]),
    (["wave", "--witness", "a"], ["a.aag"]),
    (["check", "--trace", "a.aag", "ro"], ["rows.stim"]),
    (["check", "--trace", "--properties", "a"], ["a.aag"]),
    (["check", "-$(touch hacked)", "a"], ["a.aag"]),
    (["check", "$(touch hacked)", "ro"], ["rows.stim"]),
)

# Where `=` does not split words, the answer replaces the whole word.
WHOLE = ((["toaig", "--to=a"], ["--to=aag", "--to=aig"]), (["unroll", "--map=n"], ["--map=notes"]))

# The same of aig-verdicts. Without an answer, bash completes files.
OF_VERDICTS = (
    ([""], ["--help", "--version", "compare", "cores", "demo", "recheck", "replay", "run"]),
    (["rec"], ["recheck"]),
    (["a"], []),
    (["recheck", "--j"], ["--jobs", "--json", "--junit"]),
    (["run", "a.aag", "--fr"], ["--frames", "--free", "--fresh"]),
    (["run", "a"], []),
    (["demo", "--"], ["--help"]),
    (["other", "--"], []),
    (["run", "--$(touch hacked)"], []),
)

# What is typed on a terminal, with a tab at its end, and the arguments that the command then gets.
TYPED = (
    ("aig toai", ["toaig"]),
    ("aig toaig --to=aa", ["toaig", "--to=aag"]),
    ("aig toaig --to=ai", ["toaig", "--to=aig"]),
    ("aig toaig --to ai", ["toaig", "--to", "aig"]),
    ("aig unroll --frames=2 --to=aa", ["unroll", "--frames=2", "--to=aag"]),
    ("aig unroll --map=no", ["unroll", "--map=notes"]),
    ("aig info b", ["info", "b.aig"]),
    ("aig --vers", ["--version"]),
    ("aig sim --he", ["sim", "--help"]),
    ("aig info w", ["info", "with space.aag"]),
    ("aig info no", ["info", "notes"]),
    ("aig sim a.aag ro", ["sim", "a.aag", "rows.stim"]),
    ("aig info \"with", ["info", "with space.aag"]),
    ("aig info $PWD/no", ["info", "{here}/notes"]),
    ("aig unroll --frames no", ["unroll", "--frames", "no"]),
    ("aig unroll --frames=no", ["unroll", "--frames=no"]),
    ("aig-verdicts rec", ["recheck"]),
    ("aig-verdicts run --fram", ["run", "--frames"]),
    ("aig-verdicts run b", ["run", "b.aig"]),
    ("aig-verdicts run no", ["run", "notes"]),
    ("aig-verdicts recheck --jun", ["recheck", "--junit"]),
    ("aig-verdicts run --top=a w", ["run", "--top=a", "with space.aag"]),
)

# The same, where each tab brings the next of what fits.
IN_TURN = (
    ("aig toaig --to=\t", ["toaig", "--to=aag"]),
    ("aig toaig --to=\t\t", ["toaig", "--to=aig"]),
    ("aig toaig --to \t\t", ["toaig", "--to", "aig"]),
    ("aig info \t", ["info", "a.aag"]),
    ("aig info \t\t", ["info", "b.aig"]),
)

SHELLS = {
    "bash": (["bash", "--norc", "--noprofile", "-i"],
             f"source '{FOLDER}/aig.bash'; source '{FOLDER}/aig-verdicts.bash'\n", "bind 'TAB: menu-complete'\n"),
    "zsh": (["zsh", "-f", "-i"], f"fpath=('{FOLDER}' $fpath); autoload -Uz compinit; compinit -u -D\n",
            "setopt menu_complete\n"),
}


def completions(program, tally, _):
    for name in FILES:
        write(name, "")
    os.mkdir("sub")
    if not shutil.which("bash"):
        raise LeftOut("there is no bash")
    for breaks, cases in ((" \t\n\"'><=;|&(:", SPLIT), (" \t\n\"'><;|&(:", WHOLE)):
        for words, wanted in cases:
            tally.compare(f"completions: bash: {words}", replies(words, breaks), wanted)
        for words, wanted in of_help(asker(program.path)):
            tally.compare(f"completions: bash: {words}", replies(words, breaks), wanted)
        for words, wanted in OF_VERDICTS:
            found = replies(words, breaks, "aig-verdicts", "_aig_verdicts")
            tally.compare(f"completions: bash: aig-verdicts {words}", found, wanted)
    tally.check("completions: bash: a command in a word", not os.path.exists("hacked"), "it ran")
    by_fish(tally)
    try:
        for end in pty.openpty():
            os.close(end)
    except OSError:
        raise LeftOut("there are no terminals") from None
    for name, (command, setup, in_turn) in SHELLS.items():
        if not shutil.which(name):
            leave_out(f"completions: {name}", "it is not here")
            continue
        with Shell(command, setup) as shell:
            for typed, wanted in TYPED:
                wanted = [word.format(here=os.getcwd()) for word in wanted]
                tally.compare(f"completions: {name}: {typed!r}", shell.arguments(typed + "\t"), wanted)
            shell.talk(in_turn + "aig ready\n")
            for typed, wanted in IN_TURN:
                tally.compare(f"completions: {name}: {typed!r}", shell.arguments(typed), wanted)


# Words of aig-verdicts, and what fish offers for the last one.
OF_FISH = {"rech": ["recheck"], "run --frees": [], "run --engine ": ["bmc", "induction", "pdr"],
           "cores --min": ["--minimal"],
           "recheck --see": ["--seed"], "run --dask": ["--dask", "--dask-seconds"]}


def by_fish(tally):
    """Commands, options and their values in fish, where it is there."""
    if not shutil.which("fish"):
        leave_out("completions: fish", "it is not here")
        return
    with tempfile.TemporaryDirectory() as home:  # fish writes there
        for words, wanted in OF_FISH.items():
            line = f"source '{FOLDER}/aig-verdicts.fish'; complete -C 'aig-verdicts {words}'"
            said = supervised.run(["fish", "--no-config", "-c", line], stdout=subprocess.PIPE,
                                  env={**os.environ, "HOME": home}).stdout.decode()
            tally.compare(f"completions: fish: {words}", sorted(it.split("\t")[0] for it in said.splitlines()), wanted)


def of_help(ask):
    """The options of each command, and what each takes, as words of a line with the answer."""
    for name, one in commands(ask)[1].items():
        yield [name, "--"], sorted(long_options(one))
        for option, said in one.options.items():
            value = value_of(option, said)
            if value:
                files = sorted([*FILES, "sub"])
                yield [name, long_name(option), ""], {"file": files, "number": []}.get(value, value.split(" "))


def replies(words, breaks, name="aig", function="_aig"):
    """What bash's function answers to the words of a line, of which the last is completed."""
    script = """source "$1"; COMP_WORDBREAKS=$2 name=$3 function=$4; shift 4
COMP_WORDS=("$name" "$@"); COMP_CWORD=$#; COMP_LINE="${COMP_WORDS[*]}"; COMP_POINT=${#COMP_LINE}
"$function" "$name" "${COMP_WORDS[-1]}" "${COMP_WORDS[-2]}"; ((${#COMPREPLY[@]})) && printf '%s\\n' "${COMPREPLY[@]}" """
    done = supervised.run(["bash", "--norc", "-c", script, "bash", f"{FOLDER}/{name}.bash", breaks, name, function,
                           *words],
                          stdin=subprocess.DEVNULL, capture_output=True, text=True, check=False)
    return sorted(set(done.stdout.splitlines())) if not done.stderr else done.stderr


class Shell:
    """A shell on a terminal, in which `aig` and `aig-verdicts` are functions that print their arguments."""

    def __init__(self, command, setup):
        self.command, self.setup = command, setup

    def __enter__(self):
        self.child, self.terminal = pty.fork()
        if self.child == 0:
            os.environ.update(TERM="dumb", PS1="", INPUTRC="/dev/null", HISTFILE="", LC_ALL="C", ZDOTDIR="/nonexistent")
            os.execvp(self.command[0], self.command)
        self.talk(self.setup + "PS1=; PROMPT=; RPS1=\naig() { printf '<%s>' \"$@\"; echo '<'E'ND>'; }\n"
                  "aig-verdicts() { aig \"$@\"; }\naig ready\n")
        return self

    def __exit__(self, *_):
        os.kill(self.child, signal.SIGKILL)
        os.close(self.terminal)
        os.waitpid(self.child, 0)

    def talk(self, text):
        """Types this, and returns what is on the terminal up to the end of a command `aig`."""
        os.write(self.terminal, text.encode())
        seen, end = b"", time.monotonic() + SECONDS
        while b"<END>" not in seen and time.monotonic() < end:
            if select.select([self.terminal], [], [], 0.2)[0]:
                seen += os.read(self.terminal, 65536)
        return seen.decode(errors="replace")

    def arguments(self, typed):
        """The arguments that the command gets of a line that is typed with these keys."""
        told = self.talk(typed + "\n").rsplit("<END>", 1)[0].replace("\r", "")
        return told[told.index("<") + 1:told.rindex(">")].split("><") if ">" in told else told
