"""Makes the circuit of a module by aig-verdicts, and compares it with Icarus Verilog."""

from __future__ import annotations

import re
import subprocess
import sys
from pathlib import Path
from typing import Dict, List, NamedTuple, Optional, Set

from foreign.modules import Module, only
from library import supervised

# The assertion that each copy gets, on the line of its `endmodule`: a simulator too runs it once.
LABEL = "aig_foreign"
ROW = f" wire {LABEL}_1 = 1'b1; always @* {LABEL}: assert ({LABEL}_1); "
# How long one command may take on the clock of a busy machine.
CLOCK_SECONDS = 600
FRAMES = 20
# The statuses of `run` where there are verdicts.
VERDICTS = (0, 4, 5)

AGREES, AFTER_RESET, DIFFERS = "agrees", "agrees after a reset", "differs"
NOT_BY_YOSYS, REJECTED, NOT_BY_ICARUS, TOO_LONG = "not read by Yosys", "rejected", "not read by Icarus", "too long"
OUTCOMES = (AGREES, AFTER_RESET, DIFFERS, REJECTED, NOT_BY_YOSYS, NOT_BY_ICARUS, TOO_LONG)

_INPUTS = re.compile(r"\binput\b[^;)]*")
_RESET = re.compile(r"\b\w*(?:rst|reset|clr|clear)\w*\b", re.IGNORECASE)
_COUNTS = re.compile(r"(?P<signals>\d+) signals, .*?(?P<values>\d+) values")


class Task(NamedTuple):
    """A module to compare: its package, its file inside of that, and the texts that it needs, its own first."""

    package: str
    inside: str
    module: Module
    folder: Path
    texts: Dict[str, str]

    @property
    def name(self) -> str:
        return f"{self.package} {self.inside} {self.module.name}"


class Outcome(NamedTuple):
    """What became of a module, why, how many signals were compared, in how many values, and how many were not."""

    word: str
    why: str = ""
    signals: int = 0
    values: int = 0
    left: int = 0


class Command(NamedTuple):
    """A program aig-verdicts, and how many seconds of one processor each program may take that it starts."""

    path: Path
    seconds: int


class Ended(NamedTuple):
    """How a command ended: no status if it was over its time."""

    status: Optional[int]
    out: str
    err: str


def copies(path: Path, module: Module, needed: Dict[Path, Set[str]]) -> Dict[str, str]:
    """The files of a module with what it needs alone, the first one with the assertion. No line moves."""
    texts = {it.name: only(it, names) for it, names in needed.items()}
    first = texts[path.name]
    texts[path.name] = first[:module.last] + ROW + first[module.last:]
    return texts


def compared(task: Task, command: Command, to: Path) -> Outcome:
    """Makes the circuit of a module and compares it. What is left in the folder shows why a module does not agree."""
    to.mkdir(parents=True)
    for name, text in task.texts.items():
        (to / name).write_text(text, "latin-1")
    files, top = [to / name for name in task.texts], task.module.name.lstrip("\\")
    ended = _called(command, "run", *files, "--top", top, "-I", task.folder, "--out", to / "bundle", "--only", LABEL,
                    "--frames", "1", "--abc", "", "--jobs", "1", "--no-simulator", "--quiet")
    if ended.status is None:
        return Outcome(TOO_LONG, "the circuit")
    if ended.status not in VERDICTS:
        why = _last(ended.err).replace(f"{to}/", "")
        if re.search(r"did not end|signal (?:9|24)\b", why):
            return Outcome(TOO_LONG, why)
        return Outcome(NOT_BY_YOSYS if re.search("yosys ended|Yosys: ", why) else REJECTED, why)
    outcome = _replayed(command, to / "bundle")
    holds = _holds(task.module)
    if outcome.word == DIFFERS and holds:
        again = _replayed(command, to / "bundle", *holds)
        if again.word == AGREES:
            return again._replace(word=AFTER_RESET, why=outcome.why)
    return outcome


def _called(command: Command, *words: object) -> Ended:
    limited = ["sh", "-c", f'ulimit -S -t {command.seconds}; exec "$@"', "sh", sys.executable, str(command.path)]
    try:
        done = supervised.run([*limited, *map(str, words)], stdin=subprocess.DEVNULL, capture_output=True,
                              timeout=CLOCK_SECONDS)
    except subprocess.TimeoutExpired:
        return Ended(None, "", "")
    return Ended(done.returncode, done.stdout.decode("utf-8", "replace"), done.stderr.decode("utf-8", "replace"))


def _holds(module: Module) -> List[str]:
    """The options that begin random runs in reset: a reset is an input of such a name."""
    found = []
    for name in dict.fromkeys(_RESET.findall(" ".join(_INPUTS.findall(module.text)))):
        is_read_low = re.search(rf"(?:\bnegedge\s+|[!~]\s*){name}\b", module.text)
        is_low = is_read_low or name.lower().endswith(("n", "_l", "_b"))
        found += ["--hold", f"{name}={0 if is_low else 1}:4"]
    return found


def _replayed(command: Command, bundle: Path, *holds: str) -> Outcome:
    ended = _called(command, "replay", bundle, "--random", FRAMES, *holds)
    lines = [line for line in ended.out.splitlines() if line.startswith("random run ")]
    if ended.status is None:
        return Outcome(TOO_LONG, "the simulation")
    if not lines:
        return Outcome(NOT_BY_ICARUS, _last(ended.out + ended.err))
    for mark, word in (("disagrees", DIFFERS), ("not replayed", NOT_BY_ICARUS)):
        bad = [line for line in lines if mark in line]
        if bad:
            return Outcome(word, re.sub(r"^.*?frames: ", "", bad[0]))
    counts = [it for it in map(_COUNTS.search, lines) if it]
    left = re.search(r"(\d+) signals were not compared", ended.err)
    return Outcome(AGREES, "", max(int(it["signals"]) for it in counts), sum(int(it["values"]) for it in counts),
                   int(left[1]) if left else 0)


def _last(text: str) -> str:
    lines = [line for line in text.splitlines() if line.strip()]
    return lines[-1].replace("aig-verdicts: ", "", 1) if lines else "?"


def reason(why: str) -> str:
    """The reason without places, names and numbers, to count."""
    why = re.sub(r"\S+\.s?vh?:\d+(?:, \S+\.s?vh?:\d+)*", "PLACE", why)
    why = re.sub(r"[`'\"\\][^`'\"]*['\"`]|\\\S+", "NAME", why)
    return re.sub(r"\d+", "N", why)[:160]
