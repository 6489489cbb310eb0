"""What the arguments of a run name: its command, its options and its files."""

from __future__ import annotations

from typing import Dict, List, Sequence, Set

# Options that have no value, unless it is in this command.
FLAGS = ("--json", "--trace", "--properties", "--alive", "--witness", "--step", "--names", "--help", "-h")
VALUED = {"--step": "refute", "--names": "select"}
# The parts of a run whose files come after the circuit.
PLACES = {"sim": ["stimulus"], "wave": ["stimulus"], "bench": ["stimulus", "script"], "check": ["witness"],
          "witness": ["stimulus"], "reduce": ["witness"], "why": ["stimulus"], "refute": ["proof"],
          "shell": ["stimulus"]}


class Arguments:
    """The arguments of a run that `aig` accepted."""

    def __init__(self, words: Sequence[str]):
        self.options: Dict[str, str] = {}
        self.flags: Set[str] = set()
        plain = self._read([*words])
        self.command, self.circuit = [*plain, "", ""][:2]
        self.files = dict(zip(PLACES.get(self.command, []), plain[2:]))
        if "--witness" in self.flags and "stimulus" in self.files:
            self.files["witness"] = self.files["stimulus"]
        for name in ("model", "certificate", "names", "cuts"):
            if f"--{name}" in self.options:
                self.files[name] = self.options[f"--{name}"]
        if self.command == "refute" and "--step" in self.options:
            self.files["step proof"] = self.options["--step"]
        self.files["circuit"] = self.circuit

    def _read(self, rest: List[str]) -> List[str]:
        """Takes the options out of the words, and returns all other words. All words after `--` are such ones."""
        plain: List[str] = []
        while rest:
            word = rest.pop(0)
            if word == "--":
                return plain + rest
            if not word.startswith("-") or word == "-":
                plain.append(word)
            elif "=" in word:
                name, _, self.options[name] = word.partition("=")
            elif word in FLAGS and VALUED.get(word) not in plain[:1]:
                self.flags.add(word)
            elif rest:
                self.options[word] = rest.pop(0)
        return plain

    def number(self, option: str) -> int:
        """The number of an option, also with the letter of a section; 0 if it has none."""
        text = self.options.get(option, "0").lstrip("b")
        return int(text) if text.isdecimal() and len(text) <= 10 else 0

    @property
    def has_certificate(self) -> bool:
        return "certificate" in self.files

    @property
    def about(self) -> str:
        """What the formula of the run is about."""
        return "certificate" if self.has_certificate else "alive" if "--alive" in self.flags else "runs"

    def rows_of(self, run: bytes) -> int:
        """How many rows the file of a run has. Four lines of a witness are none."""
        is_witness = self.command == "reduce" or "--witness" in self.flags
        return max(run.count(10) - 4 * is_witness, 0)
