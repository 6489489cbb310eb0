"""Runs of the program with what `aig-explain` says after them. The interpreter takes longer to start than most runs
take, so this calls the function that explains, unless a run has streams, limits or a time of its own."""

from __future__ import annotations

import os
import sys
from typing import Sequence

from library.runs import REPOSITORY, Ended, Program

sys.path.insert(0, f"{REPOSITORY}/python/src")
from aig.explain import explanation as explanation  # noqa: E402
from aig.explain import files as files  # noqa: E402
from aig.explain import steps as steps  # noqa: E402
from aig.explain.arguments import Arguments as Arguments  # noqa: E402

COMMAND = f"{REPOSITORY}/tools/aig-explain"


class Explained(Program):
    """`aig-explain`, which runs this program."""

    def __init__(self, program: Program):
        super().__init__(program.path, program.is_named)
        self.command = Program(COMMAND, True)
        os.environ["AIG_PROGRAM"] = program.path

    def run(self, *words: str, **settings) -> Ended:
        """The run and its explanation; as a process of its own where the run has settings."""
        if settings:
            return self.command.run(*words, **settings)
        return self.explained(words, super().run(*words))

    @staticmethod
    def explained(words: Sequence[str], ended: Ended) -> Ended:
        """The same run with its explanation."""
        said = explanation(words, -1 if ended.status is None else ended.status, ended.err)
        return Ended(ended.status, ended.out, ended.err + said.encode("ascii"))
