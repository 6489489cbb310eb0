#!/usr/bin/env python3
"""Runs the built program as a user does: each subcommand on small files, the arguments and the help beside
docs/BEHAVIOUR.md, manual pages and completions, what a run needs, and talks through pipes. Each run that is rejected is
explained too. Output, error text and exit status have to be those that stand here: from the standard, from worked
examples, and from library/reference.py, a plain simulator and workbench."""

from library import runs
from program.ample import ample
from program.bench import bench
from program.causes import causes
from program.certificates import certificates
from program.check import check
from program.cnf import cnf
from program.completions import completions
from program.cut import cut
from program.definitions import definitions
from program.descriptors import descriptors
from program.helps import helps
from program.info import info
from program.json_lines import json_lines
from program.kept import kept
from program.large_proofs import large_proofs
from program.large_saves import large_saves
from program.large_session import large_session
from program.names import names
from program.needs import needs
from program.owners import owners
from program.pages import pages
from program.proofs import proofs
from program.properties import properties
from program.reduce import reduce
from program.refute import refute
from program.replays import replays
from program.same_files import same_files
from program.select import select
from program.shell import shell
from program.sim import sim
from program.strengthened import strengthened_texts
from program.talks import talks
from program.terminals import terminals
from program.toaig import toaig
from program.unroll import unroll
from program.wave import wave
from program.why import why
from program.witness import witness
from program.words import words

PARTS = {"bench": bench, "kept": kept, "owners": owners, "descriptors": descriptors, "words": words, "sim": sim,
         "wave": wave, "check": check, "replays": replays, "toaig": toaig, "unroll": unroll, "cnf": cnf,
         "info": info, "select": select, "cut": cut, "witness": witness, "refute": refute, "proofs": proofs,
         "large_proofs": large_proofs, "definitions": definitions, "certificates": certificates,
         "strengthened": strengthened_texts, "properties": properties, "names": names, "ample": ample,
         "reduce": reduce, "why": why, "causes": causes,
         "json_lines": json_lines, "help": helps,
         "pages": pages, "completions": completions, "needs": needs, "talks": talks,
         "terminals": terminals,
         "shell": shell, "large_session": large_session,
         "large_saves": large_saves, "same_files": same_files}

if __name__ == "__main__":
    runs.main(__doc__, PARTS)
