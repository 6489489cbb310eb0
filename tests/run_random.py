#!/usr/bin/env python3
"""Runs the built program on files made at random: broken ones through every subcommand; scripts, whose replies have to
be those of a plain workbench; dumps, in which a plain reader has to find the trace; runs of witnesses; formulas, also
of whether a run keeps the constraints, and beside those of all gates; selections of properties; parts that are cut;
witnesses of runs; reduced witnesses; certificates, beside a search of all states; and sessions of `aig shell`, beside
the plain workbench. The gate runs a few hundred cases of each; --count and --seed choose others."""

from at_random import cases
from at_random.alive import alive
from at_random.certificates import certificates
from at_random.cones import cones
from at_random.cuts import cuts
from at_random.formulas import formulas
from at_random.hostile import hostile
from at_random.reductions import reductions
from at_random.replays import replays
from at_random.scripts import scripts
from at_random.selections import selections
from at_random.sessions import sessions
from at_random.waves import waves
from at_random.witnesses import witnesses
from library import runs

PARTS = {"hostile": hostile, "scripts": scripts, "waves": waves, "replays": replays, "formulas": formulas,
         "alive": alive, "cones": cones, "selections": selections, "cuts": cuts, "witnesses": witnesses,
         "reductions": reductions,
         "certificates": certificates, "sessions": sessions}

if __name__ == "__main__":
    runs.main(__doc__, PARTS, options=cases.options)
