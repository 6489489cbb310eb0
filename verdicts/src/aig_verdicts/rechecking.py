"""The command `aig-verdicts recheck`. What an option asks for alone is read where it is asked for."""

from __future__ import annotations

import argparse
import secrets
import sys

from aig.program import program
from .audit.audited import audited, options_of, table_of
from .audit.bundle import Bundle
from .audit.folder import write_whole
from .audit.manifest import as_json, rows_as_json
from .audit.recheck import is_older, recheck
from .audit.row import Row
from .audit.sentences import NOT_COMPARED, of_needs
from .audit.simulated import Simulated
from .audit.table import compared, plain
from aig.tools import Stop, version
from .notes import MOST_NOTES, tell, say_of_assumptions, say_of_needs, write_page

# The seeds of random runs are 1 to this.
MOST_SEEDS = 2**31 - 1


def again(words: argparse.Namespace, stop: Stop) -> int:
    def say(row: Row) -> None:
        if not words.quiet and not words.json:
            needs = f"  needs {of_needs(row.needs)}" if row.needs is not None else ""
            print(f"{row.label}  {row.verdict}  {plain(row.name)}".rstrip() + needs)

    if not words.bundle.exists():
        raise FileNotFoundError(f"there is no bundle {words.bundle}")
    bundle = recheck(words.bundle, say=say, jobs=words.jobs, stop=stop, most_bytes=words.megabytes << 20)
    if words.sources:
        from .compare.again import same_sources

        same_sources(bundle, words.sources, words.include)
    remade = None
    if words.yosys:
        from .compare.again import same_design

        remade = same_design(bundle, stop)
    of_yosys = remade.value if remade else ""
    played = _simulated_again(words, bundle, stop)
    on_page = played if played.by else Simulated(circuit=of_yosys or NOT_COMPARED)
    shown = audited(bundle, version(program(), stop), on_page, bool(words.sources), bool(of_yosys))
    table = table_of(bundle, shown.rows, played)
    changed = None
    if words.since:
        from .compare.command import against, last_line, write
        from .compare.matching import Version
        from .compare.sides import side_of

        changed = against(words, side_of(Version.of(bundle), table, shown.read), remade, stop)
        write(changed, words.page, words.junit, {})
    elif words.page:
        from .pages.page import Results

        write_page(words.page, Results(shown.manifest, shown.rows, shown.read), table, False)
    if words.junit and not changed:
        write_whole(words.junit, table.junit(bundle.manifest["name"], {}).encode("utf-8", "replace"))
    if words.json:
        sys.stdout.write(as_json(table.json({**shown.manifest, "rows": rows_as_json(shown.rows)})).decode())
    elif changed:
        sys.stdout.write(changed.text())
    sys.stdout.flush()
    if bundle.manifest["sources"] and (words.sources or words.yosys or words.simulate):
        tell(options_of(bundle, bool(of_yosys)))
    if is_older(bundle) and bundle.rows[0].claim is None:
        tell("that some run keeps the assumptions is a solver's word, as the bundle is of an older version")
    if not words.quiet:
        for doubt in table.doubts[:MOST_NOTES]:
            tell(doubt)
        say_of_assumptions(bundle.rows[0], bundle.circuit(), bundle.summed)
        say_of_needs(table, bundle.circuit())
    if played.agrees is False:
        tell(played.circuit)
    of_sources = compared(bool(bundle.manifest["sources"]), of_yosys, played)
    print(plain(table.line_of_recheck(of_sources, bool(words.sources))), file=sys.stderr)
    if changed:
        print(f"since {plain(str(words.since))}: {last_line(changed)}; {changed.basis}", file=sys.stderr)
    return changed.status if changed else table.status


def _simulated_again(words: argparse.Namespace, bundle: Bundle, stop: Stop) -> Simulated:
    """What a simulator says of the sources in a bundle. Who made it does not know which random runs are played."""
    if not words.simulate:
        return Simulated()
    from .replay.run import Bounds as PlayBounds, simulated

    seed = words.seed or secrets.randbelow(MOST_SEEDS) + 1
    return simulated(bundle, bundle.rows, words.simulator, PlayBounds(0.0, words.jobs, seed), stop)
