#!/usr/bin/env python3
"""Compares docs/CONTRACTS.md, the list of all public contracts, with the sources, and fails where they differ.

The list has one line per call: the names of its clauses, the lines to believe, and a sum of its signature and clauses.
So the list differs where a clause or a signature was changed, and where a call has other lines to believe. --of NAME
prints the contracts of that name in full, and --page FILE writes those of all calls: `make install` puts that page in
place of the list.

README.md and docs/PROVED.md are compared too. The last column of each table that ends with the column `lines to
believe` has the lines of the call, or of its clause, in the column `call, clause`; a row that says `more` has only
those that are not of what a circuit file is. docs/PROVED.md says how many calls have no clause, and names each or its
type. It names all laws and no other. Each clause that it shows has to be in the sources. --write writes the list and
these numbers. The script reads text and proves nothing. The texts of definitions are on neither page."""

import argparse
import difflib
import hashlib
import pathlib
import re
import sys
import textwrap

from definitions import Promises
from sources.specs import ROOT, outside

PAGE = ROOT / "docs" / "CONTRACTS.md"
README = ROOT / "README.md"
PROVED = ROOT / "docs" / "PROVED.md"
BELIEVED, CALL = "lines to believe", "call, clause"
MORE, CIRCUIT_FILE = " more", ("read_circuit", "circuit")
UNCLAIMED = re.compile(r"\d+(?= public calls have no clause\b)")
WIDTH = 120
MOST_SHOWN = 60

LIST_HEAD = """# The contracts

This page lists all public contracts: each exported function, method, type and law, with the names of its clauses.
*Lines* is how many lines of definitions one has to believe for the call: all lines of the definitions that its clauses
reach (`tools/definitions.py --of NAME` lists them). The sum is of the signature and the clauses.
`tools/contracts.py --write` makes the list from the sources, and the gate compares the two. So the diff of this page
shows which public clauses a change touches.

    tools/contracts.py --of refute              # the contract in full, clause by clause as in the sources
    tools/contracts.py --page contracts.md      # the contracts of all calls

An installed copy of this page has them all in full. [PROVED.md](PROVED.md) says the same in prose, and
[DEFINITIONS.md](DEFINITIONS.md) explains the definitions. A call without a clause is proved to be safe and to return,
like all others; `requires` is what it asks of its caller. A clause without a name is listed as `ensures`. The facts of
a clause that is a record are in parentheses.
"""

PAGE_HEAD = """# The contracts

This page has all public contracts: what each exported function, method and law asks of its caller (`requires`) and
promises (`ensures`), clause by clause as in the sources. [PROVED.md](PROVED.md) says the same in prose, and
[DEFINITIONS.md](DEFINITIONS.md) explains the definitions.

- `result` is what a call returns. `x.now` is what a reference `x` leads to. For a mutable one, `x.old` is that before
  the call, and `x.new` after it.
- The entry of a type says what contracts see of it: its `Value`, and as `view` how that is made of its fields. A type
  without an entry is seen by its own fields or variants.
- The entry of a trait has the functions that its clauses speak of, and the entry of an implementation (`X as Read`)
  says what they are there. A method without an entry in an implementation has the clauses of the trait.
- *Cites* lists the definitions of `specs/` that a contract names. After it comes how many lines one has to believe for
  the call: all lines of the definitions that these reach. `tools/definitions.py --of NAME` lists them. Their texts are
  in `specs/`, and not on this page.
- A call without a clause is proved to be safe and to return, like all others.
"""


def wrapped(text):
    """Returns a text in lines of the page's width."""
    return textwrap.wrap(text, WIDTH, break_long_words=False, break_on_hyphens=False)


def clause(head, text):
    """Returns the lines of a clause: one, if it fits, else those of the source."""
    lines = text.split("\n")
    one = " ".join(["   ", head, *lines])
    return [one] if len(one) <= WIDTH else [f"    {head} {lines[0]}", *(f"        {line}" for line in lines[1:])]


def signature(export):
    """Returns the lines of an export's signature and its clauses."""
    heads = [export.block.head, export.head] if export.block else [export.head]
    return [*dict.fromkeys(heads), *(line for it in export.clauses for line in clause(*it))]


def entry(promises, export):
    """Returns the lines of an export's entry."""
    lines = [f"### `{export.name}`", ""]
    about = [export.doc] if export.doc else []
    if not export.listed:
        about.append(f"(In the public module `{export.module}`; lib.rt does not export it by name.)")
    if about:
        lines += [*wrapped(" ".join(about)), ""]
    lines += ["```", *signature(export), "```"]
    cited = promises.cited(export)
    if cited:
        names = ", ".join(f"`{name}`" for name in sorted({key[2] for key in cited}))
        lines += ["", f"Cites {names}: {lines_to_believe(promises, export)} lines to believe."]
    return "\n".join([*lines, ""]).split("\n")


def lines_to_believe(promises, export):
    """Returns how many lines of definitions the clauses of an export reach."""
    return promises.specs.lines(promises.specs.reached(promises.cited(export)))


def named(promises, export, head, text):
    """Returns the name of a clause, and in parentheses the fields of the record that it is."""
    name, says = re.sub(r"^ensures (?=\w)|[ :=]+$", "", head), text.strip("{} \n").split()
    is_fact = head.startswith("ensures") and not {"×", "→", "≡"} & outside(says)
    cited = promises.specs.cited(says[:1], export.known) if is_fact else ()
    fields = promises.specs.parts(*cited) if len(cited) == 1 else []
    return f"{name} ({', '.join(fields)})" if fields else name


def row(promises, export):
    """Returns an export's line of the list."""
    names = [named(promises, export, *it) for it in export.clauses]
    total = hashlib.sha256("\n".join(signature(export)).encode()).hexdigest()[:8]
    cells = [f"`{export.name}`", ", ".join(names), str(lines_to_believe(promises, export) or ""), total]
    return "|" + "|".join(f" {it} " if it else " " for it in cells) + "|"


def by_crate(promises, head, of_crate):
    """Returns the lines of a page: its head, and for each crate its title and what it exports."""
    lines = head.split("\n")
    for crate in promises.crates:
        exports = [it for it in promises.exports if it.crate == crate.name]
        lines += [f"## `{crate.name}`", "", *of_crate(promises, crate, exports)]
    return lines[:-1]


def crate_in_full(promises, crate, exports):
    """Returns the lines of the whole page for a crate."""
    lines = [*wrapped(crate.doc), ""]
    for other, names in crate.passed_on.items():
        lines += [*wrapped(f"It exports again from `{other}`: {', '.join(f'`{it}`' for it in names)}."), ""]
    return lines + [line for it in exports for line in entry(promises, it)]


def crate_in_rows(promises, _, exports):
    """Returns the lines of the list for a crate."""
    rows = [row(promises, it) for it in exports]
    return ["| call | clauses | lines | sum |", "|---|---|---|---|", *rows, ""] if rows else []


def read_page():
    """Returns the lines of the page as it is, or none where there is no page."""
    return PAGE.read_text(encoding="utf-8").split("\n")[:-1] if PAGE.is_file() else []


def wrong_numbers(promises):
    """Yields what README says wrong of the lines to believe, as in `read 868 lines (.. --of bench ..)`, or of those of
    one clause (`--of refute --clause unreachable`)."""
    said = re.findall(r"(\d[\d,]*)[^(\d]*\([^)]*--of ([\w:]+)(?: --clause (\w+))?", README.read_text(encoding="utf-8"))
    for number, name, clause in said:
        clause = clause or None
        lines = lines_of(promises, name, clause)
        if [int(number.replace(",", ""))] != lines:
            yield f"README.md says {number} lines to believe for {name}, {clause or 'all clauses'}: {lines}"
    if not said and BELIEVED not in README.read_text(encoding="utf-8"):
        yield "README.md says of no call how many lines one has to believe"


def lines_of(promises, name, clause, known=frozenset()):
    """Returns the lines to believe for each export of a name, or for one clause of it, without definitions that are
    known."""
    return [promises.specs.lines(promises.believed(it, clause) - known) for it in promises.having(name, clause)]


def unclaimed(promises):
    """Returns the exported functions that have no clause."""
    return [it for it in promises.exports if not it.clauses and re.search(r"\bfn\b", it.head)]


def counted(promises, path):
    """Returns the lines of a page, with its numbers as they are by the sources: the lines to believe of its tables, and
    how many calls have no clause."""
    name, clause = CIRCUIT_FILE
    circuit_file = set().union(*(promises.believed(it, clause) for it in promises.having(name, clause)))
    found, column = [], None
    text = UNCLAIMED.sub(str(len(unclaimed(promises))), path.read_text(encoding="utf-8"))
    for line in text.split("\n"):
        cells = [it.strip() for it in line.split("|")[1:-1]] if line.startswith("|") else []
        if cells and cells[-1] == BELIEVED:
            column = cells.index(CALL)
        elif not cells:
            column = None
        elif column is not None and not line.startswith("|---"):
            name, *clause = re.findall(r"`([\w:]+)`", cells[column])
            more = cells[-1].endswith(MORE)
            counts = lines_of(promises, name, clause[0] if clause else None, circuit_file if more else frozenset())
            said = ", ".join(f"{it}{MORE if more else ''}" for it in counts)
            line = f"{line.rstrip(' |').rpartition('|')[0]}| {said or 'no such clause'} |"
        found.append(line)
    return found


def wrong_quotes(promises):
    """Yields the clauses that docs/PROVED.md shows and that no call has."""
    text = re.sub(r"(?m)^    (?=ensures)", "", PROVED.read_text(encoding="utf-8"))
    said = {" ".join(f"{head} {text}".split()) for it in promises.exports for head, text in it.clauses}
    for shown in re.findall(r"(?m)^ensures \w+ \{(?:.*\n {8})*.*\}$", text):
        if " ".join(shown.split()) not in said:
            yield f"docs/PROVED.md shows a clause that no call has: {' '.join(shown.split())}"


def wrong_names(promises):
    """Yields which laws and calls without a clause docs/PROVED.md does not name, and which laws no crate has."""
    text = PROVED.read_text(encoding="utf-8")
    named, laws = {*re.findall(r"`([\w:]+)`", text)}, {it.name for it in promises.exports if it.name.startswith("law_")}
    said = {name for name in named if name.startswith("law_")}
    yield from (f"docs/PROVED.md does not name {name}" for name in sorted(laws - said))
    yield from (f"docs/PROVED.md names {name}, which no crate exports" for name in sorted(said - laws))
    for it in unclaimed(promises):
        if not {it.name, it.name.partition("::")[0]} & named:
            yield f"docs/PROVED.md does not name {it.name}, which has no clause"


def wrong_pages(promises, new):
    """Yields how the list and the numbers of README.md and docs/PROVED.md differ from the sources."""
    yield from wrong_numbers(promises)
    yield from wrong_quotes(promises)
    yield from wrong_names(promises)
    pages = [(PAGE, read_page(), new)]
    pages += [(it, it.read_text(encoding="utf-8").split("\n"), counted(promises, it)) for it in (README, PROVED)]
    for path, old, sources in pages:
        yield from difflib.unified_diff(old, sources, path.name, "the sources", lineterm="", n=0)


def print_of(promises, name):
    """Prints the contracts of a name in full."""
    found = promises.named(name)
    if not found:
        sys.exit(f"no crate exports {name}: docs/CONTRACTS.md has the names")
    for export in found:
        print("\n".join([f"`{export.crate}`", "", *entry(promises, export)]))


def main():
    reader = argparse.ArgumentParser(description=__doc__, formatter_class=argparse.RawDescriptionHelpFormatter)
    kind = reader.add_mutually_exclusive_group()
    kind.add_argument("--write", action="store_true", help="write the list, and the columns of README and PROVED")
    kind.add_argument("--of", metavar="NAME", help="print the contracts of one call, as `Bench::rewire`, in full")
    kind.add_argument("--page", metavar="FILE", help="write the contracts of all calls to FILE")
    chosen = reader.parse_args()
    sys.stdout.reconfigure(encoding="utf-8")
    promises = Promises()
    if chosen.of:
        print_of(promises, chosen.of)
        return 0
    if chosen.page:
        whole = by_crate(promises, PAGE_HEAD, crate_in_full)
        pathlib.Path(chosen.page).write_text("\n".join(whole) + "\n", encoding="utf-8")
        return 0
    new = by_crate(promises, LIST_HEAD, crate_in_rows)
    count = f"{len(promises.exports)} entries with {sum(len(it.clauses) for it in promises.exports)} clauses"
    if chosen.write:
        PAGE.write_text("\n".join(new) + "\n", encoding="utf-8")
        for path in (README, PROVED):
            path.write_text("\n".join(counted(promises, path)), encoding="utf-8")
        print(f"{count}: written to docs/CONTRACTS.md")
        return 0
    wrong = [*wrong_pages(promises, new)]
    for line in wrong[:MOST_SHOWN]:
        print(line)
    if len(wrong) > MOST_SHOWN:
        print(f"and {len(wrong) - MOST_SHOWN} lines more")
    if wrong:
        print("pages (-) differ from the sources (+): tools/contracts.py --write writes them anew")
        return 1
    print(f"{count}: docs/CONTRACTS.md is as the sources are")
    return 0


if __name__ == "__main__":
    sys.exit(main())
