#!/usr/bin/env python3
"""Prints which definitions a reader has to believe: those that the contracts of exported functions reach.

It compares the lists under "Definitions" in the READMEs of the crates with the heads of the files of specs/, and the
numbers of docs/DEFINITIONS.md with the sources. It fails where they differ; --write writes them. It also fails where
"Where to begin" of that page names a file that is not there. Each file of a crate's specs/ has a line: how many of its
lines are reached, and of how many. With --names the definitions themselves are listed. It fails where one that is
reached is in specs/state/, which is for what proofs alone need, and where a source could tell types apart.

`--of NAME` prints the definitions of one call, as `convert`, `Bench::rewire` or `aig_refute::check`, and their lines.
With `--clause CLAUSE` it prints those of one clause. A clause without a name is called `ensures` or `requires`. With
`--given NAME` or `--given NAME.CLAUSE` it leaves out what that call or clause rests on too: what is printed is new to
who has read that. As in

    tools/definitions.py --of refute --clause unreachable --given check.confirmed

With `--text` it prints the definitions themselves and the clause, as they are on the pages of docs/theorems/
(tools/theorems.py).

`--code` prints the bodies between the proved clauses and the system: those that say which file, which arguments and
which stream a command gets (sources/between.py says how they are found). No clause can say that, because std does not
say which bytes these have. README.md has the count of their lines, which is compared.

What public modules show counts as exported too: crates above use it. `--of` knows the program's own functions, too, as
`run_given`.

It reads text and proves nothing: library/specs.py says how it goes by names. Not counted are types and functions of std
and of the toolchain's crates, and the structs and enums of the sources, which contracts cite as they are."""

import argparse
import collections
import re
import sys
import textwrap

from sources import shown
from sources.between import PROGRAM, code, telling
from sources.exports import Crate, Program, crates
from sources.specs import ROOT, Specs, head, words

LIST = re.compile(r"(?ms)^## Definitions\n\n(.*?)(?=^## |\Z)")
PAGE = ROOT / "docs" / "DEFINITIONS.md"
# What the page says of all definitions.
SHARE = re.compile(r"\d+(?= %\s+of\s+the\s+lines\b)")
EXAMPLES = re.compile(r"\d+ of \d+(?=\s+files\s+have\s+an\s+example\b)")
# A file of specs/ as the page names it: `base/Value` of aig_base.
POINTER = re.compile(r"`(\w+)/(\w+)`")
README = ROOT / "README.md"
CODE = re.compile(r"\d+(?=\s+lines\s+of\s+code\b)")
WIDTH = 120


def clauses(export):
    """Returns the names of a contract's clauses. One without a name is called `ensures` or `requires`."""
    return [head.split()[-1] for head, _ in export.clauses]


class Promises:
    """What the crates export, and which definitions each contract cites."""

    def __init__(self):
        self.specs = Specs()
        self.crates = [Crate(name) for name in crates()]
        self.exports = [it for crate in self.crates for it in crate.exports()]
        self.of_program = [*Program(PROGRAM).exports()]
        # the definitions that a type is seen as
        self.values = collections.defaultdict(set)
        for it in self.exports:
            for head, text in it.clauses:
                if head == "ghost Value =":
                    self.values[it.name] |= self.specs.cited(words(text), it.known)

    def named(self, name):
        """Returns the exports of a name, before which its crate may be: `aig_refute::check`."""
        return [it for it in self.exports + self.of_program if name in (it.name, f"{it.crate}::{it.name}")]

    def having(self, name, clause):
        """Returns the exports of a name that have a clause, or all of them where no clause is asked for."""
        return [it for it in self.named(name) if clause is None or clause in clauses(it)]

    def cited(self, export, clause=None):
        """Returns the definitions that a contract names, or one clause of it; and those that the types of its signature
        are seen as, where it names one of their fields."""
        said = words(" ".join(text for head, text in export.clauses if clause in (None, head.split()[-1])))
        found = self.specs.cited({it for it in said if it.partition(".")[0] not in export.bound}, export.known)
        parts = {part for word in said for part in word.split(".")}
        seen = {key for name in export.types for key in self.values.get(name, ())}
        return found | {key for key in seen if self.specs.table[key].fields & parts}

    def believed(self, export, clause=None):
        """Returns the definitions that a contract reaches, or one clause of it."""
        return self.specs.reached(self.cited(export, clause))


    def given(self, named):
        """Returns the definitions that a call or a clause reaches, as `check.printed`."""
        name, _, clause = named.partition(".")
        return set().union(*(self.believed(it, clause or None) for it in with_clause(self, name, clause or None)))


def by_file(specs, keys):
    """Returns some definitions by their files, in the order of the files."""
    files = collections.OrderedDict()
    for key, it in specs.table.items():
        if key in keys:
            files.setdefault(it.path.relative_to(ROOT / "crates"), []).append(key)
    return files


def print_files(specs, reached, show):
    """Prints a line for each file, and returns how many of the reached definitions are in the wrong folder."""
    wrong = 0
    for path, keys in by_file(specs, specs.table).items():
        here = [key for key in keys if key in reached]
        print(f"{specs.lines(here):5} of {specs.lines(keys):4}  {path}")
        for key in here:
            if show:
                print(f"               {key[2]}")
            if "state" in path.parts:
                wrong += 1
                print(f"{path}: {key[2]} is reached by a contract, and is among what proofs alone need")
    return wrong


def entry(text):
    """Returns an entry of a list in lines of the width of a page."""
    found = textwrap.wrap(text, WIDTH, initial_indent="- ", subsequent_indent="  ", break_long_words=False,
                          break_on_hyphens=False)
    return "\n".join(found)


def listed(specs, reached, crate):
    """Returns the list of a crate's definitions: an entry for each file that contracts reach, with the definitions that
    they reach and the head of the file, and one for all other files. The program exports nothing: all of it is
    listed."""
    folder = ROOT / "crates" / crate / "specs"
    files = {path: keys for path, keys in by_file(specs, specs.table).items() if path.parts[0] == crate}
    entries, others = [], []
    for path, keys in files.items():
        name = path.relative_to(f"{crate}/specs").with_suffix("")
        here = [f"`{key[2]}`" for key in keys if key in reached or crate not in crates()]
        text = head(folder.parent.parent / path).replace("Example: ", "*Example*: ").replace("Examples: ",
                                                                                             "*Examples*: ")
        if here:
            entries.append(entry(f"`{name}` ({', '.join(here)}): {text}"))
        else:
            others.append(f"`{name}`")
    if others:
        entries.append(entry(f"For the proofs alone: {', '.join(others)}."))
    return "\n".join(entries) + "\n"


def compare_lists(specs, reached, write):
    """Compares the lists of the READMEs with the sources, or writes them. Returns how many differ. Paragraphs before a
    list stay as they are."""
    wrong = 0
    for path in sorted((ROOT / "crates").glob("*/README.md")):
        crate, text = path.parent.name, path.read_text(encoding="utf-8")
        found = LIST.search(text)
        if not found:
            continue
        before = re.match(r"(?s)(?:(?!- ).*?\n\n)*(?=- |\Z)", found[1])[0]
        section = before + listed(specs, reached, crate) + ("\n" if found.end() < len(text) else "")
        if section != found[1] and not write:
            print(f"{path.relative_to(ROOT)}: its definitions are not as the heads of specs/ say (--write)")
            wrong += 1
        if write:
            path.write_text(text[:found.start(1)] + section + text[found.end():], encoding="utf-8")
    return wrong


def print_code():
    """Prints these functions and the count of their lines."""
    bodies = code()
    for file, name, lines in bodies:
        print("\n".join([f"{file}: {name}", *lines, ""]))
    print(f"{sum(len(lines) for _, _, lines in bodies)} lines of code")


def with_examples(specs):
    """Returns how many files with definitions have an example, and how many there are, without those of state/."""
    files = [it for it in by_file(specs, specs.table) if "state" not in it.parts]
    return sum("Example" in head(ROOT / "crates" / it) for it in files), len(files)


def counts(specs, reached):
    """Returns what pages say in numbers: a page, the pattern of a number, its value and what it counts."""
    shown, files = with_examples(specs)
    return ((PAGE, SHARE, round(100 * specs.lines(reached) / specs.lines(specs.table)), "the share of lines"),
            (PAGE, EXAMPLES, f"{shown} of {files}", "how many files have an example"),
            (README, CODE, sum(len(lines) for _, _, lines in code()), "how many lines of code to read"))


def compare_pages(specs, reached, write):
    """Compares the numbers of pages and the names of docs/DEFINITIONS.md with the sources, or writes the numbers.
    Returns how many are wrong."""
    wrong = [f"{PAGE.name}: no file of specs/ is {crate}/{name}"
             for crate, name in POINTER.findall(PAGE.read_text(encoding="utf-8"))
             if not (ROOT / "crates" / f"aig_{crate}" / "specs" / f"{name}.antt").is_file()]
    for page, pattern, value, what in counts(specs, reached):
        text = page.read_text(encoding="utf-8")
        if write:
            page.write_text(pattern.sub(str(value), text), encoding="utf-8")
        elif pattern.findall(text) != [str(value)]:
            wrong.append(f"{page.name} does not say {what}: {value} (--write)")
    for line in wrong:
        print(line)
    return len(wrong)


def with_clause(promises, name, clause):
    """Returns the exports of a name that have a clause, or all of them where no clause is asked for. It ends the script
    where there is none."""
    found = promises.having(name, clause)
    named = promises.named(name)
    if not named:
        sys.exit(f"no crate exports {name}: docs/CONTRACTS.md has the names")
    if not found:
        sys.exit(f"{name} has no clause {clause}: its clauses are {', '.join(sorted({*sum(map(clauses, named), [])}))}")
    return found


def print_of(promises, name, clause, given):
    """Prints the definitions that the calls of a name reach, or one clause of them, without those that are given."""
    known, beside = set(), ""
    if given:
        known = promises.given(given)
        beside = f" beside the {promises.specs.lines(known)} of {given}"
    for export in with_clause(promises, name, clause):
        reached = promises.believed(export, clause) - known
        for path, keys in by_file(promises.specs, reached).items():
            print(f"{promises.specs.lines(keys):5}  {path}: {', '.join(key[2] for key in keys)}")
        whose = f"{export.crate}: {name}" + (f", clause {clause}" if clause else "")
        print(f"{whose}: {promises.specs.lines(reached)} lines to believe{beside}, of {len(reached)} definitions")


def print_text(promises, name, clause, given):
    """Prints the definitions that the calls of a name reach, or one clause of them, each after those that it cites, and
    then the clauses."""
    known = promises.given(given) if given else set()
    for export in with_clause(promises, name, clause):
        for line in shown.page(promises.specs, promises.believed(export, clause) - known):
            print(line)
        print("\n".join(shown.clauses(export, [clause] if clause else None)))


def main():
    reader = argparse.ArgumentParser(description=__doc__, formatter_class=argparse.RawDescriptionHelpFormatter)
    reader.add_argument("--names", action="store_true", help="list the definitions")
    reader.add_argument("--write", action="store_true", help="write the lists of the READMEs and the numbers")
    reader.add_argument("--of", metavar="NAME", help="one call, as `convert`, `Bench::rewire` or `aig_refute::check`")
    reader.add_argument("--clause", help="with --of: one clause of the call")
    reader.add_argument("--given", metavar="NAME[.CLAUSE]", help="with --of: without what this call or clause rests on")
    reader.add_argument("--text", action="store_true", help="with --of: the definitions and clauses themselves")
    reader.add_argument("--code", action="store_true", help="print the code between the clauses and the system")
    chosen = reader.parse_args()
    if chosen.code:
        print_code()
        return 0
    if not chosen.of and (chosen.clause or chosen.given or chosen.text):
        reader.error("--clause, --given and --text are for one call: --of NAME")
    promises = Promises()
    if chosen.of:
        (print_text if chosen.text else print_of)(promises, chosen.of, chosen.clause, chosen.given)
        return 0
    specs = promises.specs
    reached = set().union(*(promises.believed(it) for it in promises.exports))
    wrong = print_files(specs, reached, chosen.names)
    told = telling()
    for line in told:
        print(f"code can tell its reader from others: {line}")
    differ = len(told) + compare_lists(specs, reached, chosen.write) + compare_pages(specs, reached, chosen.write)
    print(f"{specs.lines(reached)} lines of {specs.lines(specs.table)} to believe, of {len(reached)} definitions; "
          f"{wrong} in the wrong folder")
    return 1 if wrong or differ else 0


if __name__ == "__main__":
    sys.exit(main())
