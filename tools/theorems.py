#!/usr/bin/env python3
"""Compares the pages of docs/theorems/ with the sources, and fails where they differ. `--write` writes them.

A page has the text of a theorem: all definitions that a clause rests on, and the clause. People write its prose. Its
blocks are between a comment and `<!-- end -->`, and this script writes them. These comments say what they have:

    <!-- theorem convert_from.ends beside circuit.md -->    the page is about this clause, for who has read circuit.md
    <!-- show bench/Edit Replies rest -->     definitions that the clause reaches: those of the file bench/Edit, what
                                              Replies is and cites, and then all others; none twice
    <!-- traits aig_bytes/bytes Read Write -->    traits of a file of the sources
    <!-- count -->                            how many lines of definitions the page has
    <!-- clause -->                           the call with the clauses that the page is about

A page may be about several clauses. It has to show each definition that these reach and that no page beside it shows,
and each page that it is beside has to be there. Definitions name words of the toolchain: notation.md has to have each
that a page uses, as code. The script reads text and proves nothing."""

import argparse
import difflib
import re
import sys

from definitions import Promises, with_clause
from sources import shown
from sources.specs import ROOT, words

FOLDER = ROOT / "docs" / "theorems"
NOTATION = "notation.md"
BEGINNING = r"^<!-- (show|traits|count|clause)\b *(.*?) *-->$"
BLOCK = re.compile(rf"(?m){BEGINNING}\n(?:(?!<!-- ).*\n)*<!-- end -->$")
THEOREM = re.compile(r"(?m)^<!-- theorem (.+?)(?: beside (.*))? -->$")
REST = "rest"
MOST_SHOWN = 60


class Page:
    """A page with its blocks as they are by the sources. It shows keys of definitions, and types."""

    def __init__(self, promises, name, pages):
        self.promises, self.name, self.wrong = promises, name, []
        self.old = (FOLDER / name).read_text(encoding="utf-8")
        said = THEOREM.search(self.old)
        self.named, beside = [it.split() if it else [] for it in said.groups()] if said else ([], [])
        self.beside = [pages(it) for it in beside]
        self.known = set().union(*(it.known | it.keys for it in self.beside))
        self.types = set().union(*(it.types for it in self.beside))
        self.keys = set().union(*map(promises.given, self.named)) - self.known
        self.left, self.heads = set(self.keys), set()
        self.new = BLOCK.sub(self.block, self.old)
        self.wrong += self.missing({kind for kind, _ in BLOCK.findall(self.old)})

    def missing(self, kinds):
        """Yields what the page should have, and has not, where its blocks are of these kinds."""
        if not self.named:
            yield f"{self.name} is about no clause"
        if self.left:
            yield f"{self.name} does not show {', '.join(sorted(key[2] for key in self.left))}"
        if not kinds & {"clause", "traits"}:
            yield f"{self.name} does not show its clause"
        if len(re.findall(rf"(?m){BEGINNING}|^<!-- end -->$", self.old)) != 2 * len(BLOCK.findall(self.old)):
            yield f"{self.name}: a block has no end"

    def block(self, found):
        """Returns a block with the comments around it."""
        kind, said = found.groups()
        lines = [*getattr(self, kind)(said.split())]
        return "\n".join([f"<!-- {' '.join([kind, *said.split()])} -->", *lines, "<!-- end -->"])

    def show(self, names):
        """Yields the lines of definitions that are not shown yet."""
        for name in names:
            yield from self.shown(self.chosen(name))

    def chosen(self, name):
        """Returns the definitions that a word of a block means, of those that are not shown yet."""
        if name == REST:
            return set(self.left)
        if "/" in name:
            found = {key for key in self.left if shown.name_of(key) == name}
        else:
            found = self.promises.specs.reached(key for key in self.keys if key[2] == name) & self.left
        if not found:
            self.wrong.append(f"{self.name}: there is nothing left to show of {name}")
        return found

    def shown(self, keys):
        """Yields the lines of some definitions, with the types that they name."""
        self.left -= keys
        yield from shown.page(self.promises.specs, keys, self.types, self.heads)
        self.types |= {*shown.types(self.promises.specs, keys)}

    def traits(self, names):
        """Yields the lines of traits of a file."""
        crate, _, module = names[0].partition("/")
        yield from ("```rust", *shown.traits(crate, module, names[1:]), "```")

    def count(self, _):
        """Yields the line that says how many lines the page has."""
        lines = self.promises.specs.lines
        others = [f"the {lines(it.keys)} of [{it.name[:-3]}]({it.name})" for it in self.beside if it.named]
        yield f"Lines of definitions to believe: {' beside '.join([str(lines(self.keys)), *others])}."

    def clause(self, _):
        """Yields the calls with the clauses that the page is about."""
        for place, (name, names) in enumerate(self.clauses().items()):
            for export in with_clause(self.promises, name, names[0] if names else None):
                yield from ([""] if place else []) + [*shown.clauses(export, names or None)]

    def changes(self):
        """Yields what `--write` changes on the page."""
        yield from difflib.unified_diff(self.old.split("\n"), self.new.split("\n"), self.name, "the sources",
                                        lineterm="", n=0)

    def clauses(self):
        """Returns the names of these clauses by their calls; none where all are meant."""
        found = {}
        for name, _, clause in (it.partition(".") for it in self.named):
            found.setdefault(name, []).extend([clause] if clause else [])
        return found

    def foreign(self):
        """Returns the words of the toolchain that its definitions use, as they are imported."""
        found = set()
        for key in self.keys:
            it = self.promises.specs.table[key]
            said = {word.partition(".")[0] for word in it.words} | it.words
            found |= {name for name, (crate, _, _) in it.known.items()
                      if not crate.startswith("aig") and said & {name, *name.split("◌")} - {""}}
        return found


def unexplained(page, explained):
    """Yields the words of the toolchain that a page uses and that the key does not have."""
    for name in sorted(page.foreign()):
        if not {*name.split("◌")} - {""} <= explained:
            yield f"{page.name} uses {name.replace('◌', ' ').strip()}, which {NOTATION} does not have"


def all_pages(promises):
    """Returns all pages by their names."""
    found = {}

    def page(name):
        if name not in found:
            found[name] = Page(promises, name, page)
        return found[name]

    for path in sorted(FOLDER.glob("*.md")):
        page(path.name)
    return found


def differences(pages):
    """Yields how the pages differ from the sources, apart from what `--write` writes."""
    code = re.findall(r"`([^`\n]+)`", (FOLDER / NOTATION).read_text(encoding="utf-8"))
    explained = words(" ".join(code)) | {"[]"}
    for page in pages.values():
        yield from page.wrong
        yield from unexplained(page, explained)


def main():
    reader = argparse.ArgumentParser(description=__doc__, formatter_class=argparse.RawDescriptionHelpFormatter)
    reader.add_argument("--write", action="store_true", help="write the blocks of the pages")
    chosen = reader.parse_args()
    sys.stdout.reconfigure(encoding="utf-8")
    pages = all_pages(Promises())
    wrong = [*differences(pages)]
    for page in pages.values():
        if chosen.write:
            (FOLDER / page.name).write_text(page.new, encoding="utf-8")
        else:
            wrong += page.changes()
    print("\n".join(wrong[:MOST_SHOWN]), end="\n" if wrong else "")
    if wrong:
        print("pages of docs/theorems/ (-) differ from the sources (+): tools/theorems.py --write writes their blocks")
        return 1
    definitions = sum(len(page.keys) for page in pages.values())
    print(f"{len(pages)} pages of theorems, with {definitions} definitions: they are as the sources are")
    return 0


if __name__ == "__main__":
    sys.exit(main())
