#!/usr/bin/env python3
"""Compares crates.txt with the sources, and the table of crates in docs/ARCHITECTURE.md and the picture of them,
docs/floors.svg, with crates.txt. And packages.txt with the imports of Python (tools/python_edges.py).

- A crate lists the libraries that a file of its src/, specs/ or proofs/ names, and no others. Comments do not count.
- The libraries of a crate are above it in crates.txt. A line with `#` begins a floor, and says what the crates of the
  floor do not know. What it names in parentheses is tested: no crate of the floor stands on such a library, not by its
  libraries either, and no file of its src/ names such a module of std.
- ARCHITECTURE.md has a table with a row for each floor and, below it, one for each crate. Its last column has the
  libraries of the repository on which the crate stands, without those on which these stand.
- A name of a type has one meaning in a crate and the crates that it stands on.
- The picture has the floors, the crates, these edges, and the longest chain by its lines of src and proofs, in
  thousands (tools/draw_floors.py).

--write writes table and picture anew: floors, crates and the last column from crates.txt. It keeps what the page says a
crate holds. The script reads text and proves nothing."""

import argparse
import collections
import difflib
import re
import sys

import draw_floors
import python_edges
from sources.specs import ROOT

LIST = ROOT / "crates.txt"
PAGE = ROOT / "docs" / "ARCHITECTURE.md"
PICTURE = ROOT / "docs" / "floors.svg"
# A type that an implementation names for its trait is none of the crate's: its line is indented.
_TYPE = re.compile(r"(?m)^(?:pub(?:\([^)]*\))?\s+)?(?:struct|enum|trait|type|union)\s+([A-Z]\w*)")
TABLE = "| crate | holds | stands on |"
END = "."

# The title of a floor, what it does not know, and its crates, each with the libraries that crates.txt gives it.
Floor = collections.namedtuple("Floor", "title unknown crates")


def floors():
    """Returns the floors of crates.txt, the lowest first. The lines before the first blank one are its head."""
    found = []
    _, _, text = LIST.read_text(encoding="utf-8").partition("\n\n")
    for line in filter(None, text.split("\n")):
        if line.startswith("#"):
            title, _, unknown = line[1:].strip().partition(": ")
            found.append(Floor(title.rstrip("."), unknown, {}))
        else:
            name, _, libraries = line.partition(":")
            # of `NAME staticlib` the name is the first word
            found[-1].crates[name.split()[0]] = libraries.split()
    return found


def named(name):
    """Returns the words in the files of a crate that may name a library."""
    words = set()
    for part in ("src", "specs", "proofs"):
        for path in (ROOT / "crates" / name / part).rglob("*"):
            if path.suffix in (".rt", ".antt"):
                text = path.read_text(encoding="utf-8")
                words.update(re.findall(r"\bRattle\.(\w+)\.", re.sub(r"(?m)(^|\s)--\s.*$", "", text)))
            if path.suffix == ".rt":
                words.update(re.findall(r"\b(\w+)::", re.sub(r"//.*", "", text)))
    return words


def below(name, libraries):
    """Returns all libraries on which a crate stands."""
    found, waiting = set(), [*libraries.get(name, ())]
    while waiting:
        library = waiting.pop()
        if library not in found:
            found.add(library)
            waiting += libraries.get(library, ())
    return found


def direct(name, libraries):
    """Returns the libraries of the repository on which a crate stands, without those on which these stand."""
    ours = [it for it in libraries[name] if it in libraries]
    return [it for it in ours if not any(it in below(other, libraries) for other in ours)]


def wrong_list(all_floors, libraries):
    """Yields what crates.txt says wrong."""
    folders = {it.name for it in (ROOT / "crates").iterdir() if any(it.glob("src/*.rt"))}
    for name in sorted(folders ^ set(libraries)):
        yield f"{name} is in crates/ and crates.txt, not in one alone"
    places = {name: number for number, name in enumerate(libraries)}
    for name in [it for it in libraries if it in folders]:
        words, listed = named(name), libraries[name]
        for library in listed:
            if library not in words:
                yield f"crates.txt: no file of {name} names {library}"
            if places.get(library, -1) > places[name]:
                yield f"crates.txt: {library} is not above {name}"
        for library in libraries:
            if library in words and library not in listed and library != name:
                yield f"crates.txt: {name} does not list {library}, which a file of it names"
    for floor in all_floors:
        yield from wrong_floor(floor, libraries)


def wrong_floor(floor, libraries):
    """Yields what the crates of a floor know and should not."""
    unknown = re.findall(r"`([\w:]+)`", " ".join(re.findall(r"\(.*?\)", floor.unknown)))
    for name in floor.crates:
        texts = [re.sub(r"//.*", "", it.read_text(encoding="utf-8"))
                 for it in (ROOT / "crates" / name / "src").rglob("*.rt")]
        for word in unknown:
            if word in below(name, libraries) or "::" in word and any(re.search(rf"\b{word}\b", it) for it in texts):
                yield f"crates.txt: {name} knows {word}, which its floor does not"


def with_two_meanings(libraries):
    """Returns the names of types that a crate has twice, or shares with one on which it stands."""
    crates = collections.defaultdict(list)
    for name in libraries:
        for path in (ROOT / "crates" / name / "src").rglob("*.rt"):
            for match in _TYPE.finditer(re.sub(r"//.*", "", path.read_text(encoding="utf-8"))):
                crates[match[1]].append(name)
    stand_on = {name: below(name, libraries) for name in libraries}
    return {word for word, found in crates.items()
            if len(set(found)) < len(found) or any(one in stand_on[other] for one in found for other in found)}


def wrong_meanings(libraries):
    """Yields the names of types with two meanings."""
    for word in sorted(with_two_meanings(libraries)):
        yield f"{word} names two types, in one crate or in one that stands on the other: give one of them another name"


def table(all_floors, libraries, held):
    """Returns the lines of the table, where it is known what each crate holds."""
    lines = [TABLE, "|---|---|---|"]
    for floor in all_floors:
        lines.append(f"| **{floor.title}** | {floor.unknown.rstrip(END)} | |".replace("|  |", "| |"))
        for name in floor.crates:
            below_it = ", ".join(direct(name, libraries))
            lines.append(f"| `{name}` | {held.get(name, '')} | {below_it} |".replace("|  |", "| |"))
    return lines


def lines_of(name):
    """Returns the lines of src and proofs of a crate."""
    return sum(path.read_text(encoding="utf-8").count("\n") for part in ("src", "proofs")
               for path in (ROOT / "crates" / name / part).rglob("*") if path.suffix in (".rt", ".antt"))


def page_parts():
    """Returns the lines of the page before its table, in it, and after it."""
    lines = PAGE.read_text(encoding="utf-8").split("\n")
    begin = lines.index(TABLE)
    end = next(at for at in range(begin, len(lines)) if not lines[at].startswith("|"))
    return lines[:begin], lines[begin:end], lines[end:]


def main():
    reader = argparse.ArgumentParser(description=__doc__, formatter_class=argparse.RawDescriptionHelpFormatter)
    reader.add_argument("--write", action="store_true",
                        help="write the table of docs/ARCHITECTURE.md, and docs/floors.svg")
    chosen = reader.parse_args()
    all_floors = floors()
    libraries = {name: of for floor in all_floors for name, of in floor.crates.items()}
    before, old, after = page_parts()
    rows = [re.match(r"\| `(\w+)` \| (.*?) \|", line) for line in old]
    held = {row[1]: row[2] for row in rows if row}
    new = table(all_floors, libraries, held)
    below_each = {name: direct(name, libraries) for name in libraries}
    lines = {name: lines_of(name) for name in libraries}
    drawn = [draw_floors.Floor(it.title, it.unknown, [*it.crates]) for it in all_floors]
    picture = draw_floors.draw(drawn, below_each, lines)
    if chosen.write:
        PAGE.write_text("\n".join([*before, *new, *after]), encoding="utf-8")
        PICTURE.write_text(picture, encoding="utf-8")
        old = new
    wrong = [*wrong_list(all_floors, libraries), *wrong_meanings(libraries), *python_edges.wrong()]
    wrong += [f"docs/ARCHITECTURE.md does not say what {name} holds" for name in libraries if not held.get(name)]
    for line in wrong:
        print(line)
    for line in difflib.unified_diff(old, new, "docs/ARCHITECTURE.md", "crates.txt", lineterm="", n=0):
        print(line)
    if old != new:
        print("docs/ARCHITECTURE.md (-) differs from crates.txt (+): tools/edges.py --write writes the table anew")
    is_drawn = PICTURE.exists() and PICTURE.read_text(encoding="utf-8") == picture
    if not is_drawn:
        print("docs/floors.svg differs from crates.txt and the sources: tools/edges.py --write draws it anew")
    if wrong or old != new or not is_drawn:
        return 1
    count = sum(len(of) for of in below_each.values())
    print(f"{len(libraries)} crates on {len(all_floors)} floors, {count} edges: crates.txt is as the sources are")
    packages = python_edges.listed(python_edges.LIST.read_text(encoding="utf-8"))
    count = sum(map(len, packages.values()))
    print(f"{len(packages)} packages of Python, {count} edges: packages.txt is as the sources are")
    print(f"the longest chain has {draw_floors.longest(below_each, lines).lines} lines of src and proofs")
    return 0


if __name__ == "__main__":
    sys.exit(main())
