"""The definitions in the folders specs/ of the crates: which others each one cites, and how many lines it has.

It goes by names. A word cites the definition of that name, or the type whose constructor it is, if the module has it or
a line `use` imports it. The field of a record cites nothing: a value of a record comes from a definition or a binder
whose type names the record. So two records that have a field of one name are distinguished. A name that is bound, as in
`(rows : List ℕ)`, is taken for a definition of that name, if the module knows one."""

from __future__ import annotations

import collections
import itertools
import pathlib
import re
from typing import Dict, Iterable, Iterator, List, NamedTuple, Optional, Set, Tuple

ROOT = pathlib.Path(__file__).resolve().parent.parent.parent
NAME = r"[^\s(){}\[\],;.:`'\"|]+'*"
IMPORT = re.compile(r"(?m)^\s*(?:ghost )?(?:pub )?use Rattle\.(\w+)\.specs\.([\w.]+?)"
                    r"(?:\.\{([^}]*)\}|\s+as\s+(\w+))?;?\s*$")
QUOTED = re.compile(r'"(?:[^"\\\n]|\\.)*"')
ITEM = re.compile(rf"^(?:(?:abbrev|unfoldable|opaque|pub)\s+)*(?:(data|record)\s+)?({NAME})")

# A definition by its crate, its module and its name; an alias of a module has no name.
Key = Tuple[str, str, str]
Known = Dict[str, Tuple[str, str, Optional[str]]]


class Definition(NamedTuple):
    """The words are those that may cite, and `known` says what the imports of its file mean. Constructors cite their
    type."""

    path: pathlib.Path
    name: str
    lines: int
    words: Set[str]
    constructors: Set[str]
    fields: Set[str]
    known: Known


def words(text: str) -> Set[str]:
    """Returns the words of a text, each with what follows its dots. What is quoted has none."""
    return set(re.findall(r"[^\s(){}\[\],;:`\"|]+", QUOTED.sub(" ", text)))


def outside(said: List[str]) -> Set[str]:
    """Returns the words of a term that are in no parentheses or braces."""
    found, depth = set(), 0
    for word in said:
        if not depth:
            found.add(word)
        depth += sum(word.count(it) for it in "({") - sum(word.count(it) for it in ")}")
    return found


def imports(text: str) -> Known:
    """Returns which definition (crate, module, name) each word stands for, by a file's imports."""
    found = {}
    for crate, module, names, alias in IMPORT.findall(text):
        for item in filter(None, (it.strip() for it in names.split(","))):
            name, _, other = item.partition(" as ")
            found[other.strip() or name] = crate, module, name
        if alias:
            found[alias] = crate, module, None
    return found


def without_comments(text: str) -> str:
    """Returns a text without its comments, each list of imports in one line."""
    text = re.sub(r"(?m)(^|\s)--(\s.*)?$", "", text)
    return re.sub(r"(?m)^(use [^{\n]*)\{([^}]*)\}", lambda at: at[1] + "{" + " ".join(at[2].split()) + "}", text)


def head(path: pathlib.Path) -> str:
    """Returns the comment at the head of a file in one line."""
    lines = itertools.takewhile(lambda line: line.startswith("--"), path.read_text(encoding="utf-8").split("\n"))
    return " ".join(line[2:].strip() for line in lines)


def items(text: str) -> Dict[str, Tuple[Optional[str], List[str]]]:
    """Returns the kind (`data`, `record` or nothing) and the lines of each definition of a file, by its name."""
    found = {}
    name, inside = None, False
    for line in text.split("\n"):
        # what stands in a module with parameters is indented by two blanks
        if re.match(r"module\b.*\bwhere$", line):
            inside = True
            continue
        inside = inside and (not line.strip() or line.startswith("  "))
        line = line[2:] if inside else line
        if not line.strip() or IMPORT.match(line) or line.startswith(("use ", "pub use ", "pub mod ")):
            continue
        if not line[0].isspace() and line != "}":
            at = ITEM.match(line)
            kind, name = at.groups() if at else (None, line.split()[0])
            found.setdefault(name, (kind, []))
        if name:
            found[name][1].append(line)
    return found


def definitions(path: pathlib.Path) -> Iterator[Definition]:
    """Yields the definitions of a file."""
    text = without_comments(path.read_text(encoding="utf-8"))
    known = imports(text)
    for name, (kind, lines) in items(text).items():
        said, inner, last = words(lines[0]), set(), None
        for line in lines[1:]:
            at = re.match(rf"\s+(?:pub )?({NAME})\s*:", line) if kind else None
            if at:
                inner |= {last} - {None}
                last = at[1]
            # after its line a field's name means the field
            more = words(line[at.end():] if at else line)
            said |= {it for it in more if it.partition(".")[0] not in inner} if kind == "record" else more
        inner |= {last} - {None}
        constructors, fields = (inner, set()) if kind == "data" else (set(), inner)
        yield Definition(path, name, len(lines), said, constructors, fields, known)


class Specs:
    """All definitions, each by its crate, its module and its name."""

    def __init__(self):
        self.table = {}
        self.homes = collections.defaultdict(lambda: collections.defaultdict(list))
        for path in sorted((ROOT / "crates").glob("*/specs/**/*.antt")):
            crate, _, *parts = path.relative_to(ROOT / "crates").with_suffix("").parts
            home = crate, ".".join(parts)
            for it in definitions(path):
                self.table[(*home, it.name)] = it
                for word in {it.name} | it.constructors:
                    self.homes[home][word].append((*home, it.name))

    def cited(self, said: Iterable[str], known: Known, here: Optional[Tuple[str, str]] = None) -> Set[Key]:
        """Returns the definitions that words cite, by the imports of their file and by their own module."""
        found = set()
        for word in said:
            first, _, rest = word.partition(".")
            if here in self.homes and first in self.homes[here]:
                found.update(self.homes[here][first])
            elif first in known:
                crate, module, name = known[first]
                home = self.homes.get((crate, module), {})
                found.update(home.get(name or rest.partition(".")[0], ()))
        return found

    def reached(self, first: Iterable[Key]) -> Set[Key]:
        """Returns all definitions that some definitions reach, with these."""
        waiting, found = list(first), set()
        while waiting:
            key = waiting.pop()
            if key not in found:
                found.add(key)
                it = self.table[key]
                waiting += self.cited(it.words, it.known, key[:2])
        return found

    def parts(self, key: Key) -> List[str]:
        """Returns the fields of a record, in order, or those of the record that an abbreviation is; else none."""
        it = self.table[key]
        kind, lines = items(without_comments(it.path.read_text(encoding="utf-8")))[it.name]
        if kind == "record":
            return [at[1] for at in (re.match(rf"\s+pub ({NAME})\s*:", line) for line in lines[1:]) if at]
        equations = [line for line in lines if re.match(rf"{re.escape(it.name)}\b.*=", line)]
        if kind or len(equations) != 1:
            return []
        says = " ".join(lines[lines.index(equations[0]):]).partition("=")[2].split()
        cited = self.cited(says[:1], it.known, key[:2])
        return self.parts(*cited) if len(cited) == 1 and not {"×", "→", "≡"} & outside(says) else []

    def lines(self, keys: Iterable[Key]) -> int:
        """Returns how many lines some definitions have."""
        return sum(self.table[key].lines for key in keys)
