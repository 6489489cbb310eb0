"""How definitions are shown to a reader: each with the comment above it, after those that it cites, and with the types
of the sources that it names. Lines are broken at the width of a page: blanks alone are changed."""

from __future__ import annotations

import functools
import itertools
import pathlib
import re
import textwrap
from typing import Collection, Dict, Iterator, List, NamedTuple, Optional, Set, Tuple

from sources.clauses import braces
from sources.exports import Export
from sources.specs import IMPORT, ITEM, ROOT, Key, Specs, head

WIDTH = 100
# Where a line is broken: before one of these, if it can be, else before a bracket, or at any blank.
BREAKS = (re.compile(r" (?=(→|×|⊎|≡|∷|\+\+|&&|\|\||then|else) )"), re.compile(r" (?=([({]))"), re.compile(r" ()"))
# These bind their sides closer than the others.
LESSER = ("≡", "∷", "++", "&&", "||")
NAMED_TYPE = re.compile(r"(?m)^pub(?:\(crate\))? (?:struct|enum|type) (\w+)")
DECLARED = "declared"


class Type(NamedTuple):
    """A type of the sources: its name, and its file below crates/."""

    name: str
    file: str


@functools.lru_cache(maxsize=None)
def commented(path: pathlib.Path) -> Dict[str, List[str]]:
    """Returns the definitions of a file by their names, each with the comment above it."""
    found: Dict[str, List[str]] = {}
    above: List[str] = []
    name: Optional[str] = None
    in_import = False
    for line in path.read_text(encoding="utf-8").split("\n"):
        if line.startswith("--"):
            name = None
            above.append(line)
        elif not line.strip():
            name, above = None, []
        elif in_import or line.startswith(("use ", "pub use ", "pub mod ")) or IMPORT.match(line):
            in_import = "}" not in line and ("{" in line or in_import)
            above = []
        else:
            if not line[0].isspace() and line != "}":
                at = ITEM.match(line)
                name = at[2] if at else line.split()[0]
                found.setdefault(name, above)
                above = []
            if name:
                found[name] = [*found[name], line]
    return found


def in_order(specs: Specs, keys: Collection[Key]) -> List[Key]:
    """Returns definitions, each after those that it cites, and those of a file together where that can be. Where they
    cite each other they come as in their file."""
    left = {key: specs.cited(specs.table[key].words, specs.table[key].known, key[:2]) & set(keys) - {key}
            for key in specs.table if key in keys}
    found: List[Key] = []
    while left:
        ready = [key for key, cites in left.items() if not cites & left.keys()] or [min(left, key=lambda it: len(
            left[it] & left.keys()))]
        here = [key for key in ready if found and key[:2] == found[-1][:2]]
        homes = [key[:2] for key in ready]
        chosen = here[0] if here else max(ready, key=lambda key: homes.count(key[:2]))
        del left[chosen]
        found.append(chosen)
    return found


def cited_types(specs: Specs, key: Key) -> Iterator[Type]:
    """Yields the types of the sources that a definition names."""
    it = specs.table[key]
    for word in sorted(it.words):
        crate, module, _ = it.known.get(word.partition(".")[0], ("", "", None))
        if module.startswith(f"{DECLARED}."):
            *places, name = [part for part in module.split(".")[1:] if part != "TheVariants"]
            path = f"{crate}/src/{'/'.join(places)}.rt"
            if (ROOT / "crates" / path).is_file():
                yield Type(name, path)


@functools.lru_cache(maxsize=None)
def types_of(crate: str) -> Dict[str, Type]:
    """Returns the public types of a crate by their names, where one type alone has the name."""
    found: Dict[str, List[Type]] = {}
    for path in sorted((ROOT / "crates" / crate / "src").rglob("*.rt")):
        for name in NAMED_TYPE.findall(path.read_text(encoding="utf-8")):
            found.setdefault(name, []).append(Type(name, str(path.relative_to(ROOT / "crates"))))
    return {name: its[0] for name, its in found.items() if len(its) == 1}


@functools.lru_cache(maxsize=None)
def declaration(it: Type) -> Tuple[str, ...]:
    """Returns a type as its file has it, with its comment. Of one that contracts see as another value, this value
    stands for the fields."""
    text = (ROOT / "crates" / it.file).read_text(encoding="utf-8")
    head_ = rf"pub(?:\(crate\))? (?:struct|enum|type) {it.name}\b[^{{;]*"
    at = re.search(rf"(?m)((?:^///.*\n)*)(?:^#\[.*\n)*^({head_})", text)
    if not at:
        raise ValueError(f"crates/{it.file} has no type {it.name}")
    above, first = at[1].split("\n")[:-1], at[2].rstrip()
    seen = re.search(rf"(?m)^impl\b.*\bModel for {it.name}\b", text)
    if seen:
        value = re.search(r"ghost Value = \{(.*?)\};", text[seen.end() :], re.DOTALL)
        return (*above, f"{first}   // seen as {' '.join(value[1].split()) if value else '?'}")
    body = braces(text, at.end()) if text[at.end()] == "{" else ";"
    lines = f"{first}{' ' if body != ';' else ''}{body}".split("\n")
    return (*above, *(line for line in lines if not line.lstrip().startswith("#[")))


def types(specs: Specs, keys: Collection[Key]) -> List[Type]:
    """Returns the types that definitions name, each after those that it names itself."""
    found: List[Type] = []

    def visit(it: Type, above: Set[Type]) -> None:
        if it in found or it in above:
            return
        others = types_of(it.file.partition("/")[0])
        for line in declaration(it):
            # a field or a variant is no type
            said = "" if "///" in line else re.sub(r"^\s*(?:pub )?\w+", "", line)
            for name in re.findall(r"\b[A-Z]\w*", said.partition("//")[0]):
                if name in others:
                    visit(others[name], above | {it})
        found.append(it)

    for key in keys:
        for it in cited_types(specs, key):
            visit(it, set())
    return found


def depth(text: str) -> int:
    """Returns how many brackets of a text are open at its end."""
    return sum((it in "({[") - (it in ")}]") for it in text)


def narrow(line: str) -> Iterator[str]:
    """Yields a line of code in lines of the width of a page. It is broken where the fewest brackets are open."""
    indent = len(line) - len(line.lstrip())
    # the line goes on a place further in, unless it goes on with another line itself
    goes_on = indent if indent > 3 and not re.match(r" *(?:pub )?\w+ :|    \w+ \w+ \{", line) else indent + 4
    while len(line) > WIDTH:
        found = next(filter(None, ([*it.finditer(line, goes_on + 20, WIDTH)] for it in BREAKS)), None)
        if not found:
            break
        place = -min((depth(line[: at.start()]), at[1] in LESSER, -at.start()) for at in found)[2]
        yield line[:place]
        line = " " * goes_on + line[place + 1 :]
    yield line


def narrowed(lines: Collection[str]) -> List[str]:
    """Returns lines in lines of the width of a page; a comment is broken anew, if a line of it is longer."""
    found: List[str] = []
    for mark, block in itertools.groupby(lines, key=lambda line: (re.match(r" *(?:--|///?) |", line) or [""])[0]):
        each = list(block)
        if mark and max(map(len, each)) > WIDTH:
            text = " ".join(line[len(mark) :] for line in each)
            each = textwrap.wrap(text, WIDTH, initial_indent=mark, subsequent_indent=mark, break_long_words=False,
                                 break_on_hyphens=False)
        found += [part for line in each for part in (narrow(line) if not mark else [line])]
    return found


def source(specs: Specs, key: Key) -> List[str]:
    """Returns the lines of a definition with its comment."""
    return narrowed(commented(specs.table[key].path)[key[2]])


def name_of(key: Key) -> str:
    """Returns the file of a definition as pages name it: `base/Value`."""
    return f"{key[0].replace('aig_', '', 1)}/{key[1].replace('.', '/')}"


def page(specs: Specs, keys: Collection[Key], before: Collection[Type] = (), heads: Optional[Set[str]] = None,
         links: str = "../../crates/") -> Iterator[str]:
    """Yields the lines of a page that has definitions, file by file. Of each file that `heads` does not have yet it has
    the head. The types that they name come first, without those that were shown before."""
    heads = set() if heads is None else heads
    ordered = in_order(specs, keys)
    named = [it for it in types(specs, ordered) if it not in before]
    if named:
        yield from ("Types of the sources:", "", "```rust")
        for it in named:
            yield from narrowed(declaration(it))
        yield from ("```", "")
    for name, group in itertools.groupby(ordered, key=name_of):
        each = list(group)
        path = specs.table[each[0]].path
        text = f"[`{name}`]({links}{path.relative_to(ROOT / 'crates')})"
        if name not in heads:
            heads.add(name)
            text += f": {head(path)}"
        yield from textwrap.wrap(text, WIDTH, break_long_words=False, break_on_hyphens=False)
        yield from ("", "```")
        for place, key in enumerate(each):
            yield from ([""] if place else []) + source(specs, key)
        yield from ("```", "")


def traits(crate: str, module: str, names: Collection[str]) -> Iterator[str]:
    """Yields the lines of traits of a file of the sources, with their comments."""
    text = (ROOT / "crates" / crate / "src" / f"{module}.rt").read_text(encoding="utf-8")
    for place, name in enumerate(names):
        at = re.search(rf"(?m)((?:^///.*\n)*)^(pub trait {name}\b[^{{]*)(?={{)", text)
        if not at:
            raise ValueError(f"crates/{crate}/src/{module}.rt has no trait {name}")
        yield from ([""] if place else []) + narrowed((at[1] + at[2] + braces(text, at.end())).split("\n"))


def clauses(export: Export, names: Optional[Collection[str]]) -> Iterator[str]:
    """Yields the signature of a call and its clauses, or those of some names."""
    yield f"`{export.name}` of `{export.crate}`:"
    yield from ("", "```")
    heads = [export.block.head, export.head] if export.block else [export.head]
    yield from dict.fromkeys(line for head_ in heads for line in head_.split("\n"))
    for head_, text in export.clauses:
        if names is None or head_.split()[-1] in names:
            one = f"    {head_} {' '.join(text.split())}"
            first, *others = f"    {head_} {text}".split("\n")
            for line in [one] if len(one) <= WIDTH else [first, *(f"        {line}" for line in others)]:
                yield from narrow(line)
    yield "```"
