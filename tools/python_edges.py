"""Compares packages.txt with the imports of the packages of Python. tools/edges.py calls it.

- A package lists those that its files import, and no others. Imports in functions, and those for types alone, count.
  One that lists `aig` lists no part of it.
- Those that it lists are above it, so none stands on itself by way of others.
- No folder has more than 25 modules."""

import ast
import collections

from sources.specs import ROOT

LIST = ROOT / "packages.txt"
SOURCES = ("python/src", "verdicts/src")
MOST_MODULES = 25


def listed(text):
    """The packages of the list, each with those that it stands on."""
    _, _, rest = text.replace("\n    ", " ").partition("\n\n")
    lines = (line.partition(":") for line in rest.split("\n") if line and not line.startswith("#"))
    return {name: libraries.split() for name, _, libraries in lines}


def modules(root):
    """The files of the modules below a folder by their names."""
    found = {}
    for folder in SOURCES:
        for path in sorted((root / folder).rglob("*.py")):
            parts = path.relative_to(root / folder).with_suffix("").parts
            found[".".join(parts[:-1] if parts[-1] == "__init__" else parts)] = path
    return found


def imported(name, path, known):
    """The modules that a module imports, by their whole names."""
    here = name.split(".") if path.name == "__init__.py" else name.split(".")[:-1]
    for node in ast.walk(ast.parse(path.read_text(encoding="utf-8"))):
        if isinstance(node, ast.Import):
            yield from (it.name for it in node.names if it.name in known)
        elif isinstance(node, ast.ImportFrom):
            base = here[:len(here) - node.level + 1] if node.level else []
            module = ".".join([*base, *([node.module] if node.module else [])])
            for it in node.names:
                yield from [full for full in (f"{module}.{it.name}", module) if full in known][:1]


def owner(module, packages):
    """The package of a module: the longest name of the list that is its own or above it."""
    parts = module.split(".")
    names = (".".join(parts[:count]) for count in range(len(parts), 0, -1))
    return next((name for name in names if name in packages), None)


def edges(root, packages):
    """Which packages the files of each package import, each with a module that does."""
    known = modules(root)
    found = {name: {} for name in packages}
    for module, path in known.items():
        mine = owner(module, packages)
        for other in imported(module, path, known):
            its = owner(other, packages)
            if mine is not None and its is not None and its != mine:
                found[mine].setdefault(its, f"{module} imports {other}")
    return found


def wrong(root=ROOT):
    """Yields what packages.txt says wrong of the sources, and folders with too many modules."""
    packages = listed((root / LIST.name).read_text(encoding="utf-8"))
    known = modules(root)
    for module in known:
        if owner(module, packages) is None:
            yield f"packages.txt: {module} is of no package"
    for name in packages:
        if name not in known:
            yield f"packages.txt: there is no {name}"
    places = {name: place for place, name in enumerate(packages)}
    for name, its in edges(root, packages).items():
        its = {other: why for other, why in its.items() if not (other.startswith("aig.") and "aig" in packages[name])}
        for other, why in its.items():
            if other not in packages[name]:
                yield f"packages.txt: {name} does not list {other}: {why}"
        for other in packages[name]:
            if other not in its:
                yield f"packages.txt: no file of {name} imports {other}"
            if places.get(other, len(places)) > places[name]:
                yield f"packages.txt: {other} is not above {name}"
    for folder, count in collections.Counter(path.parent for path in known.values()).items():
        if count > MOST_MODULES:
            yield f"{folder.relative_to(root)} has {count} modules, and {MOST_MODULES} at most are easy to look through"
