"""The planted bugs of a crate: what each changes, and the functions whose bodies it changes."""

import collections
import pathlib
import re

from sources.clauses import signature
from sources.planted import of_text

# Where the planted bugs of crates are: a folder for each crate, with a file for each of its sources.
PLANTED = pathlib.Path(__file__).resolve().parent.parent.parent / "tests" / "planted"
# The word of a bug that is not in the gate.
MORE = "more"

# A bug of a crate; `is_more` where it is not in the gate.
Edit = collections.namedtuple("Edit", "name clause is_more changes functions")
Function = collections.namedtuple("Function", "name file first opens last clauses")


def camel(text):
    """The words of a type, as they stand in the name of an impl."""
    return "".join(word[:1].upper() + word[1:] for word in re.findall(r"[A-Za-z_]\w*", text))


def module_of(file):
    module = "::".join(pathlib.Path(file).with_suffix("").parts[1:])
    return "" if module in ("lib", "main") else module + "::"


def types(crate, files):
    """The modules of a crate's types, by their names and, where two have one name, by file and name."""
    found = {}
    for file in files:
        for name in re.findall(r"(?m)^(?:pub(?:\(crate\))? )?(?:struct|enum) (\w+)", (crate / file).read_text()):
            found[name] = found[file, name] = module_of(file)
    return found


def clauses_at(lines, number):
    """The names of what the function at a line ensures. A clause without a name goes by `ensures`."""
    text = "\n" + re.sub(r"(?m)//.*$", "", "\n".join(lines[number:]))
    _, clauses = signature(text, len(text) - len(text.lstrip()))
    heads = [head.split() for head, _ in clauses]
    return [head[-1] for head in heads if head[0] == "ensures"]


def opening(lines, number, indent):
    """Returns the number of the line on which the body of a function opens: that of its name, that where its arguments
    end, or one of its own. A function without a body ends there with a semicolon."""
    depth = 0
    for at, line in enumerate(lines[number:], number):
        ends_head = at == number or line.startswith(indent + ")")
        own = line in (indent + "{", indent + "{}")
        if depth == 0 and (own or ends_head and line.endswith((" {", "{}"))):
            return at
        depth += line.count("{") - line.count("}")
        if depth == 0 and line.endswith(";"):
            return at
    raise ValueError(f"a function has no end: {lines[number]}")


def functions(crate, file, homes):
    """Yields the functions of a source file, by the names that a check gives them, with their first and last lines. A
    method is named by the module of its type, one of a trait by that of its impl."""
    module = owner = ""
    lines = (crate / file).read_text().split("\n")
    for number, line in enumerate(lines):
        block = re.match(r"(?:pub(?:\(crate\))? )?(?:impl|trait)\b(?:<.*?>)?\s+(.*?)\s*\{?$", line)
        if block and not line.startswith((" ", "impl Model")):
            head = re.sub(r"\bwhere\b.*|(?<!:):(?!:).*", "", block[1])
            trait, _, of = head.rpartition(" for ")
            of = re.match(r"\w+", of)[0]
            inner = re.match(r"([\w:]+)(?:<(.*)>)?$", trait.strip()) if trait else None
            # of From<AllocFailed<T>> the name has From and AllocFailed
            given = re.match(r"&?(?:'\w+ )?([\w:]+)", inner[2])[1] if inner and inner[2] else ""
            owner = of + (inner[1].split("::")[-1] + camel(given) if inner else "") + "::"
            module = module_of(file) if inner else homes.get((file, of), homes.get(of, module_of(file)))
        elif line == "}":
            module = owner = ""
        at = re.match(r"(\s*)(?:pub(?:\(crate\))? )?(?:extern \"C\" )?fn (\w+)", line)
        if at:
            body = opening(lines, number, at[1])
            if not lines[body].endswith(";"):
                end = body if lines[body].endswith("{}") else lines.index(at[1] + "}", body)
                name = (module + owner if at[1] else module_of(file)) + at[2]
                yield Function(name, file, number + 1, body + 1, end + 1, clauses_at(lines, number))


def read(crate, bug, known):
    """A planted bug: the clause that it breaks, its changes, each a piece of one line, and the functions whose bodies
    it changes. There are no changes where a piece is not in its file exactly once, as those before it left it, or where
    the crate has no such file."""
    words = dict(bug.words)
    edit = Edit(bug.name, words.get("clause"), MORE in words, [], [])
    file = bug.file.removeprefix(f"crates/{crate.name}/")
    text = (crate / file).read_text() if file in known else ""
    changes, changed = [], []
    for old, new in bug.changes:
        if text.count(old) != 1:
            return edit
        at = text[: text.index(old)].count("\n")
        changes.append((file, at, old, new))
        changed += [it for it in known[file] if it.first <= at + 1 <= it.last]
        # a function that the bug adds
        added = re.match(r"fn (\w+)", new)
        if added and f"fn {added[1]}" not in old:
            clauses = [it or "ensures" for it in re.findall(r"\bensures (?:(\w+) )?\{", new)]
            changed.append(Function(module_of(file) + added[1], file, at + 1, at + 1, at + 1, clauses))
        text = text.replace(old, new)
    # a constant is every function's of its file
    changed = changed or known[file]
    return edit._replace(changes=changes, functions=sorted({it.name: it for it in changed}.values()))


def rounds(crate, edits):
    """Divides planted bugs into checks, in each of which no function is changed twice: the texts, and the bugs."""
    left = edits
    while left:
        texts, taken, busy = {}, [], set()
        for edit in left:
            if busy.isdisjoint(it.name for it in edit.functions):
                taken.append(edit)
                busy |= {it.name for it in edit.functions}
                for file, at, old, new in edit.changes:
                    lines = texts.setdefault(file, (crate / file).read_text().split("\n"))
                    lines[at] = lines[at].replace(old, new)
        yield {file: "\n".join(lines) for file, lines in texts.items()}, taken
        left = [it for it in left if it not in taken]


def crates_with_bugs():
    """The names of the crates that have planted bugs."""
    return sorted(it.name for it in PLANTED.iterdir())


def bugs_of(name, with_more):
    """The planted bugs of a crate, as its files have them: those of the gate, then all others if they are wanted."""
    found = [bug for path in sorted((PLANTED / name).rglob("*.bugs")) for bug in of_text(path.read_text())]
    twice = [name for name, count in collections.Counter(bug.name for bug in found).items() if count > 1]
    if twice:
        raise ValueError(f"several planted bugs of {name} have the name {twice[0]}")
    of_gate = [bug for bug in found if MORE not in dict(bug.words)]
    others = [bug for bug in found if MORE in dict(bug.words)]
    return [bug for part in (of_gate, others if with_more else []) for bug in sorted(part)]


def edits_of(folder, with_more, only):
    """Returns a crate's functions, its planted bugs, and those that cannot be applied."""
    files = [str(it.relative_to(folder)) for it in (folder / "src").rglob("*.rt")]
    homes = types(folder, files)
    known = {file: list(functions(folder, file, homes)) for file in files}
    bugs = [it for it in bugs_of(folder.name, with_more) if not only or any(word in it.name for word in only)]
    edits = [read(folder, it, known) for it in bugs]
    every = [it for file in files for it in known[file]]
    return every, [it for it in edits if it.changes], [it for it in edits if not it.changes]
