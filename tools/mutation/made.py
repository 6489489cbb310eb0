"""The mutants of a Python source: one for each place that can be changed in one of these ways.

    compare   an operator: < and <=, > and >=, == and !=, `in` and `not in`, `is` and `is not`
    slice     a bound: one more at the beginning, one less at the end
    default   the default of an argument or of a field: True and False, another number, another text
    expect    what `expect` asks for: nothing
    raise     an exception: none
    status    the name of an exit status, or a status that is returned: another one, 0 first of all
    return    one that comes before the end of its function: none"""

import ast
import collections
import re

KINDS = ("compare", "slice", "default", "expect", "raise", "status", "return")
OPERATORS = {
    ast.Lt: ("<", "<="), ast.LtE: ("<=", "<"), ast.Gt: (">", ">="), ast.GtE: (">=", ">"), ast.Eq: ("==", "!="),
    ast.NotEq: ("!=", "=="), ast.In: ("in", "not in"), ast.NotIn: ("not in", "in"), ast.Is: ("is", "is not"),
    ast.IsNot: ("is not", "is"),
}
# The names of exit statuses, and what each becomes.
STATUSES = {"GOOD": "4", "OPEN": "0", "BAD": "0", "REJECTED": "0", "WRONG_ARGUMENTS": "0", "UNREADABLE": "0",
            "INTERRUPTED": "0"}
# Functions of the package that return a status.
GIVES_STATUS = ("exit_status", "status_of")
# Names of constants that are numbers begin so.
NUMBERS = ("MOST", "LEAST", "LAST", "SHORT")
FUNCTIONS = (ast.FunctionDef, ast.AsyncFunctionDef)

# One change of a file: these letters of its text become others. `scope` is the function or class that has them.
Mutant = collections.namedtuple("Mutant", "file line column kind scope around begin end old new")


def name_of(mutant):
    return f"{mutant.file}:{mutant.line}:{mutant.column}:{mutant.kind}"


def changed(text, mutant):
    return text[:mutant.begin] + mutant.new + text[mutant.end:]


def key_of(mutant):
    """What a mutant is called where lines may move: its file, what is around it, and what it changes."""
    old, new = (" ".join(text.split()) for text in (mutant.old, mutant.new))
    return f"{mutant.file}: {mutant.scope}: {mutant.kind}: {mutant.around}: {old} becomes {new}"


class Source:
    """A file, and the place of each node in its text."""

    def __init__(self, file, text):
        self.file, self.text = file, text
        self.lines = text.splitlines(keepends=True)
        self.starts = [0]
        for line in self.lines:
            self.starts.append(self.starts[-1] + len(line))
        self.tree = ast.parse(text)
        self.parents = {child: node for node in ast.walk(self.tree) for child in ast.iter_child_nodes(node)}

    def at(self, line, column):
        """A place in the text: the columns of a tree are bytes."""
        return self.starts[line - 1] + len(self.lines[line - 1].encode()[:column].decode())

    def span(self, node):
        return self.at(node.lineno, node.col_offset), self.at(node.end_lineno, node.end_col_offset)

    def words(self, node):
        begin, end = self.span(node)
        return self.text[begin:end]

    def scope(self, node):
        """The names of the classes and functions around a node."""
        names = []
        while node is not None:
            if isinstance(node, (*FUNCTIONS, ast.ClassDef)):
                names.append(node.name)
            node = self.parents.get(node)
        return ".".join(reversed(names))

    def mutant(self, node, kind, new, span=None):
        begin, end = span or self.span(node)
        line = self.text.count("\n", 0, begin) + 1
        return Mutant(self.file, line, begin - self.starts[line - 1], kind, self.scope(node),
                      self.lines[line - 1].strip(), begin, end, self.text[begin:end], new)

    def mutants(self):
        """All of them, in the order of the text, each place once for each kind."""
        found = {}
        for node in ast.walk(self.tree):
            for it in MAKERS.get(type(node), nothing)(self, node):
                if it.new != it.old:
                    found.setdefault((it.begin, it.kind), it)
        return sorted(found.values(), key=lambda it: (it.begin, KINDS.index(it.kind)))

    def function(self, node):
        while not isinstance(node, FUNCTIONS):
            node = self.parents[node]
        return node


def nothing(*_):
    return ()


def compares(source, node):
    sides = [node.left, *node.comparators]
    for before, operator, after in zip(sides, node.ops, sides[1:]):
        begin, end = source.span(before)[1], source.span(after)[0]
        old, new = OPERATORS[type(operator)]
        pattern = r"\s+".join(map(re.escape, old.split(" ")))
        match = re.search(rf"\b{pattern}\b" if old[0].isalpha() else pattern, source.text[begin:end])
        if match is not None:
            yield source.mutant(node, "compare", new, (begin + match.start(), begin + match.end()))


def slices(source, node):
    for bound, sign in ((node.lower, "+"), (node.upper, "-")):
        if bound is not None:
            yield source.mutant(bound, "slice", f"({source.words(bound)}) {sign} 1")


def defaults_of_arguments(source, node):
    for value in (*node.args.defaults, *(it for it in node.args.kw_defaults if it is not None)):
        yield from default(source, value)


def defaults_of_fields(source, node):
    for it in node.body:
        if isinstance(it, ast.AnnAssign) and it.value is not None:
            yield from default(source, it.value)


def default(source, value):
    new = other_name(value) if isinstance(value, ast.Name) else ""
    if isinstance(value, ast.Constant):
        new = other_constant(value.value)
    if new:
        yield source.mutant(value, "default", new)


def other_name(value):
    """In place of a constant that is a number: one more."""
    is_number = value.id.isupper() and value.id.startswith(NUMBERS) and value.id not in STATUSES
    return f"({value.id} + 1)" if is_number else ""


def other_constant(value):
    if isinstance(value, bool):
        return str(not value)
    if isinstance(value, (int, float)):
        return repr(value + 1)
    if isinstance(value, (str, bytes)):
        mark = "b" * isinstance(value, bytes)
        return f'{mark}""' if value else f'{mark}"another"'
    return ""


def expects(source, node):
    if isinstance(node.func, ast.Name) and node.func.id == "expect" and node.args:
        yield source.mutant(node.args[0], "expect", "True")


def raises(source, node):
    yield source.mutant(node, "raise", "pass")


def statuses(source, node):
    if isinstance(node.ctx, ast.Load) and node.id in STATUSES:
        yield source.mutant(node, "status", STATUSES[node.id])


def returns(source, node):
    function, value = source.function(node), node.value
    returns_int = isinstance(function.returns, ast.Name) and function.returns.id == "int"
    if value is not None and returns_int and is_status(value):
        is_good = isinstance(value, ast.Constant) and value.value == 0
        yield source.mutant(value, "status", "4" if is_good else "0")
    if function.body[-1] is not node:
        yield source.mutant(node, "return", "pass")


def is_status(value):
    """Whether a function that returns a number returns a status: a number as it stands, or what gives one."""
    if isinstance(value, ast.Constant):
        return type(value.value) is int
    return any(isinstance(it, ast.Attribute) and it.attr == "status" or isinstance(it, ast.Call)
               and isinstance(it.func, ast.Name) and it.func.id in GIVES_STATUS for it in ast.walk(value))


MAKERS = {
    ast.Compare: compares, ast.Slice: slices, ast.FunctionDef: defaults_of_arguments,
    ast.AsyncFunctionDef: defaults_of_arguments, ast.Lambda: defaults_of_arguments, ast.ClassDef: defaults_of_fields,
    ast.Call: expects, ast.Raise: raises, ast.Name: statuses, ast.Return: returns,
}


def is_right_python(text):
    try:
        compile(text, "mutant", "exec")
    except SyntaxError:
        return False
    return True
