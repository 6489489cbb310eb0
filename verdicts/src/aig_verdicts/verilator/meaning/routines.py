"""Tasks and functions, in place: 13 of IEEE 1800-2017. Arguments are copied in and out (13.5). A static variable keeps what
it had: a routine that reads one before it writes it is not read."""

from __future__ import annotations

from typing import Dict, List

from .names import Run, Scope, Signal, Value, plain
from .parts import made_by_verilator
from .processes import Processes, Statement
from ..dumps.tree import Node
from .writes import size, write

_MOST_CALLS = 60


def call(p: Processes, node: Node, run: Run) -> int:
    """Runs a routine, and gives the value of a function."""
    routine = p.tree.known.get(str(node.get("of")))
    if routine is None or routine.tag not in ("func", "task"):
        raise node.error(f"the {routine.tag if routine is not None else 'task'} {node.name}")
    if p.deep > _MOST_CALLS:
        raise node.error("a recursion")
    p.tree.check(routine)
    inner = _scope(p, node, routine, run)
    formals = [it for it in routine.children if it.tag == "var" and it.get("dir")]
    if routine.tag == "func":
        formals = [it for it in formals if it.name != routine.name]
    actuals = [it.children[0] for it in node.of("arg") if it.children]
    if len(formals) != len(actuals):
        raise node.error(f"{len(actuals)} arguments of {node.name}, which has {len(formals)}")
    _give_in(p, node, inner, formals, actuals, run)
    p.in_routine(routine, inner, run)
    for formal, actual in zip(formals, actuals):
        signal = inner.names[formal.name]
        if formal.get("dir") in ("output", "inout") and isinstance(signal, Signal):
            give_back(p, actual, run.read(signal), signal.shape.signed, run)
    result = inner.names.get(routine.name)
    made = run.read(result)[0] if routine.tag == "func" and isinstance(result, Signal) else p.words.zero
    for it in inner.names.values():
        if isinstance(it, Signal):
            run.now.pop(it, None)
    return made


def _scope(p: Processes, node: Node, routine: Node, run: Run) -> Scope:
    """The names of a call, in the scope where the routine is declared."""
    home = run.scope
    while home.names.get(node.name) is not routine and home.outer is not None:
        home = home.outer
    inner = Scope(home, run.scope.path + plain(node.name) + ".", home.module)
    inner.declare(p.words, p.tree.shape, routine)
    return inner


def _give_in(p: Processes, node: Node, inner: Scope, formals: List[Node], actuals: List[Node], run: Run) -> None:
    """13.5: the arguments, and what the other variables begin with."""
    values = {f.name: p.meaning.elements(a, run) for f, a in zip(formals, actuals) if f.get("dir") in ("input", "inout")}
    for name, it in inner.names.items():
        if not isinstance(it, Signal):
            continue
        run.now[it] = values[name] if name in values else tuple(_unset(p, it, node) for _ in range(it.shape.depth))
        if any(p.words.width[word] != it.shape.width for word in run.now[it]) or len(run.now[it]) != it.shape.depth:
            raise node.error(f"the argument {name} of another width")


def _unset(p: Processes, signal: Signal, node: Node) -> int:
    """What a variable of a routine begins with."""
    routine = p.tree.known.get(str(node.get("of")))
    says = routine is not None and p.source.says(routine, "automatic")
    automatic = signal.node.get("lifetime") == "VAUTOM" and (
        bool(signal.direction) or says or p.source.says(signal.node, "automatic"))
    if automatic and signal.shape.two_valued:
        return p.words.const(0, signal.shape.width)
    made = p.meaning.free(signal.shape.width, node)
    if not automatic and not signal.direction:
        p.meaning.kept[made] = (f"{signal.node.place}: the static variable {signal.path}, which is read before it is"
                                " written")
    return made


def give_back(p: Processes, actual: Node, value: Value, signed: bool, run: Run) -> None:
    """13.5: gives an argument back. Verilator writes the change of its width around the variable, as if that were read."""
    to = actual.children[0] if actual.tag == "resizelvalue" else actual
    if to.tag in ("extend", "extends") or made_by_verilator(to):
        to = to.children[0]
    if len(value) == 1:
        value = ((p.words.sext if signed else p.words.uext)(value[0], size(p.meaning, to)),)
    write(p.meaning, to, value, run, False)


def task(p: Processes, node: Node, run: Run) -> None:
    """13.3: a call of a task."""
    call(p, node, run)


TABLE: Dict[str, Statement] = {"taskref": task}
