"""Instances of modules and interfaces, and arrays of them: 23.3 of IEEE 1800-2017. An input is driven by what is around the
instance, and an output drives it."""

from __future__ import annotations

from typing import TYPE_CHECKING, List, NamedTuple

from .meaning.names import Run, Scope, Signal, Value, plain
from .meaning.parts import made_by_verilator
from .dumps.tree import Node, number
from .meaning.writes import size

if TYPE_CHECKING:
    from .design import Design

# How Verilator names a port that is an interface.
_INTERFACE = "__Viftop"
# What Verilator writes around the variable of an output: its own change of width.
_CHANGES = ("extend", "extends", "resizelvalue", "replicate")


class Given(NamedTuple):
    """What is connected to a port."""

    port: str
    value: Node


def body(design: Design, instance: Node) -> Node:
    """The module of an instance."""
    module = design.tree.modules.get(str(instance.get("defName")))
    if module is None:
        raise instance.error(f"the module {instance.get('defName')} has no body")
    return module


def connect(design: Design, instance: Node, scope: Scope) -> None:
    """An instance, or an array of them."""
    module = body(design, instance)
    given = [Given(port.name, port.children[0]) for port in instance.of("port") if port.children]
    copies = [_copy(design, name, module, given, scope) for name in _names(instance)]
    for it in given:
        signals = [copy.names.get(it.port) for copy in copies]
        if all(isinstance(x, Scope) for x in signals) and len(copies) == 1:
            continue
        ports = [x for x in signals if isinstance(x, Signal)]
        if len(ports) != len(copies):
            raise instance.error(f"the port {it.port}")
        if ports[0].direction == "input":
            _into(design, ports, design.meaning.elements(it.value, Run(scope, design.words.one)), instance)
        elif ports[0].direction == "output":
            _out_of(design, ports, it.value, scope)
        else:
            raise instance.error(f"the port {it.port} of both directions")


def _names(instance: Node) -> List[str]:
    """23.3.3.5: the names of an array of instances. The one of the right bound has the lowest bits."""
    name = plain(instance.name)
    for it in instance.of("range"):
        left, right = (number(x.name).known() for x in it.children)
        step = 1 if left >= right else -1
        return [f"{name}[{k}]" for k in range(right, left + step, step)]
    return [name]


def _copy(design: Design, name: str, module: Node, given: List[Given], scope: Scope) -> Scope:
    """One instance. A port that is an interface is a name of the one outside."""
    inner = Scope(scope.root, scope.path + name + ".", module.name)
    for it in given:
        if it.value.tag != "varref":
            continue
        found = scope.search(it.value.name)
        if found is None and it.value.name.endswith(_INTERFACE):
            found = scope.search(it.value.name[:-len(_INTERFACE)])
        if isinstance(found, Scope):
            inner.names[it.port] = found
    bound = dict(inner.names)
    scope.names[name] = inner
    design.module(module, inner)
    inner.names.update(bound)
    return inner


def _into(design: Design, ports: List[Signal], values: Value, instance: Node) -> None:
    """An input of each copy. A value as wide as all copies is cut."""
    w, width = design.words, ports[0].shape.width
    is_whole = len(ports) > 1 and ports[0].shape.depth == 1 and w.width[values[0]] == width * len(ports)
    for k, port in enumerate(ports):
        own = (w.slice(values[0], k * width + width - 1, k * width),) if is_whole else values
        if len(own) != port.shape.depth or any(w.width[it] != width for it in own):
            raise instance.error(f"the port {port.path} of {width} bits gets {w.width[own[0]]}")
        port.drivers += [(element, 0, width, word) for element, word in enumerate(own)]


def _out_of(design: Design, ports: List[Signal], value: Node, scope: Scope) -> None:
    """An output of each copy."""
    w, shape = design.words, ports[0].shape
    while value.tag in _CHANGES or made_by_verilator(value):
        value = value.children[0]
    leaves, width = ports[0].leaves, size(design.meaning, value)
    if len(ports) > 1:
        if shape.depth != 1 or width != len(ports) * shape.width:
            raise value.error(f"the outputs {ports[0].path} have not the width of what they drive")
        leaves = (w.joined([it.leaves[0] for it in ports]),)
    elif len(leaves) == 1:  # 23.3.3: as an assignment, so by the sign of the port
        leaves = ((w.sext if shape.signed else w.uext)(leaves[0], width),)
    design.drive(value, leaves, scope)
