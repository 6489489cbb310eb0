"""The tree of Verilator's stage `width`, of objects that text_tree.py or json_tree.py made.

At that stage each operand has its width and sign, and parameters, types and names are resolved, but nothing is folded yet.
An index has its full width, `if (rst) q <= 0; else q <= d;` is still an `if`, a jump names its label, and an assertion is
a node of its own. The tree after all stages (`--xml-only`) has lost all of these.

Each node that the circuit depends on is checked against schema.py. A node, an operand or an attribute that is not known
stops the reader. It skips nothing but what schema.IGNORED and schema.UNUSED name."""

from __future__ import annotations

import re
from typing import Any, Dict, List, Tuple

from . import schema
from .attributes import DIRECTIONS, EDGES, KEYWORDS, MODULES, acting, strange
from .source import real
from .tree import Node, NotRead, Place, Tree

Object = Dict[str, Any]
Lists = Dict[str, List[Node]]
_TAGS = {"assignw": "contassign", "cell": "instance", "pin": "port", "genblock": "begin",
         "initialautomaticstmt": "begin"}


class _Reader:
    """Makes nodes of objects."""

    def __init__(self, files: Dict[str, str], sizes: Dict[str, Tuple[int, bool]], version: str) -> None:
        self._files, self._sizes, self._version = files, sizes, version
        self.known: Dict[str, Node] = {}
        self._modules: List[Tuple[Node, str]] = []
        self._jumps: List[Tuple[Node, str]] = []
        self._pins: List[Tuple[Node, str]] = []

    def _place(self, text: str) -> Place:
        file, start, _ = text.split(",")
        line, column = start.split(":")
        name = self._files.get(file, file)
        return Place(real(name), int(line), int(column), name)

    def node(self, it: Object) -> Node:
        """The node of an object."""
        kind = it["type"]
        tag = kind.lower()
        made = Node(_TAGS.get(tag, tag), {"name": it.get("name", ""), "id": it["addr"]}, self._place(it["loc"]))
        self.known[it["addr"]] = made
        if kind in schema.IGNORED:
            return made
        self._type(it, made)
        made.fault = self._fault(it, kind)
        lists = {key: [self.node(x) for x in value] for key, value in it.items()
                 if isinstance(value, list) and key not in schema.UNUSED}
        special = getattr(self, "_" + tag, None)
        order = list(schema.TABLE[kind].allowed) if kind in schema.TABLE else list(lists)
        usual = [x for key in order for x in lists.get(key, [])]
        made.children = special(it, made, lists) if special and not made.fault else usual
        return made

    def _type(self, it: Object, made: Node) -> None:
        if it.get("dtypep", "UNLINKED") != "UNLINKED":
            made.attributes["dtype_id"] = it["dtypep"]
        if it["addr"] in self._sizes:
            width, signed = self._sizes[it["addr"]]
            made.attributes["whole"], made.attributes["signed"] = str(width), str(signed).lower()

    @staticmethod
    def _fault(it: Object, kind: str) -> str:
        """Why a node must not be read, or an empty text."""
        if it.get("timingControlp") and kind not in ("ASSIGNW", "ASSIGN", "ASSIGNDLY"):
            return "a delay"
        counts = {key: len(value) for key, value in it.items() if isinstance(value, list)}
        found = it.get("fault", "") or schema.fault(kind, counts, it.get("dtypep", "UNLINKED") != "UNLINKED")
        return str(found or strange(it) and f"Verilator says {strange(it)} of a node {kind}")

    def finish(self) -> None:
        """What refers to something that may come later."""
        for made, to in self._modules:
            made.attributes["defName"] = self.known[to].name
        for made, to in self._pins:                     # also those by position
            made.attributes["name"] = self.known[to].name
        for made, to in self._jumps:
            label = self.known[to]
            made.attributes["block"] = label.attributes["block"] if label.tag == "jumplabel" else to

    @staticmethod
    def _begin_of(made: Node, children: List[Node]) -> Node:
        return Node("begin", {}, made.place, children)

    def _if(self, it: Object, made: Node, lists: Lists) -> List[Node]:
        arms = [self._begin_of(made, lists.get("thensp", [])), self._begin_of(made, lists.get("elsesp", []))]
        return lists["condp"] + arms

    def _while(self, it: Object, made: Node, lists: Lists) -> List[Node]:
        return [self._begin_of(made, lists.get(key, [])) for key in ("precondsp", "condp", "stmtsp", "incsp")]

    def _loop(self, it: Object, made: Node, lists: Lists) -> List[Node]:
        return [self._begin_of(made, lists.get(key, [])) for key in ("stmtsp", "contsp")]

    def _caseitem(self, it: Object, made: Node, lists: Lists) -> List[Node]:
        made.attributes["conditions"] = str(len(lists.get("condsp", [])))
        return lists.get("condsp", []) + lists.get("stmtsp", [])

    def _case(self, it: Object, made: Node, lists: Lists) -> List[Node]:
        made.attributes["keyword"] = it.get("kwd", "")
        return lists["exprp"] + lists.get("itemsp", [])

    def _jumplabel(self, it: Object, made: Node, lists: Lists) -> List[Node]:
        made.attributes["block"] = it["blockp"]
        return []

    def _jumpgo(self, it: Object, made: Node, lists: Lists) -> List[Node]:
        self._jumps.append((made, it.get("labelp") or it["blockp"]))
        return []

    def _cell(self, it: Object, made: Node, lists: Lists) -> List[Node]:
        self._modules.append((made, it["modp"]))
        return lists.get("pinsp", []) + lists.get("rangep", [])

    def _assert(self, it: Object, made: Node, lists: Lists) -> List[Node]:
        doing = [x for key in ("passsp", "failsp") for y in it.get(key, []) for x in acting(y)]
        if doing:
            raise made.error(f"an assertion with an action that does more than say something ({doing[0]})")
        if lists.get("sentreep"):
            made.fault = "an assertion with a clock of its own"
        return lists["propp"]

    _cover = _restrict = _assert

    def _propspec(self, it: Object, made: Node, lists: Lists) -> List[Node]:
        events = Node("sentree", {}, made.place, lists.get("sensesp", []))
        return [*lists["propp"], events, self._begin_of(made, lists.get("disablep", []))]

    def _pin(self, it: Object, made: Node, lists: Lists) -> List[Node]:
        if "modVarp" in it:
            self._pins.append((made, it["modVarp"]))
        return lists.get("exprp", [])

    def _enumitemref(self, it: Object, made: Node, lists: Lists) -> List[Node]:
        made.attributes["of"] = it["itemp"]
        return []

    def _var(self, it: Object, made: Node, lists: Lists) -> List[Node]:
        if it.get("direction", "") not in DIRECTIONS:
            made.fault = f"a variable of direction {it['direction']}"
        made.attributes["dir"] = DIRECTIONS.get(it.get("direction", ""), "")
        made.attributes["vartype"] = it.get("varType", "").lower()
        made.attributes["lifetime"] = it.get("lifetime", "").rstrip("I")
        if it.get("isParam") or it.get("varType") in ("GPARAM", "LPARAM"):
            made.attributes["param"] = "true"
        for key in ("isPullup", "isPulldown"):
            if it.get(key):
                made.attributes["pull"] = str(int(key == "isPullup"))
        return lists.get("valuep", [])

    def _const(self, it: Object, made: Node, lists: Lists) -> List[Node]:
        name = it.get("name", "")
        if name.startswith("?"):
            _, width, rest = name.split("?", 2)
            name = f"{width}'{rest}"
        made.attributes["name"] = name
        return []

    def _initarray(self, it: Object, made: Node, lists: Lists) -> List[Node]:
        items = {int(at): where for at, where in re.findall(r"\[(\d+)\]=(\S+)", it.get("initList", ""))}
        below = {str(x.get("id")): x for x in lists.get("initsp", [])}
        unknown = [where for where in items.values() if where.rstrip(",") not in below]
        if lists.get("defaultp") or unknown or sorted(items) != list(range(len(below))):
            made.fault = "a constant array that is not written out"
            return []
        return [below[items[k].rstrip(",")] for k in range(len(items))]

    def _sel(self, it: Object, made: Node, lists: Lists) -> List[Node]:
        if "widthConst" in it and not lists.get("widthp"):                    # since 5.036 or so
            lists["widthp"] = [Node("const", {"name": f"32'd{it['widthConst']}"}, Place("", 0, 0))]
        if len(lists.get("widthp", [])) != 1:
            made.fault = "Verilator has a part without a width"
        return lists["fromp"] + lists["lsbp"] + lists.get("widthp", [])

    def _basicdtype(self, it: Object, made: Node, lists: Lists) -> List[Node]:
        made.attributes["name"] = it.get("keyword", it.get("name", ""))
        if it.get("range"):
            made.attributes["left"], made.attributes["right"] = it["range"].split(":")
        return []

    def _kind(self, it: Object, made: Node, lists: Lists) -> List[Node]:
        keys = ("refDTypep", "subDTypep", "typep")
        below = next((it[key] for key in keys if it.get(key, "UNLINKED") != "UNLINKED"), None)
        if below:
            made.attributes["sub_dtype_id"] = below
        return [x for value in lists.values() for x in value]

    _refdtype = _enumdtype = _memberdtype = _constdtype = _packarraydtype = _unpackarraydtype = _kind

    def _structdtype(self, it: Object, made: Node, lists: Lists) -> List[Node]:
        if not it.get("packed"):
            made.fault = "a structure that is not packed"
        return lists.get("membersp", [])

    _uniondtype = _structdtype

    def _varref(self, it: Object, made: Node, lists: Lists) -> List[Node]:
        made.attributes["of"] = it["varp"]
        return []

    def _varxref(self, it: Object, made: Node, lists: Lists) -> List[Node]:
        made.attributes["of"], made.attributes["dotted"] = it["varp"], it.get("dotted", "")
        return []

    def _always(self, it: Object, made: Node, lists: Lists) -> List[Node]:
        if it.get("keyword", "") not in KEYWORDS:
            made.fault = f"a block {it['keyword']}"
        if it.get("keyword") == "cont_assign":          # 5.048: a continuous assignment, in a block
            made.tag = "begin"
        return lists.get("sensesp", []) + lists.get("sentreep", []) + lists.get("stmtsp", [])

    def _senitem(self, it: Object, made: Node, lists: Lists) -> List[Node]:
        made.attributes["edgeType"] = it.get("edgeType", "")
        if it.get("edgeType") not in EDGES:
            made.fault = f"an event {it.get('edgeType')}"
        if lists.get("condp"):
            made.fault = "an event with iff"
        return lists.get("sensp", [])

    def _funcref(self, it: Object, made: Node, lists: Lists) -> List[Node]:
        made.attributes["of"] = it.get("taskp", "")
        if it.get("dotted"):
            made.attributes["dotted"] = it["dotted"]
        return lists.get("pinsp", []) + lists.get("argsp", [])

    _taskref = _funcref

    def _past(self, it: Object, made: Node, lists: Lists) -> List[Node]:
        if lists.get("sentreep"):
            made.fault = "a value of the past with a clock of its own"
        return lists["exprp"] + lists.get("ticksp", [])

    _rose = _fell = _stable = _past


def tree(root: Object, files: Dict[str, str], sizes: Dict[str, Tuple[int, bool]], version: str) -> Tree:
    """The tree of a netlist."""
    others = [it["type"] for it in root.get("modulesp", []) if it["type"] not in MODULES]
    if others:
        raise NotRead(f"Verilator has a node {others[0]}")
    reader = _Reader(files, sizes, version)
    made = reader.node(root)
    reader.finish()
    used = {it.get("defName") for it in made.walk() if it.tag == "instance"}
    for it in made.walk():
        if it.tag == "module" and not it.name.startswith("@") and it.name not in used:
            it.attributes["topModule"] = "1"
    return Tree(made, reader.known)
