"""The dump of a stage that `--dump-tree` writes as text, as the objects that `--dump-tree-json` writes of it.

5.006 of Debian 12 has only the text. A line is a path, whose last digit is the number of the operand that holds the
node; a type, an address, a place, its type, its name, and what else Verilator says of it. Operands get their names from
schema.py. Each line is matched as a whole, by line_patterns.py. A line with more on it is a fault of its node."""

from __future__ import annotations

import re
from typing import Any, Dict, List, Tuple

from .line_patterns import FLAGS, PATTERNS, REFERS
from .schema import IGNORED, TABLE, numbered
from .tree import NotRead

_LINE = re.compile(r"    (?P<path>[\d:]*):? ?(?P<type>[A-Z][A-Z0-9_]*) (?P<addr>0x[0-9a-f]+) "
                   r"\{(?P<file>[a-z]+)(?P<line>\d+)(?P<column>[a-z]{2})\}"
                   r"(?: @dt=(?P<dtype>this|0x[0-9a-f]+)@(?P<small>\S*))?(?:  (?=\S)(?P<name>\S+))?(?P<rest>.*)")
_CONST = re.compile(r".*?@dt=\S+  (.*)")
_OWN = re.compile(r"\((?:G/)?(?P<sign>[sn]*)w(?P<unsized>u?)(?P<width>\d+)(?:/\d+)?\)")
_TYPE = re.compile(r"^    [\d:]+ [A-Z]*DTYPE (0x[0-9a-f]+) \{\w+\} @dt=(this|0x[0-9a-f]+)@(\([^)]*\))", re.M)
_EMPTY = re.compile("").fullmatch("")
_FORMAT = "Verilator Tree Dump (format 0x3900)"


def _column(letters: str) -> int:
    """5.006 writes a column with two letters, so modulo 676."""
    return (ord(letters[0]) - 97) * 26 + ord(letters[1]) - 97


def _object(found: "re.Match[str]", text: str) -> Dict[str, Any]:
    """The object of a line, without what is below it."""
    kind, rest = found["type"], found["rest"]
    at = f"{found['line']}:{_column(found['column'])}"
    made: Dict[str, Any] = {"type": kind, "addr": found["addr"], "loc": f"{found['file']},{at},{at}",
                            "name": found["name"] or ""}
    if found["dtype"]:
        made["dtypep"] = found["addr"] if found["dtype"] == "this" else found["dtype"]
    if kind == "CONST":
        constant = _CONST.fullmatch(text)
        made["name"] = constant[1] if constant else ""
        return made
    if kind in IGNORED or kind not in TABLE:
        return made
    if found["name"] and kind in ("MODULE", "IFACE", "PACKAGE") and re.fullmatch(r"L\d+", found["name"]):
        made["name"], rest = "", "  " + found["name"] + rest
    matched = PATTERNS[kind].fullmatch(rest) if kind in PATTERNS else None if rest else _EMPTY
    if matched is None:
        made["fault"] = f"Verilator says{rest[:60]} of a node {kind}"
    else:
        _said(made, kind, matched)
    return made


def _said(made: Dict[str, Any], kind: str, matched: "re.Match[str]") -> None:
    """Adds what a line says after the name."""
    groups = matched.groupdict()
    made.update({key: it for key, it in groups.items() if it is not None and key not in ("to", "sub", "flags", "more")})
    if kind in REFERS and groups.get("to"):
        made[REFERS[kind]] = groups["to"]
    if kind == "VAR":
        _variable(made, re.findall(r"\[([^\]]*)\]", (groups["flags"] or "") + (groups["more"] or "")))
    if kind.endswith("DTYPE") and groups.get("sub"):
        made["refDTypep"] = groups["sub"]


def _variable(made: Dict[str, Any], flags: List[str]) -> None:
    strange = [it for it in flags if it not in FLAGS]
    if strange:
        made["fault"] = f"Verilator says [{strange[0]}] of a variable"
    made["lifetime"] = next((it for it in flags if it.startswith(("VSTATIC", "VAUTOM"))), "")
    made["isPullup"], made["isPulldown"] = "PULLUP" in flags, "PULLDOWN" in flags
    made["isFuncReturn"] = "FUNCRTN" in flags
    made["isParam"] = made.get("varType") in ("GPARAM", "LPARAM")


def sizes(text: str) -> Dict[str, Tuple[int, bool]]:
    """The width and the sign of each type that a dump says them of, by address."""
    made: Dict[str, Tuple[int, bool]] = {}
    for found in _TYPE.finditer(text):
        own = _OWN.fullmatch(found[3])
        if own:
            made[found[1]] = int(own["width"]), "s" in own["sign"]
    return made


def _is_more(above: Dict[str, Any]) -> bool:
    """Whether the next line may go on with the text of this node."""
    return above["type"] in IGNORED | {"SFORMATF", "CONST"}


def objects(text: str, version: str) -> Dict[str, Any]:
    """The netlist of a dump."""
    lines = text.split("\n")
    if not lines[0].startswith(_FORMAT):
        raise NotRead(f"the dump of Verilator {version} begins with {lines[0][:60]}")
    root: Dict[str, Any] = {}
    above: List[Tuple[str, Dict[str, Any]]] = []  # the nodes above the next line, by their paths
    for line in lines[1:]:
        if not line or line.startswith("\t"):  # the second list of types
            continue
        found = _LINE.fullmatch(line)
        if not found:
            if above and _is_more(above[-1][1]):
                continue
            raise NotRead(f"Verilator's dump has the line {line.strip()[:80]}")
        made, path = _object(found, line), found["path"].rstrip(":")
        if path:
            _hang(above, made, path, version)
        else:
            root, above = made, []
        above.append((path, made))
    if not root or "TYPETABLE" not in [it["type"] for it in root.get("miscsp", [])]:
        raise NotRead("Verilator left half a tree")
    return root


def _hang(above: List[Tuple[str, Dict[str, Any]]], made: Dict[str, Any], path: str, version: str) -> None:
    """Puts a node below the one that its path names."""
    holder_path, _, digit = path.rpartition(":")
    while above and above[-1][0] != holder_path:
        above.pop()
    if not above:
        raise NotRead(f"Verilator's dump has nothing above a node {made['type']} at {path}")
    holder = above[-1][1]
    names = numbered(version, holder["type"])
    name = names[int(digit) - 1] if 0 < int(digit) <= len(names) else ""
    holder.setdefault(name or f"operand {digit}", []).append(made)
