"""What Verilator's nodes have below them, by name. Any other node, or anything else below one, stops the reader.

The names are those of the `@astgen` lines of Verilator's V3AstNode*.h, in the order of the operands 1 to 4 of 5.006
(`-`: none). `?`: it may be missing; `*`: any number. Operands of later versions come after `|`. _MOVED has what a
version changed."""

from __future__ import annotations

from typing import Dict, List, NamedTuple, Tuple

TRIED = {"5.006": "Debian 12", "5.032": "Debian 13", "5.048": "Debian sid"}

_TABLE = """
NETLIST: modulesp* filesp* miscsp*
MODULE IFACE PACKAGE: inlinesp* stmtsp* activesp*
TYPETABLE: typesp*
VAR: childDTypep? delayp? valuep? attrsp*
CELL: pinsp* paramsp* rangep? intfRefsp*
PIN ARG: exprp?
ALWAYS: sensesp? stmtsp* | sentreep?
INITIAL INITIALSTATIC INITIALAUTOMATIC: - stmtsp*
INITIALSTATICSTMT INITIALAUTOMATICSTMT: stmtsp*
ASSIGNW: rhsp lhsp timingControlp? strengthSpecp?
ASSIGN ASSIGNDLY: rhsp lhsp timingControlp?
BEGIN: stmtsp* genforp? | declsp*
GENBLOCK: genforp? itemsp*
IF: condp thensp* elsesp*
CASE: exprp itemsp* notParallelp*
CASEITEM: condsp* stmtsp*
WHILE: precondsp* condp stmtsp* incsp*
LOOP: stmtsp* contsp*
LOOPTEST: condp
JUMPBLOCK: stmtsp* endStmtsp*
JUMPLABEL JUMPGO CONST VARREF VARXREF ENUMITEMREF VOIDDTYPE PULL STRENGTHSPEC: -
STMTEXPR: exprp
TASKREF FUNCREF: namep? - pinsp* scopeNamep? | argsp* withp?
METHODCALL: namep? fromp pinsp* scopeNamep? | argsp* withp?
FUNC TASK: fvarp? classOrPackagep? stmtsp* scopeNamep?
ASSERT ASSERTINTRINSIC: propp sentreep? failsp* passsp*
RESTRICT: propp sentreep? - passsp*
COVER: propp sentreep? coverincsp* passsp*
PROPSPEC: sensesp? disablep? propp
SENTREE: sensesp*
SENITEM: sensp? | condp?
READMEM: filenamep memp lsbp? msbp?
RANGE: leftp rightp
INSIDERANGE: lhsp rhsp
ENUMITEM: rangep? valuep?
SEL: fromp lsbp widthp? | widthp
ARRAYSEL: fromp bitp
REPLICATE: srcp countp
COND: condp thenp elsep
ADD SUB MUL MULS DIV DIVS MODDIV MODDIVS POW POWSU POWSS POWUS AND OR XOR: lhsp rhsp
LOGAND LOGOR LOGIF LOGEQ CONCAT STREAML STREAMR: lhsp rhsp
EQ NEQ LT GT LTE GTE LTS GTS LTES GTES EQCASE NEQCASE EQWILD NEQWILD SHIFTL SHIFTR SHIFTRS: lhsp rhsp
NOT NEGATE LOGNOT REDAND REDOR REDXOR ONEHOT ONEHOT0 ISUNKNOWN SIGNED UNSIGNED CCAST CASTWRAP RESIZELVALUE: lhsp
COUNTONES CLOG2 EXTEND EXTENDS CVTPACKSTRING: lhsp
SAMPLED: exprp
PAST: exprp ticksp? sentreep?
ROSE FELL STABLE: exprp sentreep?
IMPLICATION: lhsp rhsp sentreep?
CEXPR: exprsp* | nodesp*
CRESET: varrefp?
EXPRSTMT: stmtsp* resultp
BASICDTYPE: rangep?
REFDTYPE: typeofp? classOrPackageOpp? paramsp*
ENUMDTYPE: childDTypep? itemsp*
STRUCTDTYPE UNIONDTYPE: membersp*
MEMBERDTYPE: childDTypep? | valuep?
PACKARRAYDTYPE UNPACKARRAYDTYPE: childDTypep? rangep?
CONSTDTYPE PARAMTYPEDTYPE: childDTypep?
INITARRAY: defaultp? initsp*
INITITEM: valuep
"""

# Nodes that are no part of a circuit, with everything below them.
IGNORED = frozenset("""DISPLAY FINISH STOP COMMENT TEXT COVERDECL SCOPENAME TYPEDEF FINAL PRAGMA DUMPCTL PACKAGEIMPORT
    PACKAGEEXPORT IFACEREFDTYPE MODPORT CLOCKING PROPERTY SEQUENCE TIMEUNIT""".split())

# Operands that say nothing of a circuit: the copy of a module has its parameters, and delays take no time here.
UNUSED = frozenset("""paramsp intfRefsp attrsp scopeNamep classOrPackagep childDTypep timingControlp delayp notParallelp
    inlinesp namep failsp passsp coverincsp typeofp classOrPackageOpp genforp strengthSpecp""".split())

# Nodes without a type. Each other one that is known has to have one.
_UNTYPED = frozenset("""NETLIST MODULE IFACE PACKAGE TYPETABLE CELL PIN ARG ALWAYS INITIAL INITIALSTATIC INITIALAUTOMATIC
    INITIALSTATICSTMT INITIALAUTOMATICSTMT BEGIN GENBLOCK IF CASE CASEITEM WHILE LOOP LOOPTEST JUMPBLOCK JUMPLABEL JUMPGO
    PULL STRENGTHSPEC STMTEXPR TASKREF TASK INSIDERANGE INITITEM ASSERT ASSERTINTRINSIC RESTRICT COVER SENTREE SENITEM
    READMEM RANGE MEMBERDTYPE VOIDDTYPE DELAY METHODCALL""".split())

_LATER = {"MEMBERDTYPE": ["childDTypep", "", "valuep"], "SENITEM": ["sensp", "condp"]}
_MOVED = {"5.032": {**_LATER, "BEGIN": ["genforp", "stmtsp"]},
          "5.048": {**_LATER, "BEGIN": ["declsp", "stmtsp"], "SEL": ["fromp", "lsbp"], "ALWAYS": ["sentreep", "stmtsp"],
                    "FUNCREF": ["", "argsp", "withp", "scopeNamep"], "TASKREF": ["", "argsp", "withp", "scopeNamep"],
                    "METHODCALL": ["fromp", "argsp", "withp", "scopeNamep"], "CEXPR": ["nodesp"]}}


class Operands(NamedTuple):
    """The operands of a type of node: their names by number, and how many of each there may be."""

    numbered: List[str]
    allowed: Dict[str, Tuple[int, int]]


_MANY = {"*": (0, 1 << 30), "?": (0, 1)}


def _made() -> Dict[str, Operands]:
    made: Dict[str, Operands] = {}
    for line in _TABLE.strip().splitlines():
        types, _, operands = line.partition(":")
        here, _, later = operands.partition("|")
        allowed: Dict[str, Tuple[int, int]] = {}
        for it in here.split() + later.split():
            if it != "-":
                allowed.setdefault(it.rstrip("?*"), _MANY.get(it[-1], (1, 1)))
        for it in types.split():
            made[it] = Operands([x.rstrip("?*") if x != "-" else "" for x in here.split()], allowed)
    return made


TABLE = _made()


def numbered(version: str, kind: str) -> List[str]:
    """The names of the operands 1 to 4 of a type of node in a version; none for a type that is not known."""
    return _MOVED.get(version, {}).get(kind) or (TABLE[kind].numbered if kind in TABLE else [])


def fault(kind: str, counts: Dict[str, int], typed: bool) -> str:
    """What is wrong with a node of so many operands of each name, with a type or without, or an empty text."""
    if kind not in TABLE:
        return f"Verilator has a node {kind}"
    if not typed and kind not in _UNTYPED:
        return f"Verilator has a node {kind} without a type"
    allowed = TABLE[kind].allowed
    for name, count in counts.items():
        if count and name not in allowed:
            return f"Verilator has a node {kind} with {name or 'one more operand'}"
    for name, (least, most) in allowed.items():
        if not least <= counts.get(name, 0) <= most:
            return f"Verilator has a node {kind} with {counts.get(name, 0)} of {name}"
    return ""
