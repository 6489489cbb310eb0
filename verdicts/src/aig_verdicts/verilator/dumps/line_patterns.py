"""What a line of a dump may say after the name of its node, by type of node: see text_tree.py."""

from __future__ import annotations

import re

_TO = r"[A-Z]+ (?P<to>0x[0-9a-f]+)\b.*"
_SUB = r"(?: refdt=(?P<sub>0x[0-9a-f]+)\S*)?"
_GENERIC = r"(?: \[GENERIC\])?"
_ACCESS = r"(?: pkg=\S+)? (?:\[LR?V\] (?:=>|<=>)|\[RV\] <-) "
_CALL = r"(?: pkg=\S+)? -> (?:\.=(?P<dotted>\S+) )?"
_ASSERTION = r"(?: \[(?:IMMEDIATE|SIMPLE_IMMEDIATE|CONCURRENT|INTERNAL)\])*"
_PACKED = _GENERIC + r"(?P<packed> \[PACKED\])?(?: \[4STATE\])?"
_ARRAY = _GENERIC + _SUB + r" \[-?\d+:-?\d+\]"

# `to` is what the node refers to, `sub` a type below it.
_REST = {
    "NETLIST": r".*", "MODULE": r"  L\d+.*", "IFACE": r"  L\d+.*", "PACKAGE": r"  L\d+.*",
    "VAR": r"(?P<flags>(?: \[[^\]]*\])*)(?: (?P<direction>INPUT|OUTPUT|INOUT))?(?P<more>(?: {1,2}\[[^\]]*\])*)"
           r" {1,2}(?P<varType>[A-Z0-9]+)",
    "CELL": r" -> " + _TO,
    "PIN": r" -> " + _TO + r"|(?P<open> ->UNLINKED.*)",
    "VARREF": _ACCESS + _TO,
    "VARXREF": _ACCESS + r"\.=(?P<dotted>\S*) (?:inline\.=\S* - )?" + _TO,
    "FUNCREF": _CALL + _TO, "TASKREF": _CALL + _TO, "METHODCALL": _CALL + r"(?:" + _TO + "|UNLINKED.*)",
    "ENUMITEMREF": r" -> " + _TO, "JUMPGO": r" -> " + _TO, "JUMPLABEL": r" -> " + _TO,
    "ALWAYS": r"(?: \[(?P<keyword>always_comb|always_ff|always_latch|cont_assign)\])?",
    "SENITEM": r" \[(?P<edgeType>[A-Z_]+)\]", "SENTREE": r"(?: \[MULTI\])?",
    "ASSERT": _ASSERTION, "COVER": _ASSERTION, "ASSERTINTRINSIC": _ASSERTION, "RESTRICT": _ASSERTION,
    "BEGIN": r"(?: \[(?:UNNAMED|GEN|GENFOR|IMPLIED)\])*", "GENBLOCK": r"(?: \[[A-Z]+\])*",
    "FUNC": r"(?: \[(?:PUBLIC|RECURSIVE|VFUNC)\])*", "TASK": r"(?: \[(?:PUBLIC|RECURSIVE|VTASK)\])*",
    "SEL": r"(?: widthConst=(?P<widthConst>\d+))?(?: decl\S+)?", "CCAST": r" sz\d+",
    "RANGE": r"(?: \[(?:LITTLE|ASCENDING|FB)\])*",
    "LOOPTEST": r" -> .*", "CASE": r"(?: (?P<kwd>case[xz]?))?", "DELAY": r".*", "CEXPR": r".*",
    "BASICDTYPE": _GENERIC + _SUB + r" kwd=(?P<keyword>\S+)(?: range=\[(?P<range>-?\d+:-?\d+)\])?",
    "REFDTYPE": _GENERIC + _SUB + r"(?: -> .*| \S+=.*)?", "ENUMDTYPE": _GENERIC + _SUB + r" enum",
    "STRUCTDTYPE": _PACKED, "UNIONDTYPE": _PACKED,
    "MEMBERDTYPE": _GENERIC + _SUB + r"(?: name=\S+)?", "CONSTDTYPE": _GENERIC + _SUB,
    "PACKARRAYDTYPE": _ARRAY, "UNPACKARRAYDTYPE": _ARRAY, "PARAMTYPEDTYPE": _GENERIC + _SUB + r" -> .*",
    "INITARRAY": r"(?P<initList>(?: \[\d+\]=0x[0-9a-f]+)*)",
    "VOIDDTYPE": r".*", "TYPETABLE": r".*", "READMEM": r".*", "EXPRSTMT": r".*", "PULL": r".*", "STRENGTHSPEC": r".*",
}
PATTERNS = {key: re.compile(it) for key, it in _REST.items()}
# The attribute of the JSON that has the same.
REFERS = {"CELL": "modp", "PIN": "modVarp", "VARREF": "varp", "VARXREF": "varp", "FUNCREF": "taskp", "TASKREF": "taskp",
          "METHODCALL": "taskp", "ENUMITEMREF": "itemp", "JUMPGO": "labelp", "JUMPLABEL": "blockp"}
# What a variable may have in brackets.
FLAGS = {"CONST", "CLK", "P", "LATCHED", "LOOP", "LOOPIDX", "aISO", "FUNCRTN", "FUNC", "VSTATIC", "VSTATICI", "VAUTOM",
         "VAUTOMI", "UINIT", "!CRST", "!RST", "PI", "PO", "PIO", "PULLUP", "PULLDOWN", "IGNPOSTWR", "GLOBAL_CLK"}
