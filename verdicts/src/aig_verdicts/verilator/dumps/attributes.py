"""The attributes of the objects of a dump: those that are known, and what actions of assertions may do."""

from __future__ import annotations

from typing import Any, Dict, List

# What has one of these values says nothing.
PLAIN = ("", False, 0, "UNLINKED", "NONE", "UNKNOWN", "none", None)

# Attributes that nodes.py reads, or that say nothing of a circuit. Any other one stops the reader.
KNOWN = frozenset("""
    type name addr loc dtypep editNum origName verilogName dtypeName isUsedLoopIdx isSigPublic isPrimaryIO
    isUsedClock isLatched noReset noCReset isFuncLocal isFuncReturn attrClocker sensIfacep access varp varScopep
    classOrPackagep level modPublic inLibrary timeunit timeprecision enum keyword varType lifetime direction
    isConst isGParam isParam generic packed isFourstate range typedefp refDTypep subDTypep typep declRange
    isCompound dead recursiveClone recursive isSuspendable needProcess unnamed generate implied kwd edgeType
    isMulti dotted inlinedDots containsGenBlock taskp itemp modp modVarp labelp blockp loopp svImplicit svDotName
    widthConst declElWidth size signed tag unroll immediate stdPackagep delaysp evalp evalNbap dpiExportTriggerp
    dollarUnitPkgp typeTablep constPoolp method purity pure argTypes pragma isHideLocal isHideProtected
    classMethod dpiExport dpiImport prototype taskPublic cname verilogFunction verilogTask isStdRandomize
    underGenerate voidp emptyQueuep queueIndexp streamp isTrace ignoreSchedWrite usedParam usedClock hasUserInit
    pinNum lib directive userType covergroup fourstate isStatic littleEndian ascending fromBracket
    attrIsolateAssign attrFileDescr isLvalue unique unique0 priority full parallel initList""".split())

_SAYING = ("DISPLAY", "STOP", "FINISH", "COMMENT", "COVERINC")
DIRECTIONS = {"INPUT": "input", "OUTPUT": "output", "INOUT": "inout", "NONE": "", "": ""}
KEYWORDS = ("", "always", "always_comb", "always_ff", "always_latch", "cont_assign")
EDGES = ("POS", "NEG", "BOTH", "CHANGED", "COMBO_STAR")
MODULES = ("MODULE", "IFACE", "PACKAGE", "CLASS", "CLASSPACKAGE")


def strange(it: Dict[str, Any]) -> str:
    """An attribute of an object that is not known and says something, or an empty text."""
    return next((key for key, value in it.items()
                 if key not in KNOWN and not isinstance(value, list) and value not in PLAIN), "")


def acting(it: Dict[str, Any]) -> List[str]:
    """What does something in an action of an assertion, and is no message."""
    if it["type"] in _SAYING:
        return []
    if it["type"] == "BEGIN":
        return [x for value in it.values() if isinstance(value, list) for y in value for x in acting(y)]
    if it["type"] == "IF":
        return [x for key in ("thensp", "elsesp") for y in it.get(key, []) for x in acting(y)]
    return [str(it["type"]).lower()]
