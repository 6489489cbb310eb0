"""What the crate of the library for C exports, and what its header declares: the functions with the types of their
arguments, and the structs with the types of their fields."""

import re
import sys

from library.runs import REPOSITORY, contents

sys.path.insert(0, REPOSITORY + "/tools")
from sources.exports import Crate  # noqa: E402

HEADER = f"{REPOSITORY}/include/aig.h"
# the types in C of a parameter of an export
TYPES = {"Global": [], "&[u8]": ["const uint8_t *", "size_t"], "u8": ["uint8_t"], "u32": ["uint32_t"],
         "bool": ["bool"], "&mut [u8]": ["uint8_t *", "size_t"], "&mut u8": ["uint8_t *"], "&mut u32": ["uint32_t *"],
         "&mut usize": ["size_t *"], "&mut bool": ["bool *"], "&[u32]": ["const uint32_t *", "size_t"],
         "&[AigEdit]": ["const struct aig_edit *", "size_t"], "&[AigCell]": ["const struct aig_cell *", "size_t"],
         "&mut AigLive": ["struct aig_live *"], "&mut AigReport": ["struct aig_report *"],
         "&mut AigSizes": ["struct aig_sizes *"]}
# the types in C of a field
FIELDS = {"u32": "uint32_t", "u64": "uint64_t", "Seat": "void *", "bool": "bool"}


def exports():
    """The types in C of the arguments of each export of the crate, by its name."""
    found = {}
    for export in Crate("aig_c").exports():
        kinds = re.findall(r"\w+: ([^,()]+)", export.head.partition("(")[2])
        found[export.name] = [it for kind in kinds for it in TYPES[kind.strip()]]
    return found


def bare():
    """The header without its comments."""
    return re.sub(r"/\*.*?\*/", "", contents(HEADER).decode(), flags=re.S)


def declared():
    """The types of the arguments of each function in the header, by its name."""
    return {name: [re.sub(r"\w+$", "", it.strip()).strip() for it in arguments.split(",")]
            for name, arguments in re.findall(r"uint8_t (\w+)\(([^)]*)\);", bare())}


def fields():
    """The types in C of the fields of each struct that an export gets, by its name. What contracts alone see is no
    field."""
    found = {}
    struct = re.compile(r"#\[repr\(C\)\]\n(?:#[^\n]*\n)?pub struct Aig(\w+) \{\n(.*?)\n\}", re.S)
    for name, body in (it for text in Crate("aig_c").texts.values() for it in struct.findall(text)):
        kinds = re.findall(r"(?m)^    pub(?:\(crate\))? \w+: (\w+)", body)
        found[f"aig_{name.lower()}"] = [FIELDS[kind] for kind in kinds]
    return found


def structs():
    """The types of the fields of each struct in the header, by its name."""
    found = {}
    for name, body in re.findall(r"struct (\w+) \{([^}]*)\}", bare()):
        groups = re.findall(r"(void \*|\w+ )([^;]*);", body)
        found[name] = [kind.strip() for kind, names in groups for _ in names.split(",")]
    return found
