"""Runs Verilator, and reads what it leaves: the dump of its stage `width`, and its table of files."""

from __future__ import annotations

import json
import os
import re
import tempfile
import xml.etree.ElementTree as ElementTree
from pathlib import Path
from typing import Dict, List, NamedTuple, Optional

from aig.tools import Limits, Ran, Stop, ToolFailed, run

from . import json_tree, nodes, text_tree
from .source import Source
from .tree import NotRead, Tree

OPTIONS = ("-O0", "--dumpi-V3Global", "3", "--dumpi-V3Width", "3", "-Wno-fatal", "-Wno-lint", "-Wno-style", "--assert",
           "--timing")
# The version that writes its dump as text alone.
TEXT_ALONE = "5.006"
_LIMITS = Limits(seconds=600, megabytes=8000)
# What is read of standard error. A message after it might be lost.
_MOST_SAID = (1 << 16) - 1
_ENCODING = "latin-1"


class Dump(NamedTuple):
    """What Verilator wrote of the stage `width`: as text, and, by later versions, as JSON."""

    text: str
    json: Optional[str]
    files: Dict[str, str]
    version: str


def program() -> str:
    """The name of the program, or its path: VERILATOR, if that is set."""
    return os.environ.get("VERILATOR") or "verilator"


def verilator(folder: Path, *arguments: str) -> Ran:
    """Runs Verilator in a folder."""
    try:
        ran = run([program(), *arguments], folder, _LIMITS, Stop())
    except ToolFailed as why:
        raise NotRead(str(why)) from why
    if ran.status is None or len(ran.err) > _MOST_SAID:
        raise NotRead("Verilator takes too long" if ran.status is None else "Verilator says too much")
    return ran


def version_of() -> str:
    """Verilator's version."""
    with tempfile.TemporaryDirectory() as room:
        found = re.match(r"Verilator (\d+\.\d+)", verilator(Path(room), "--version").out.decode(_ENCODING))
    if not found:
        raise NotRead(f"{program()} does not say which version of Verilator it is")
    return found[1]


def preprocessed(files: List[str], defines: List[str]) -> str:
    """The sources without macros and includes. Files are named as they were given, from the current folder."""
    here = os.getcwd()
    with tempfile.TemporaryDirectory() as room:
        ran = verilator(Path(room), "-E", f"-I{here}", "-DFORMAL", *(f"-D{it}" for it in defines),
                        *(os.path.join(here, it) for it in files))
    if ran.status:
        raise NotRead("Verilator: " + first_error(ran.err.decode(_ENCODING)).replace(here + "/", ""))
    text = ran.out.decode(_ENCODING)
    return re.sub(r'(?m)^(\s*`line \d+ ")' + re.escape(here) + "/", r"\1", text)


def first_error(text: str) -> str:
    """The first error of Verilator's messages."""
    return next((it for it in text.splitlines() if it.startswith("%Error")), text[:200])


def dumped(source: Source, top: str, version: str) -> Dump:
    """The dump of a source."""
    with tempfile.TemporaryDirectory() as name:
        room = Path(name)
        whole = room / "all.sv"
        whole.write_bytes(source.written.encode(_ENCODING))
        kind = "--xml-only" if version == TEXT_ALONE else "--json-only"
        ran = verilator(room, kind, *OPTIONS, *(["--top-module", top] if top else []), "--Mdir", name, str(whole))
        said = ran.err.decode(_ENCODING)
        dumps = sorted(room.glob("*_width.tree"))
        if ran.status and not (only_unsupported(said) and dumps):
            raise NotRead("Verilator: " + first_error(said))
        if len(dumps) != 1:
            raise NotRead(f"Verilator left {len(dumps)} trees of the stage width")
        text = dumps[0].read_text(_ENCODING)
        as_json = None if version == TEXT_ALONE else Path(f"{dumps[0]}.json").read_text(_ENCODING)
        return Dump(text, as_json, files_of(room, source, str(whole), version), version)


def tree_of(dump: Dump) -> Tree:
    """The tree of a dump."""
    plain, sizes = text_tree.objects(dump.text, dump.version), text_tree.sizes(dump.text)
    if dump.json is None:
        return nodes.tree(plain, dump.files, sizes, dump.version)
    root = json_tree.objects(dump.json)
    by_text = json_tree.by_text(root, plain, {})
    return nodes.tree(root, dump.files, {it: sizes[at] for it, at in by_text.items() if at in sizes}, dump.version)


def files_of(room: Path, source: Source, whole: str, version: str) -> Dict[str, str]:
    """The names of files by Verilator's letters: in the order in which they are named. Its own table has to agree."""
    first = 2 if version == TEXT_ALONE else 4
    names = [whole, *(it for it in source.files if it != whole)]
    made = {letters(first + k): it for k, it in enumerate(names)}
    said: Dict[str, str] = {}
    for it in room.iterdir():
        if it.name.endswith(".meta.json"):
            table = json.loads(it.read_text(_ENCODING))["files"]
            said = {key: value["filename"] for key, value in table.items()}
        elif it.suffix == ".xml":
            root = ElementTree.parse(it).getroot()
            said = {str(x.get("id")): str(x.get("filename")) for x in root.iter("file")}
    wrong = [it for it in said if it in made and said[it] != made[it]]
    if wrong:
        raise NotRead(f"Verilator numbers the files in another way: {said[wrong[0]]} is not {made[wrong[0]]}")
    return made


def letters(number: int) -> str:
    """A number as Verilator writes it."""
    return (letters(number // 26) if number >= 26 else "") + chr(97 + number % 26)


def only_unsupported(text: str) -> bool:
    """Whether all errors are about what Verilator cannot simulate: it says so after the stage that is read."""
    return all("UNSUPPORTED" in it or "Exiting due to" in it for it in text.splitlines() if it.startswith("%Error"))
