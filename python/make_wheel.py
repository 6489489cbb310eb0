#!/usr/bin/env python3
"""Writes the wheel of the package `aig`: the same files give the same bytes.

usage: make_wheel.py FOLDER [PROGRAM [LIBRARY]]

With a PROGRAM, the wheel has it as a script, so pip puts it on the path, and with a LIBRARY, a libaig.so, the package
has that; the wheel is for this platform only. Without them, the wheel is pure Python, and the package finds the program
on the path. Both have the command `aig-explain`.
`pip install` of this folder calls `build_wheel`: there AIG_PROGRAM and AIG_LIBRARY name what to pack, if they are
set."""

import base64
import hashlib
import os
import re
import subprocess
import sys
import zipfile
from pathlib import Path

HERE = Path(__file__).resolve().parent
VERSION = "0.4.0"
METADATA = """\
Metadata-Version: 2.1
Name: aig
Version: {version}
Summary: A verified AIGER toolkit, from Python
Requires-Python: >=3.9
License: Apache-2.0 OR MIT
Description-Content-Type: text/markdown

{readme}"""
ENTRY_POINTS = """\
[console_scripts]
aig-explain = aig.explain.command:main
"""


def tag_of(binaries):
    """The tag of a wheel with these programs and libraries: the oldest C library that they run with."""
    if not binaries:
        return "py3-none-any"
    words = ["objdump", "-T", *binaries]
    symbols = subprocess.run(words, capture_output=True, text=True, check=True, timeout=120).stdout
    oldest = max(tuple(map(int, version.split("."))) for version in re.findall(r"GLIBC_([0-9.]+)", symbols))
    return f"py3-none-manylinux_{oldest[0]}_{oldest[1]}_x86_64"


def files_of(binaries, tag):
    """The files of the wheel, but for its list of files: their bytes and modes by name. `binaries` are the paths of
    those that are no Python, by their names in the wheel."""
    facts = f"aig-{VERSION}.dist-info"
    readme = (HERE / "README.md").read_text(encoding="utf-8")
    source = HERE / "src"
    paths = sorted(it for it in source.rglob("*") if it.suffix == ".py" or it.name == "py.typed")
    files = {path.relative_to(source).as_posix(): (path.read_bytes(), 0o644) for path in paths}
    files.update((name, (Path(path).read_bytes(), 0o755)) for name, path in binaries.items())
    wheel = f"Wheel-Version: 1.0\nGenerator: make_wheel\nRoot-Is-Purelib: {str(not binaries).lower()}\nTag: {tag}\n"
    files[f"{facts}/entry_points.txt"] = (ENTRY_POINTS.encode(), 0o644)
    files[f"{facts}/METADATA"] = (METADATA.format(version=VERSION, readme=readme).encode(), 0o644)
    files[f"{facts}/WHEEL"] = (wheel.encode(), 0o644)
    return files


def line_of(name, data):
    """The line of a file in the list of files."""
    digest = base64.urlsafe_b64encode(hashlib.sha256(data).digest()).rstrip(b"=").decode()
    return f"{name},sha256={digest},{len(data)}\n"


def make(folder, program=None, library=None):
    """Writes the wheel into a folder, and returns its name."""
    given = {f"aig-{VERSION}.data/scripts/aig": program, "aig/libaig.so": library}
    binaries = {name: path for name, path in given.items() if path}
    tag = tag_of([*binaries.values()])
    files = files_of(binaries, tag)
    record = f"aig-{VERSION}.dist-info/RECORD"
    lines = "".join(line_of(name, data) for name, (data, _) in files.items())
    files[record] = (f"{lines}{record},,\n".encode(), 0o644)
    name = f"aig-{VERSION}-{tag}.whl"
    with zipfile.ZipFile(Path(folder, name), "w", zipfile.ZIP_DEFLATED) as wheel:
        for file, (data, mode) in files.items():
            entry = zipfile.ZipInfo(file, (1980, 1, 1, 0, 0, 0))
            entry.external_attr = (0o100000 | mode) << 16
            entry.compress_type = zipfile.ZIP_DEFLATED
            wheel.writestr(entry, data)
    return name


def build_wheel(wheel_directory, config_settings=None, metadata_directory=None):
    """What pip calls."""
    return make(wheel_directory, os.environ.get("AIG_PROGRAM"), os.environ.get("AIG_LIBRARY"))


if __name__ == "__main__":
    if len(sys.argv) not in (2, 3, 4):
        sys.exit(__doc__)
    print(make(*sys.argv[1:]))
