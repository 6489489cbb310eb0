#!/usr/bin/env python3
"""Writes the wheel of the package `aig_verdicts`: the same files give the same bytes.

usage: make_wheel.py FOLDER

The wheel is pure Python, has the command `aig-verdicts`, and needs the wheel of `aig`. `pip install` of this folder
calls `build_wheel`."""

import base64
import hashlib
import sys
import zipfile
from pathlib import Path

HERE = Path(__file__).resolve().parent
VERSION = "0.4.0"
# The least version of `aig` that it needs, program and package.
NEEDS = "0.4.0"
METADATA = """\
Metadata-Version: 2.1
Name: aig-verdicts
Version: {version}
Summary: Verdicts on the assertions of a Verilog design, which the program aig checks
Requires-Python: >=3.9
Requires-Dist: aig (>={needs})
License: Apache-2.0 OR MIT
Description-Content-Type: text/markdown

{readme}"""
ENTRY_POINTS = """\
[console_scripts]
aig-verdicts = aig_verdicts.command:main
"""
WHEEL = "Wheel-Version: 1.0\nGenerator: make_wheel\nRoot-Is-Purelib: true\nTag: py3-none-any\n"
FACTS = f"aig_verdicts-{VERSION}.dist-info"


def files_of():
    """The files of the wheel, but for its list of files: their bytes by name."""
    source = HERE / "src"
    paths = sorted(it for it in source.rglob("*") if it.suffix in (".py", ".v", ".sv") or it.name == "py.typed")
    files = {path.relative_to(source).as_posix(): path.read_bytes() for path in paths}
    readme = (HERE / "README.md").read_text(encoding="utf-8")
    files[f"{FACTS}/entry_points.txt"] = ENTRY_POINTS.encode()
    files[f"{FACTS}/METADATA"] = METADATA.format(version=VERSION, needs=NEEDS, readme=readme).encode()
    files[f"{FACTS}/WHEEL"] = WHEEL.encode()
    return files


def line_of(name, data):
    """The line of a file in the list of files."""
    digest = base64.urlsafe_b64encode(hashlib.sha256(data).digest()).rstrip(b"=").decode()
    return f"{name},sha256={digest},{len(data)}\n"


def make(folder):
    """Writes the wheel into a folder, and returns its name."""
    files = files_of()
    record = f"{FACTS}/RECORD"
    lines = "".join(line_of(name, data) for name, data in files.items())
    files[record] = f"{lines}{record},,\n".encode()
    name = f"aig_verdicts-{VERSION}-py3-none-any.whl"
    with zipfile.ZipFile(Path(folder, name), "w", zipfile.ZIP_DEFLATED) as wheel:
        for file, data in files.items():
            entry = zipfile.ZipInfo(file, (1980, 1, 1, 0, 0, 0))
            entry.external_attr = 0o100644 << 16
            entry.compress_type = zipfile.ZIP_DEFLATED
            wheel.writestr(entry, data)
    return name


def build_wheel(wheel_directory, config_settings=None, metadata_directory=None):
    """What pip calls."""
    return make(wheel_directory)


if __name__ == "__main__":
    if len(sys.argv) != 2:
        sys.exit(__doc__)
    print(make(sys.argv[1]))
