"""The source packages of Debian that hold the modules, and how their archives come to a folder."""

from __future__ import annotations

import fnmatch
import shutil
import subprocess
import tarfile
from pathlib import Path
from typing import Iterator, List, NamedTuple, Tuple

from library import supervised

# What is unpacked: sources, what they include, and what `$readmemh` and `$readmemb` read.
KINDS = (".v", ".sv", ".vh", ".svh", ".h", ".inc", ".hex", ".mem", ".dat", ".txt")
SOURCES = (".v", ".sv")


class Package(NamedTuple):
    """A version of a source package, and the folders whose sources are read, without those that match `skipped`. The
    cells of a device are in `library`, a file of the first package."""

    name: str
    version: str
    folders: Tuple[str, ...]
    skipped: Tuple[str, ...] = ()
    library: str = ""

    @property
    def label(self) -> str:
        return f"{self.name}_{self.version}"


_ICE40 = "techlibs/ice40/cells_sim.v"
# Of two versions with the same text of a module, the first one counts.
PACKAGES = (
    Package("yosys", "0.23-6", ("tests", "examples", "manual", "techlibs/ice40", "techlibs/ecp5", "techlibs/common"),
            ("tests/errors/*", "*_bb.v", "*_map.v", "*/simlib.v", "*/simcells.v", "*/techmap.v")),
    Package("nextpnr", "0.4-1", ("",), library=_ICE40),
    Package("fpga-icestorm", "0~20230218gitd20a5e9-1~deb12u1", ("",), library=_ICE40),
    Package("arachne-pnr", "0.1+20190728gitc40fb22-3", ("",), library=_ICE40),
    Package("openfpgaloader", "0.10.0+git20230202-edea24f-1", ("",)),
    Package("iverilog", "12.0-2", ("ivtest", "examples")),
    Package("verilator", "5.006-3", ("test_regress", "examples")),
    Package("universal-ctags", "6.2.1-1", ("Units",)),
    Package("yosys", "0.52-2", ("tests", "examples", "docs"), ("tests/errors/*",)),
    Package("nextpnr", "0.7-1", ("",), library=_ICE40),
    Package("iverilog", "13.0-2", ("ivtest",)),
    Package("verilator", "5.032-1", ("test_regress", "examples")),
)


def archives(package: Package, folder: Path) -> List[Path]:
    """The archives of a package, without the patches of Debian. `apt-get` fetches those that are not there yet."""
    folder.mkdir(parents=True, exist_ok=True)
    found = _archives(folder)
    if not found:
        words = ["apt-get", "source", "-qq", "--download-only", f"{package.name}={package.version}"]
        supervised.run(words, cwd=folder, check=False, stdin=subprocess.DEVNULL, stdout=subprocess.DEVNULL,
                       stderr=subprocess.DEVNULL, timeout=supervised.SCRIPT_SECONDS)
        found = _archives(folder)
    return found


def _archives(folder: Path) -> List[Path]:
    return sorted(path for path in folder.glob("*.orig.tar.*") if path.suffix != ".asc")


def unpacked(package: Package, folder: Path) -> Path:
    """The folder with the sources of a package, which is empty if its archives could not be fetched."""
    to = folder / "sources" / package.label
    if not to.exists():
        for archive in archives(package, folder / "packages" / package.label):
            with tarfile.open(archive) as members:
                for member in members:
                    _unpack(members, member, to)
    return to


def _unpack(members: tarfile.TarFile, member: tarfile.TarInfo, to: Path) -> None:
    """Unpacks one file, below the folder that the archive has."""
    parts = Path(member.name).parts[1:]
    content = members.extractfile(member) if member.isfile() and member.name.endswith(KINDS) else None
    if content is None or ".." in parts:
        return
    path = to.joinpath(*parts)
    path.parent.mkdir(parents=True, exist_ok=True)
    with path.open("wb") as file:
        shutil.copyfileobj(content, file)


def sources(package: Package, root: Path) -> Iterator[Path]:
    """The sources of a package, in the order of its folders."""
    for name in package.folders:
        for path in sorted((root / name).rglob("*")):
            inside = path.relative_to(root).as_posix()
            is_skipped = any(fnmatch.fnmatchcase(inside, pattern) for pattern in package.skipped)
            if path.is_file() and path.suffix in SOURCES and not is_skipped:
                yield path
