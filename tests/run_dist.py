#!/usr/bin/env python3
"""Installs the program into empty folders: by `make install`, from the archive of a release, and from its Debian
packages. The tour of README.md has to run from there, and all pages, completions and documents have to be there. The
packages of Python are installed by pip, from their wheels and from their folders, and tests run there.

These releases are of no gate, and their PROVENANCE says so. `make dist` itself needs a gate, so a test calls the
function that decides what it refuses."""

import glob
import gzip
import importlib.util
import os
import re
import shutil
import sys
from subprocess import DEVNULL

from library import runs, supervised
from library.runs import REPOSITORY, LeftOut, contents, leave_out
from library.supervised import SCRIPT_SECONDS
from library.tour import take

sys.path.insert(0, REPOSITORY + "/tools")
import gate  # noqa: E402
import pack  # noqa: E402

make_wheel, make_verdicts = pack.make_wheel, pack.make_verdicts
DOCUMENTS = ("LICENSE-APACHE", "LICENSE-MIT", "docs/BEHAVIOUR.md", "docs/FORMATS.md", "docs/PROVED.md", "docs/wave.svg")
PROVENANCE = "This is a test. No gate has passed.\n"
SECONDS = 1_764_000_000
STATE = {"commit": "a" * 40, "clean": "yes", "sources": "b" * 64}
SUMS = {"program": "c" * 64, "archive": "e" * 64, "shared": "f" * 64}
RECORD = {**STATE, **SUMS}
# the arguments of examples/live.c, and what it says
LIVE = ("two_gates.aag", "two_gates.stim", "8")
LIVE_SAYS = "set: 0, 2 evaluated, 2 changed\n8 is 1 at 2 of 2 frames\n"


def need(*commands):
    for name in commands:
        if not shutil.which(name):
            raise LeftOut(f"there is no {name}")


def made(program):
    """The program, and the library beside it, if there is one."""
    library = f"{os.path.dirname(program.path)}/lib" if program.is_named else f"{REPOSITORY}/{gate.PROVED_LIBRARY}"
    return pack.Made(program.path, library if os.path.exists(f"{library}/libaig.a") else None)


def release(program, folder):
    os.mkdir(folder)
    return pack.pack(made(program), PROVENANCE, SECONDS, folder)


def look_for_library(library, tally, way, root):
    """Checks the installed library for C: programs are built with it, as pkg-config says, and run."""
    if library is None or not shutil.which("cc"):
        leave_out(way, "there is no library, or no cc")
        return
    for name, path in (("libaig.a", "lib/libaig.a"), ("libaig.so", "lib/libaig.so"), ("libaig.so", "lib/libaig.so.0")):
        tally.check(f"{way}: {path}", contents(f"{root}/{path}") == contents(f"{library}/{name}"), path)
    tally.check(f"{way}: aig.h", contents(f"{root}/include/aig.h") == contents(f"{REPOSITORY}/include/aig.h"))
    asked = [f"-I{root}/include", f"-L{root}/lib", "-laig"]
    if shutil.which("pkg-config"):
        version, asked = (supervised.run(["pkg-config", *words, f"{root}/lib/pkgconfig/aig.pc"], capture_output=True,
                                         text=True, check=False).stdout.split()
                          for words in (("--modversion",), ("--cflags", "--libs")))
        tally.compare(f"{way}: the version of aig.pc", version, [make_wheel.VERSION])
    examples = f"{root}/share/doc/aig/examples"
    for name, words, wanted in (("verdict", ("wraps.aag", "wraps.wit"), "confirmed\n"), ("live", LIVE, LIVE_SAYS)):
        supervised.run(["cc", f"{examples}/{name}.c", *asked, "-o", f"{way}_{name}"], check=True)
        done = supervised.run([os.path.abspath(f"{way}_{name}"), *words], cwd=examples, capture_output=True, text=True,
                              env={**os.environ, "LD_LIBRARY_PATH": f"{root}/lib"}, check=False)
        tally.compare(f"{way}: {name}.c", (done.returncode, done.stdout), (0, wanted))


def look_for_verdicts(program, tally, way, root):
    """Checks the installed command `aig-verdicts`: it has all of its Python and the design of its demo, runs the
    program beside it, and leaves nothing behind. The tour has re-checked a bundle with it."""
    for product, name, folder in (("python", "aig", "aig"), ("verdicts", "aig_verdicts", "aig-verdicts")):
        source, package = f"{REPOSITORY}/{product}/src/{name}", f"{root}/share/{folder}/python/{name}"
        sources = {os.path.relpath(it, source): contents(it) for kind in ("py", "v")
                   for it in glob.glob(f"{source}/**/*.{kind}", recursive=True)}
        found = {os.path.relpath(it, package): contents(it) for it in glob.glob(f"{package}/**/*", recursive=True)
                 if os.path.isfile(it)}
        tally.check(f"{way}: the Python of {folder}", found == sources, sorted(found.keys() ^ sources.keys()))
    said = supervised.run([os.path.abspath(f"{root}/bin/aig-verdicts"), "--version"], env={"PATH": os.environ["PATH"]},
                          cwd="/", stdin=DEVNULL, capture_output=True, timeout=runs.SECONDS, check=False)
    version = f"aig {pack.version_of(program.path)}".encode()
    tally.check(f"{way}: aig-verdicts", said.returncode == 0 and said.stdout.startswith(version), said)


def look_for_explanations(tally, way, command, **settings):
    """Checks the installed command `aig-explain`: it runs the program beside it, and explains the run."""
    said = supervised.run([os.path.abspath(command), "info", "/"], cwd="/", stdin=DEVNULL, capture_output=True,
                          timeout=runs.SECONDS, check=False, **settings)
    tally.compare(f"{way}: aig-explain", (said.returncode, said.stderr),
                  (3, b"aig: circuit: input or output\n  file: /\n  it is a folder: name a file\n"))


def look(program, tally, way, root, functions="zsh/site-functions"):
    """Checks an installed copy. `root` is the folder that has bin/ and share/."""
    share = f"{root}/share"
    documents = f"{share}/doc/aig"
    tally.check(f"{way}: the program", contents(f"{root}/bin/aig") == contents(program.path), root)
    pages = {os.path.basename(page): contents(page) for page in glob.glob(f"{REPOSITORY}/man/*.[15]")}
    for name, text in pages.items():
        page = f"{share}/man/man{name[-1]}/{name}"
        found = contents(page) if os.path.exists(page) else gzip.decompress(contents(f"{page}.gz"))
        tally.check(f"{way}: the page {name}", found == text, page)
    for name in ("aig", "aig-explain", "aig-verdicts"):
        bash = f"{share}/bash-completion/completions/{name}"
        asked = supervised.run(["bash", "-c", 'source "$1" && complete -p "$2"', "bash", bash, name],
                               capture_output=True,
                               text=True, check=False)
        is_taken = asked.returncode == 0 and asked.stdout.endswith(f" {name}\n")
        tally.check(f"{way}: bash takes the completion of {name}", is_taken, asked)
    for name in ("_aig", "_aig-verdicts"):
        zsh = contents(f"{share}/{functions}/{name}")
        tally.check(f"{way}: {name} for zsh", zsh == contents(f"{REPOSITORY}/completions/{name}"), zsh[:80])
    fish = contents(f"{share}/fish/vendor_completions.d/aig-verdicts.fish")
    tally.check(f"{way}: for fish", fish == contents(f"{REPOSITORY}/completions/aig-verdicts.fish"), fish[:80])
    for name in DOCUMENTS:
        tally.check(f"{way}: {name}", contents(f"{documents}/{name}") == contents(f"{REPOSITORY}/{name}"), documents)
    for page in glob.glob(f"{documents}/**/*.md", recursive=True):
        for link in re.findall(r"\]\(([^):]+)\)", contents(page).decode()):
            file = f"{os.path.dirname(page)}/{link.partition('#')[0]}" if link[0] != "#" else page
            tally.check(f"{way}: what pages link to", os.path.exists(file), f"{page}: {link}")
    modes = {oct(os.stat(it).st_mode & 0o7777) for it in (root, f"{root}/bin/aig", documents)}
    tally.compare(f"{way}: who may read it", modes, {"0o755"})
    take(runs.Program(f"{root}/bin/aig", True), f"{documents}/examples", tally)
    look_for_verdicts(program, tally, way, root)
    look_for_explanations(tally, way, f"{root}/bin/aig-explain", env={"PATH": os.environ["PATH"]})
    look_for_library(made(program).library, tally, way, os.path.abspath(root))


def install(program, tally, _):
    """A copy that `make install` made has the program, pages, completions and documents; each link of its pages leads
    to a file; the tour runs from there."""
    need("make", "bash")
    pack.install(made(program), os.path.abspath("root"), "/usr/local", PROVENANCE)
    look(program, tally, "install", "root/usr/local")


def archive(program, tally, _):
    """The same of a copy from the archive. Two releases of one program are the same bytes; CHANGELOG has the program's
    version."""
    need("make", "bash", "tar", "gzip", "objdump")
    name = release(program, "one")[0]
    top = name.removesuffix(".tar.gz")
    tally.compare("archive: its name", top, f"aig-{pack.version_of(program.path)}-x86_64-linux")
    supervised.run(["tar", "-xzf", f"one/{name}"], check=True)
    look(program, tally, "archive", top)
    tally.compare("archive: PROVENANCE", contents(f"{top}/share/doc/aig/PROVENANCE").decode(), PROVENANCE)
    sums = supervised.run(["sha256sum", "-c", "SHA256SUMS"], cwd="one", capture_output=True, text=True, check=False)
    tally.check("archive: SHA256SUMS", sums.returncode == 0 and f"{name}: OK" in sums.stdout, sums)
    for file in release(program, "two"):
        tally.check("archive: a second one is the same", contents(f"one/{file}") == contents(f"two/{file}"), file)
    versions = re.findall(r"(?m)^## (.*) \(\d{4}-\d\d-\d\d\)$", contents(f"{REPOSITORY}/CHANGELOG.md").decode())
    tally.compare("archive: the version of CHANGELOG", versions[:1], [pack.version_of(program.path)])
    versions = re.findall(r"(?m)^## (.*) \(\d{4}-\d\d-\d\d\)$", contents(f"{REPOSITORY}/verdicts/CHANGELOG.md").decode())
    tally.compare("archive: the version of CHANGELOG of aig-verdicts", versions[:1], [make_verdicts.VERSION])


def package(program, tally, _):
    """The same of a copy from the Debian packages: each file is of one of them."""
    need("make", "bash", "objdump", "dpkg-deb")
    name, other = release(program, "made")[1:3]
    version, libc = pack.version_of(program.path), pack.libc_of(program.path)
    names = ("Package", "Version", "Architecture", "Depends", "Recommends", "Suggests")
    fields = supervised.run(["dpkg-deb", "-f", f"made/{name}", *names], capture_output=True, text=True,
                            check=True).stdout
    wanted = (f"Package: aig\nVersion: {version}\nArchitecture: amd64\nDepends: libc6 (>= {libc})\n"
              "Recommends: python3 (>= 3.9)\nSuggests: aig-verdicts, gtkwave\n")
    tally.compare("package: its fields", fields, wanted)
    fields = supervised.run(["dpkg-deb", "-f", f"made/{other}", *names], capture_output=True, text=True,
                            check=True).stdout
    wanted = (f"Package: aig-verdicts\nVersion: {make_verdicts.VERSION}\nArchitecture: all\n"
              f"Depends: aig (>= {make_verdicts.NEEDS}), python3 (>= 3.9)\nRecommends: yosys, cadical, iverilog\n"
              "Suggests: gtkwave\n")
    tally.compare("package: the fields of aig-verdicts", fields, wanted)
    for file in (name, other):
        supervised.run(["dpkg-deb", "-x", f"made/{file}", f"of_{file}"], check=True)
        supervised.run(["dpkg-deb", "-x", f"made/{file}", "root"], check=True)
    files = [{os.path.relpath(it, f"of_{file}") for it in glob.glob(f"of_{file}/**/*", recursive=True)
              if os.path.isfile(it)} for file in (name, other)]
    tally.check("package: each file is of one", not files[0] & files[1], sorted(files[0] & files[1]))
    tally.check("package: verdicts are of the second", not [it for it in files[0] if "verdicts" in os.path.basename(it)
                                                           and "examples" not in it], sorted(files[0])[:9])
    look(program, tally, "package", "root/usr", "zsh/vendor-completions")
    tally.compare("package: PROVENANCE", contents("root/usr/share/doc/aig/PROVENANCE").decode(), PROVENANCE)


def in_environment(program, name, given, tally):
    """Installs the Python packages into an environment of their own, without a network, and runs tests there."""
    supervised.run([sys.executable, "-m", "venv", name], check=True, timeout=SCRIPT_SECONDS)
    library = shared(program)
    settings = {**os.environ, "AIG_PROGRAM": program.path, "AIG_LIBRARY": library or ""}
    pip = supervised.run([f"{name}/bin/pip", "install", "-q", "--no-index", "--disable-pip-version-check", *given],
                         env=settings, capture_output=True, text=True, check=False, timeout=SCRIPT_SECONDS)
    tally.compare(f"{name}: pip", (pip.returncode, pip.stderr), (0, ""))
    tally.check(f"{name}: the program", contents(f"{name}/bin/aig") == contents(program.path))
    libraries = [contents(it) for it in glob.glob(f"{name}/lib/python*/site-packages/aig/libaig.so")]
    tally.check(f"{name}: the library", libraries == ([contents(library)] if library else []))
    command = supervised.run([f"{name}/bin/aig-verdicts", "--version"], stdin=DEVNULL, capture_output=True,
                             timeout=runs.SECONDS, check=False)
    version = f"aig {pack.version_of(program.path)}".encode()
    tally.check(f"{name}: aig-verdicts", command.returncode == 0 and command.stdout.startswith(version), command)
    look_for_explanations(tally, name, f"{name}/bin/aig-explain", env={"PATH": ""})
    os.mkdir(f"demo_{name}")
    command = supervised.run([os.path.abspath(f"{name}/bin/aig-verdicts"), "demo"], env={"PATH": ""},
                             cwd=f"demo_{name}",
                             stdin=DEVNULL, capture_output=True, timeout=runs.SECONDS, check=False)
    tally.compare(f"{name}: the design of the demo", contents(f"demo_{name}/queue.v"),
                  contents(f"{runs.EXAMPLES}/queue.v"))
    tally.check(f"{name}: a demo without Yosys", command.returncode == 1 and b"no program yosys" in command.stderr,
                command)
    words = [f"{name}/bin/python", f"{REPOSITORY}/python/tests/run_package.py", "--installed"]
    settings = {setting: text for setting, text in os.environ.items() if setting not in ("AIG_PROGRAM", "AIG_LIBRARY")}
    parts = ("names", "verdicts", "bench", "libraries", *(["live"] if library else []))
    for part in parts:
        words += ["--part", part]
    ran = supervised.run([*words, program.path], env=settings, capture_output=True, text=True, check=False,
                         timeout=SCRIPT_SECONDS)
    tally.check(f"{name}: its tests", ran.returncode == 0 and ran.stdout.count(" 0 failed") == len(parts), ran)


def shared(program):
    """The shared library of the program, or nothing."""
    folder = made(program).library
    return folder and f"{folder}/libaig.so"


def wheel(program, tally, _):
    """The wheels of the Python packages are the same bytes each time; that of `aig` has the program's version. `pip
    install --no-index` takes them, and the folders python/ and verdicts/, into fresh environments; parts of
    run_package.py pass there on the program and the library that pip installed."""
    need("objdump")
    for module in ("venv", "ensurepip"):
        if importlib.util.find_spec(module) is None:
            raise LeftOut(f"Python has no {module}")
    for folder in ("one", "two", "pure"):
        os.mkdir(folder)
    given = program.path, shared(program)
    name = make_wheel.make("one", *given)
    tally.compare("wheel: a second one is the same", contents(f"one/{name}"),
                  contents(f"two/{make_wheel.make('two', *given)}"))
    verdicts = make_verdicts.make("one")
    tally.compare("wheel: a second one of verdicts", contents(f"one/{verdicts}"),
                  contents(f"two/{make_verdicts.make('two')}"))
    tally.compare("wheel: without a program", make_wheel.make("pure"), f"aig-{make_wheel.VERSION}-py3-none-any.whl")
    tally.compare("wheel: its version", make_wheel.VERSION, pack.version_of(program.path))
    in_environment(program, "of_wheel", [os.path.abspath(f"one/{it}") for it in (name, verdicts)], tally)
    # pip writes beside the sources that it installs
    for folder in ("python", "verdicts"):
        shutil.copytree(f"{REPOSITORY}/{folder}", folder, ignore=shutil.ignore_patterns("__pycache__"))
    in_environment(program, "of_folder", [os.path.abspath(it) for it in ("python", "verdicts")], tally)


def refusals(_, tally, __):
    """`make dist` refuses a tree that is not clean, a commit without its gate, and another program or library; `make
    install` takes what the gate proved only if the gate passed these sources."""
    tally.compare("a release", gate.refusal(RECORD, STATE, SUMS), None)
    for why, record, state, sums in (
        ("not clean", RECORD, {**STATE, "clean": "no"}, SUMS),
        ("no gate has passed here", None, STATE, SUMS),
        ("passed commit aaaaaaaaaaaa, and this is dddddddddddd", RECORD, {**STATE, "commit": "d" * 40}, SUMS),
        ("files that were not committed", {**RECORD, "clean": "no"}, STATE, SUMS),
        ("aig is not the one that the gate proved", RECORD, STATE, {**SUMS, "program": "d" * 64}),
        ("aig is not the one that the gate proved", RECORD, STATE, {**SUMS, "program": None}),
        ("libaig.a is not the one that the gate proved", RECORD, STATE, {**SUMS, "archive": "d" * 64}),
        ("libaig.so is not the one that the gate proved", {**STATE, "program": SUMS["program"],
                                                           "archive": SUMS["archive"]},
         STATE, {**SUMS, "shared": None}),
    ):
        reason = gate.refusal(record, state, sums)
        tally.check(f"no release: {why}", reason is not None and why in reason, reason)
    tally.check("the proved program", gate.is_proved(RECORD, STATE["sources"], SUMS))
    for name, is_proved in (
        ("no gate", gate.is_proved(None, STATE["sources"], SUMS)),
        ("other sources", gate.is_proved(RECORD, "f" * 64, SUMS)),
        ("another program", gate.is_proved(RECORD, STATE["sources"], {**SUMS, "program": "f" * 64})),
        ("no program", gate.is_proved({**RECORD, "program": "None"}, STATE["sources"], {**SUMS, "program": None})),
        ("another library", gate.is_proved(RECORD, STATE["sources"], {**SUMS, "shared": "a" * 64})),
    ):
        tally.check(f"the unproved program: {name}", not is_proved)


PARTS = {"install": install, "archive": archive, "package": package, "wheel": wheel, "refusals": refusals}

if __name__ == "__main__":
    runs.main(__doc__, PARTS)
