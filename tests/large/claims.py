"""Small files that claim millions of entries and are refused: they take no more memory than an empty circuit, but for
a page or two. The resident size of a run is to follow what is read, and not what a header claims."""

import subprocess

from library import supervised
from library.runs import write

MANY = 4194303
# At most so many KB over an empty circuit.
SLACK = 1024

CLAIMS = (
    f"aig {MANY} {MANY - 1} 1 0 0\n",
    f"aag {MANY} {MANY} 0 0 0\n",
    f"aig {MANY} 0 {MANY} 0 0\n",
    f"aig {MANY} 0 0 0 {MANY}\n",
    f"aag {MANY} 0 0 0 {MANY}\n",
    f"aag 0 0 0 {MANY} 0\n",
    f"aag 0 0 0 0 0 {MANY}\n",
    f"aag 0 0 0 0 0 0 0 {MANY}\n",
    f"aag 0 0 0 0 0 0 0 1\n{MANY}\n",
    f"aig {MANY} {MANY} 0 0 0\ni{MANY - 1} a\ni{MANY - 1} a\n",
)


def size_of(program, text):
    """The exit status and the greatest resident size in KB."""
    write("circuit", text)
    words = [program.path, "toaig", "--to", "aag", "circuit"]
    with supervised.Popen(words, stdout=subprocess.DEVNULL, stderr=subprocess.DEVNULL) as child:
        usage = child.usage()
    return child.returncode, usage.ru_maxrss


def claims(program, tally, _):
    status, empty = size_of(program, "aag 0 0 0 0 0\n")
    tally.compare("claims: an empty circuit", status, 0)
    for text in CLAIMS:
        status, size = size_of(program, text)
        is_small = status == 1 and size <= empty + SLACK
        tally.check(f"claims: {text!r}", is_small, f"status {status}, {size - empty} KB over an empty circuit")
