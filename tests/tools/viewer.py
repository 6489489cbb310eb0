"""GTKWave itself, on a screen of its own (`xvfb-run`): the signals that it shows for a dump, and their values. Its
script adds each signal as the tree of signals does, so neighbouring bits are joined into vectors."""

import re
import shutil
import subprocess

from library import supervised
from library.runs import LeftOut, write

TOOLS = ("gtkwave", "xvfb-run", "vcd2fst", "fst2vcd")

SCRIPT = """set names {}
for {set at 0} {$at < [gtkwave::getNumFacs]} {incr at} { lappend names [gtkwave::getFacName $at] }
gtkwave::addSignalsFromList $names
gtkwave::/Edit/Highlight_All
gtkwave::/Edit/Data_Format/Binary
for {set time 0} {$time < FRAMES} {incr time} {
    gtkwave::setMarker $time
    foreach name [gtkwave::getDisplayedSignals] {
        puts "VALUE $time $name [gtkwave::getTraceValueAtMarkerFromName $name]"
    }
}
flush stdout
gtkwave::/File/Quit
"""


def needs(*tools):
    for tool in tools:
        if not shutil.which(tool):
            raise LeftOut(f"{tool} is missing: apt-get install iverilog gtkwave xvfb xauth")


def shown(dump, frames):
    """The values of each signal that GTKWave shows, in binary, by its full name. Those of a vector begin with the bit
    that GTKWave takes for the most significant one."""
    write("shown.tcl", SCRIPT.replace("FRAMES", str(frames)))
    done = supervised.run(["xvfb-run", "-a", "gtkwave", "-S", "shown.tcl", dump], stdin=subprocess.DEVNULL,
                          stdout=subprocess.PIPE, stderr=subprocess.STDOUT, timeout=120, check=False)
    found = {}
    for time, name, value in re.findall(r"(?m)^VALUE (\d+) (\S+) (\S*)$", done.stdout.decode(errors="replace")):
        found.setdefault(name, {})[int(time)] = value.lower()
    return {name: [values.get(time) for time in range(frames)] for name, values in found.items()}
