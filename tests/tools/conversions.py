"""Circuit files that Yosys and ABC write: they convert, and ABC proves the results equivalent. What of their files is
refused is refused as docs/FORMATS.md says ("Files of other tools")."""

import gzip
import os
import re

from library.plain_reader import spelled
from library.runs import DESIGNS, contents, refused, write
from tools.external import LOGIC, Tools, parts_of, short, shuffled

YOSYS_DESIGNS = ("adder", "multiplier", "counter", "shift_register", "fifo", "arbiter")
# Options of write_aiger. `-miter` takes no asserts, so they are removed before it; and none writes a `cover` statement.
OPTIONS = ("", "-symbols", "-zinit", "-symbols -zinit", "-I -O -B -L", "-symbols -miter")
GENERATED = ("adder -N 8 -a", "wide_adder -N 64 -a", "multiplier -N 8 -m", "booth_multiplier -N 6 -b", "sorter -N 8 -s",
             "wide_multiplier -N 24 -m")


def conversions(program, tally, _):
    files = Files(program, tally)
    files.of_yosys()
    files.of_abc()
    files.controls()
    files.refusals()
    files.simulation()


class Files:
    """Checks of files that the tools write."""

    def __init__(self, program, tally):
        self.program, self.tally, self.tools = program, tally, Tools()

    def check(self, name, is_right, why=""):
        self.tally.check(f"conversions: {name}", is_right, f"{why} {self.tools.last_lines()}")

    def converted(self, file, to, name):
        """Writes the converted file; whether it was accepted."""
        ended = self.program.run("toaig", "--to", to, file)
        write(name, ended.out)
        return ended.status == 0

    def same_bytes(self, name, wanted, to, file):
        """The conversion is the tool's own file, but for counts of 0 at the end of the header."""
        ended = self.program.run("toaig", "--to", to, file)
        is_same = ended.status == 0 and ended.out in (contents(wanted), short(contents(wanted)))
        self.check(f"{name}: the tool's bytes", is_same, ended.err)

    def renumbered(self, name, text, binary):
        """The text, shuffled, is converted to a circuit that ABC proves equivalent to the tool's binary file, with the
        same counts, names and comment."""
        mixed = write("shuffled.aag", spelled(shuffled(parts_of(text)), "aag"))
        again = self.program.run("toaig", "--to", "aag", mixed)
        self.check(f"{name}, shuffled, as it stands", again.out == contents(mixed), again.err)
        is_right = self.converted(mixed, "aig", "got.aig")
        if is_right:
            got, given = parts_of("got.aig"), parts_of(text)
            is_right = short(contents(binary)).split(b"\n")[0] == contents("got.aig").split(b"\n")[0]
            is_right = is_right and (got.names, got.comment) == (given.names, given.comment)
        self.check(f"{name}, shuffled, renumbered: proved", is_right and self.tools.proved(binary, "got.aig"))

    def binary_file(self, name, file):
        """The checks of a file of which the tool writes the binary format alone."""
        self.same_bytes(f"{name}, binary to binary", file, "aig", file)
        self.check(f"{name}, binary to text", self.converted(file, "aag", "text.aag"))
        self.same_bytes(f"{name}, and back to binary", file, "aig", "text.aag")
        self.renumbered(name, "text.aag", file)

    def of_yosys(self):
        """Each design in both formats, with each set of options."""
        for design in YOSYS_DESIGNS:
            commands = f"read_verilog -formal {DESIGNS}/{design}.v; prep -flatten -top {design}; async2sync; memory_map; {LOGIC}"
            for place, options in enumerate(OPTIONS):
                if "-miter" in options:
                    commands += f"; chformal -remove; opt_clean; write_blif {design}.blif"
                commands += f"; write_aiger {options} {design}.{place}.aig"
                commands += f"; write_aiger -ascii {options} {design}.{place}.aag"
            if not self.tools.yosys(commands):
                self.check(f"yosys {design}", False, "no files")
                continue
            for place, options in enumerate(OPTIONS):
                name, text, binary = f"yosys {design} {options}", f"{design}.{place}.aag", f"{design}.{place}.aig"
                self.same_bytes(f"{name}, text to text", text, "aag", text)
                self.same_bytes(f"{name}, binary to binary", binary, "aig", binary)
                self.same_bytes(f"{name}, binary to text", text, "aag", binary)
                self.same_bytes(f"{name}, text to binary", binary, "aig", text)
                self.renumbered(name, text, binary)
        self.variety()

    def variety(self):
        """What the files are to have shown, so that a tool that writes less is noticed."""
        arbiter, fifo, register = (parts_of(f"{name}.1.aag") for name in ("arbiter", "fifo", "shift_register"))
        counts = [len(each) for each in (arbiter.bad, arbiter.constraints, arbiter.justice, arbiter.fairness)]
        self.check("yosys: an arbiter with bad, justice and fairness properties", counts == [1, 0, 2, 2])
        counts = [len(fifo.bad), len(fifo.constraints)]
        self.check("yosys: a queue with bad properties and constraints", counts == [2, 2])
        names = (b"l", 0, b"bits[0] value[0]") in register.names
        self.check("yosys: a shift register with two names for each latch, on one line", names)
        unknown = sum(state == reset for state, _, reset in fifo.latches)
        self.check("yosys: a queue with 16 uninitialised latches", unknown == 16)
        ones = sum(reset == 1 for _, _, reset in register.latches)
        self.check("yosys: a shift register with 2 latches that are reset to 1", ones == 2)

    def of_abc(self):
        """Arithmetic that ABC generates, and the designs above, rewritten by it."""
        for generated in GENERATED:
            design, options = generated.split(" ", 1)
            self.tools.abc(f"gen {options} made.blif; read_blif made.blif; strash; write_aiger {design}.1.aig; "
                           f"write_aiger -s {design}.2.aig; &get -n; &w -n {design}.3.aig; dc2; "
                           f"write_aiger -s {design}.4.aig")
            for place, words in ((1, "write_aiger"), (2, "write_aiger -s"), (3, "&w -n"), (4, "rewritten")):
                self.binary_file(f"abc {design}, {words}", f"{design}.{place}.aig")
            is_read = self.converted(f"{design}.1.aig", "aag", "text.aag")
            is_read = is_read and self.tools.yosys("read_aiger text.aag; write_aiger got.aig")
            is_proved = is_read and self.tools.proved(f"{design}.1.aig", "got.aig")
            self.check(f"abc {design}, binary to text: read by yosys, proved", is_proved)
        for design in ("counter", "shift_register", "fifo", "arbiter"):
            self.tools.abc(f"read_blif {design}.blif; strash; write_aiger {design}.a.aig; "
                           f"write_aiger -s {design}.b.aig; dc2; scorr; dretime; write_aiger -s {design}.c.aig; "
                           f"&get; &w -n {design}.d.aig")
            made = {"a": "write_aiger", "b": "write_aiger -s", "c": "rewritten", "d": "rewritten, &w -n"}
            for place, words in made.items():
                self.binary_file(f"abc {design}, {words}", f"{design}.{place}.aig")
        self.tools.abc("read_aiger fifo.1.aig; write_aiger -s fifo.e.aig")
        fifo = parts_of("fifo.e.aig")
        counts = [len(fifo.outputs), len(fifo.bad), len(fifo.constraints)]
        self.check("abc: a queue with bad properties and constraints", counts == [0, 8, 2])
        self.binary_file("abc fifo, with constraints", "fifo.e.aig")

    def controls(self):
        """ABC finds a circuit that was changed at one place, so that the proofs are not idle."""
        register, adder = parts_of("shift_register.0.aag"), parts_of("adder.0.aag")
        states = register.latches
        place = next(place for place, (_, _, reset) in enumerate(states) if reset == 1)
        started = [*states[:place], (*states[place][:2], 0), *states[place + 1:]]
        stuck = [(states[0][0], 0, states[0][2]), *states[1:]]
        self.changed("another reset", "shift_register.0", register._replace(latches=started))
        self.changed("another next state", "shift_register.0", register._replace(latches=stuck))
        self.changed("another output", "shift_register.0", register._replace(outputs=[0, *register.outputs[1:]]))
        self.changed("another bad state", "shift_register.0", register._replace(bad=[2, *register.bad[1:]]))
        self.changed("another output without latches", "adder.0", adder._replace(outputs=[2, *adder.outputs[1:]]))

    def changed(self, name, file, parts):
        write("changed.aag", spelled(parts, "aag"))
        is_other = parts != parts_of(f"{file}.aag") and self.converted("changed.aag", "aig", "got.aig")
        is_told = is_other and not self.tools.proved(f"{file}.aig", "got.aig")
        self.check(f"control: {name}", is_told and re.search("asserted|NOT EQUIVALENT", self.tools.said) is not None)

    def refusals(self):
        self.tools.abc("gen -N 8 -a made.blif; read_blif made.blif; strash; write_aiger -c refused.1.aig; "
                       "write_aiger -u refused.2.aig; &get; &w refused.3.aig; &w -n accepted.3.aig; "
                       "&w -u refused.4.aig")
        self.tools.yosys(f"read_verilog {DESIGNS}/adder.v; prep -top adder; techmap; abc -g AND -fast; opt_clean; "
                         "write_xaiger -ascii refused.5.aag")
        text, binary = contents("adder.0.aag"), contents("adder.0.aig")
        write("refused.6.aag", text.replace(b"\n", b"\r\n"))
        write("refused.7.aig.gz", gzip.compress(binary))
        # The first byte that differs is the one that follows the letter c.
        records = len(os.path.commonprefix([contents("refused.3.aig"), contents("accepted.3.aig")]))
        extension = re.search(rb"(?m)^ch", contents("refused.5.aag")).start() + 1
        for name, at, file in (
                ("abc write_aiger -c", 0, "refused.1.aig"),
                ("abc write_aiger -u", os.path.getsize("refused.2.aig"), "refused.2.aig"),
                ("abc &w", records, "refused.3.aig"),
                ("abc &w -u", os.path.getsize("refused.4.aig"), "refused.4.aig"),
                ("yosys write_xaiger", extension, "refused.5.aag"),
                ("a text file with carriage returns", text.index(b"\n"), "refused.6.aag"),
                ("a compressed file", 0, "refused.7.aig.gz")):
            ended = self.program.run("toaig", "--to", "aag", file)
            self.check(f"{name} is refused", ended == refused(f"circuit: text at {at}"), ended)
        write("accepted.4.aig", contents("refused.4.aig") + b"\n")
        self.same_bytes("abc &w -u, with a newline behind it", "accepted.4.aig", "aig", "accepted.4.aig")
        data = gzip.decompress(contents("refused.7.aig.gz"))
        unpacked = self.program.run("toaig", "--to", "aig", "/dev/stdin", input=data)
        self.check("a compressed file, unpacked into the standard input", unpacked.out == binary, unpacked.err)

    def simulation(self):
        """Yosys runs a design that drives itself, and `aig sim` writes the same outputs at each clock."""
        frames = 200
        sources = " ".join(f"{DESIGNS}/{name}" for name in sorted(os.listdir(DESIGNS)) if name.endswith(".v"))
        self.tools.yosys(f"read_verilog {sources}; prep -flatten -top driven; sim -clock clk -n {frames} "
                         f"-vcd driven.vcd; memory_map; {LOGIC}; write_aiger driven.aig")
        dump = contents("driven.vcd").decode()
        signal = re.search(r"(?m)^\$var \S+ \d+ (\S+) out\b", dump)[1]
        changes, time = {}, 0
        for line in dump.splitlines():
            if line.startswith("#"):
                time = int(line[1:])
            elif line.startswith("b") and line.split(" ")[1:] == [signal]:
                changes[time] = line.split(" ")[0][1:]
        wanted, last = [], None
        for frame in range(frames):
            last = changes.get(10 * frame, last)
            wanted.append(last)
        write("driven.stim", "0\n" * frames)
        ended = self.program.run("sim", "driven.aig", "driven.stim")
        got = [line.split(" ")[2][::-1] for line in ended.out.decode().splitlines()]
        self.check(f"yosys sim: the same outputs in {frames} frames", got == wanted, ended.err)
