"""Files that were broken at random: bytes, numbers and lines of the examples, of the designs and of small random
circuits are changed, and every subcommand runs on what comes out.

A run ends with status 0, and then nothing on standard error, or with status 1, and then one line there that is one of
those of docs/BEHAVIOUR.md. No signal ends it. Its time and memory are linear in its files and in the M and the cells
that they ask for. (Status 2 and 3 are not to come: the arguments are right, and there are files and memory.)
What a circuit is converted to is written back as it stands, converts both ways, and has the circuit's traces. Not that
a broken file gets the right answer."""

import re
import resource
import subprocess

from at_random.cases import Wrong, each
from library import broken, supervised
from library.runs import DESIGNS, EXAMPLES, contents, contents_of, write

LINE = re.compile(
    rb"aig: ((circuit|certificate): (text at \d+|limit|counts|range|definition|(redefined|undefined|reset|cycle) \d+)"
    rb"|certificate: (comment|symbol [il]\d+)|strengthen: (property|limit)"
    rb"|stimulus: ((character in|length of) line \d+|unfinished|limit)"
    rb"|bench: limit|unroll: (no frames|liveness|limit)|cnf: (no frames|property|limit)|select: property|cuts: line \d+|cut: limit"
    rb"|proof: (text at \d+|step \d+|no refutation)"
    rb"|why: (name|frame)|witness: (text|property|limit|no run))\n"
)
VERDICT = re.compile(rb"([01x]* [01x]* [01x]* [01x]*\n)*(confirmed|initial \d+|constraint \d+ \d+|not bad)\n")
# A run that takes longer is ended: there is no bound as great.
SECONDS = 120


class Runs:
    """Runs of the program within bounds, and how they went."""

    def __init__(self, program):
        self.program = program.path
        self.number = self.accepted = 0
        self.slowest = 0.0

    def run(self, work, *words):
        """Runs `aig WORDS` and answers its status and output, within bounds linear in `work`."""
        self.number += 1
        status, usage = self.measured(words)
        got, said = contents("out"), contents("err")
        work += len(got)
        taken = usage.ru_utime + usage.ru_stime
        self.slowest = max(self.slowest, taken)
        if status not in (0, 1):
            raise Wrong(f"{words}: status {status}, {said[:200]!r}")
        is_verdict = words[0] in ("check", "reduce") and VERDICT.fullmatch(got)
        is_result = is_verdict or (status == 0 and words[0] != "check")
        if (is_result and said) or not (is_result or LINE.fullmatch(said)):
            raise Wrong(f"{words}: status {status} with {said[:200]!r}")
        if status == 1 and words[0] not in ("sim", "wave", "check", "reduce") and got:
            raise Wrong(f"{words}: it is refused and writes {got[:200]!r}")
        if taken > 1 + work * 1e-6:
            raise Wrong(f"{words}: {taken:.1f} s of processor time, for a work of {work}")
        if usage.ru_maxrss * 1024 > 64e6 + 200 * work:
            raise Wrong(f"{words}: {usage.ru_maxrss} KB, for a work of {work}")
        return status, got

    def measured(self, words):
        """The status of a run and what it used; its output and what it said are files."""
        with open("out", "wb") as out, open("err", "wb") as err:
            try:
                with supervised.Popen([self.program, *words], SECONDS, stdin=subprocess.DEVNULL, stdout=out,
                                      stderr=err) as child:
                    usage = child.usage()
            except subprocess.TimeoutExpired:
                raise Wrong(f"{words}: it takes over {SECONDS} seconds") from None
        return child.returncode, usage

    def converts(self, work, data, rows):
        """A circuit that is accepted converts both ways and comes back, and keeps its traces."""
        status, text = self.run(work, "toaig", "--to", "aag", "circuit")
        other, binary = self.run(work, "toaig", "--to", "aig", "circuit")
        if status != other:
            raise Wrong("one format is accepted and the other is not")
        if status:
            return False
        self.accepted += 1
        write("text", text)
        write("binary", binary)
        _, again = self.run(work, "toaig", "--to", "aag", "text")
        if again != text:
            raise Wrong("text is not written back as it stands")
        _, same = self.run(work, "toaig", "--to", "aig", "text")
        _, back = self.run(work, "toaig", "--to", "aag", "binary")
        write("back", back)
        _, end = self.run(work, "toaig", "--to", "aig", "back")
        if not binary == same == end:
            raise Wrong("binary, by text and by itself: not the same bytes")
        short = re.sub(rb"^(a[ai]g(?: \d+){5}(?:(?: \d+)*? [1-9]\d*)?)(?: 0)*\n", rb"\1\n", data, count=1)
        if data.startswith(b"aig ") and binary != short and not re.search(rb"(?m) 0$", data):
            raise Wrong("a binary file is not written back as it stands")
        write("rows", rows)
        traces = [self.run(work, "sim", name, "rows") for name in ("circuit", "text", "binary", "back")]
        if traces.count(traces[0]) != len(traces):
            raise Wrong("the converted circuits have other traces")
        return True

    def replays(self, work):
        """The trace and the dump of a witness's run are refused where its check is, and nothing of them is written
        then. The verdict comes after the trace."""
        status, verdict = self.run(work, "check", "circuit", "witness")
        told = contents("err")
        traced, trace = self.run(work, "check", "--trace", "circuit", "witness")
        if (traced, contents("err")) != (status, told) or not trace.endswith(verdict):
            raise Wrong("the trace of a witness is judged otherwise than the witness")
        waved, dump = self.run(work, "wave", "--witness", "circuit", "witness")
        if (waved, contents("err")) != (1 if told else 0, told):
            raise Wrong("the dump of a witness is refused otherwise than the witness")
        if told and (verdict or trace or dump):
            raise Wrong("a witness is refused, and something is written")
        self.reduces(work, status, verdict, told)
        self.explains(work, told)

    def reduces(self, work, status, verdict, told):
        """A witness is reduced where its check confirms it, and else judged as its check does."""
        values = len(contents("witness"))
        reduced, got = self.run(work * (values + 1), "reduce", "circuit", "witness")
        if contents("err") == b"aig: bench: limit\n" and not told:
            return
        if (reduced, contents("err")) != (status, told) or (status == 1 and got != verdict):
            raise Wrong("a witness is judged otherwise where it is reduced")

    def explains(self, work, told):
        """A witness is explained where its check judges it, unless the cells of its run are too many for a bench."""
        explained, got = self.run(work * 20, "why", "--witness", "circuit", "witness")
        said = contents("err")
        if said != b"aig: bench: limit\n" and (explained, said) != (1 if told else 0, told):
            raise Wrong("a witness is refused otherwise where it is explained")
        if explained == 0 and not got:
            raise Wrong("nothing is said of a witness")

    def strengthens(self, work):
        """A circuit that is strengthened is written in both formats. With no certificate it has the formula that the
        circuit has with the certificate, but for the first line, which names the property."""
        status, text = self.run(work, "strengthen", "--to", "aag", "--certificate", "certificate", "circuit")
        told = contents("err")
        other, _ = self.run(work, "strengthen", "--to", "aig", "--certificate", "certificate", "circuit")
        if (other, contents("err")) != (status, told):
            raise Wrong("one format is strengthened and the other is not")
        formula = self.run(work, "cnf", "--certificate", "certificate", "circuit")
        if status:
            if (formula[0], contents("err")) != (1, told.replace(b"strengthen: ", b"cnf: ")):
                raise Wrong("a formula of what is not strengthened")
            return
        write("strengthened", text)
        if self.run(work, "toaig", "--to", "aag", "strengthened") != (0, text):
            raise Wrong("a strengthened circuit is not written back as it stands")
        write("no_claim", "aag 0 0 0 0 0\n")
        status, again = self.run(work, "cnf", "--certificate", "no_claim", "strengthened")
        if (status, *again.split(b"\n")[1:]) != (formula[0], *formula[1].split(b"\n")[1:]):
            raise Wrong("a strengthened circuit has another formula")

    def asks(self, work, name, rows):
        """The workbench prints the trace that the simulator writes."""
        write("script", "t\n")
        status, got = self.run(work, "bench", name, "rows", "script")
        trace_status, trace = self.run(work, "sim", name, "rows")
        if status == 0 and (trace_status, got) != (0, trace + b".\n"):
            raise Wrong("the workbench tells another trace")
        if status == 1 and trace_status == 0 and len(rows) < 65536:
            raise Wrong("the workbench refuses what is simulated")


def case(runs, sources, designs, rng):
    """Files, changes, and a run of every subcommand."""
    whole = rng.choice((rng.choice(sources), broken.circuit(rng), broken.circuit(rng)))
    other = rng.choice((rng.choice(sources), broken.circuit(rng), rng.choice(designs)))
    if rng.randrange(50) == 0:
        whole = rng.choice(designs)
    data = broken.changed(rng, whole, other)
    most, inputs, latches = broken.counts_of(data)
    width, states = min(inputs, 300), min(latches, 300)
    good = broken.stimulus(rng, width)
    rows = broken.changed(rng, good, other)
    lines = broken.changed(rng, broken.script(rng, min(most, 60), width), rows)
    write("circuit", data)
    frames = max(good.count(b"\n"), rows.count(b"\n")) + lines.count(b"+") + 2
    work = len(data) + len(rows) + len(lines) + (most + 1) * frames + lines.count(b"\n") * frames * 1000
    if runs.converts(work, data, good):
        runs.asks(work, "circuit", good)
    write("rows", rows)
    simulated, _ = runs.run(work, "sim", "circuit", "rows")
    told = contents("err")
    if (runs.run(work, "wave", "circuit", "rows")[0], contents("err")) != (simulated, told):
        raise Wrong("the dump is refused otherwise than the trace")
    write("script", lines)
    runs.run(work, "bench", "circuit", "rows", "script")
    status, got = runs.run(work + 5 * most, "unroll", "--frames", "3", "--to", "aag", "circuit")
    if status == 0:
        write("unrolled", got)
        if runs.run(work + 5 * len(got), "toaig", "--to", "aag", "unrolled") != (0, got):
            raise Wrong("an unrolled circuit is not written back as it stands")
    runs.run(work + 5 * most, "cnf", "--frames", "3", "circuit")
    runs.run(work, "select", "--to", "aag", "--property", "0", "circuit")
    write("cuts", broken.changed(rng, b"f 2\nr 4\nf 6\nc 0\nr 8\n"[:4 * rng.randrange(6)], lines))
    runs.run(work, "cut", "--to", "aag", "--cuts", "cuts", "circuit")
    runs.run(work, "witness", "circuit", "rows")
    write("witness", broken.changed(rng, broken.witness(rng, width, states), rows))
    runs.replays(work)
    claims = re.sub(rb"(?m)^([il]\d+) .*", lambda at: at[1] + b" = %d" % rng.randrange(2 * inputs + 4),
                    broken.circuit(rng))
    certificate = broken.changed(rng, rng.choice((whole, claims, broken.circuit(rng))), other)
    write("certificate", certificate)
    runs.strengthens(work + len(certificate) + 5 * (most + broken.counts_of(certificate)[0]))


def hostile(program, tally, chosen):
    sources, designs = contents_of(EXAMPLES, (".aag", ".aig")), contents_of(DESIGNS, (".v",))
    resource.setrlimit(resource.RLIMIT_CORE, (0, 0))
    runs = Runs(program)
    each("hostile", tally, chosen, lambda rng: case(runs, sources, designs, rng))
    return (f"cases of seed {chosen.seed}, {runs.number} runs, {runs.accepted} circuits accepted, at most "
            f"{runs.slowest:.2f} s a run: ")
