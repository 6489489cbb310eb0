"""Rows on certificates: `aig strengthen`, and `cnf`, `refute` and `witness` with `--certificate`. A ring by hand, byte
for byte; each part that can fail, at the start and in a step; what is refused, and in which order; and certificates
that are cut or changed at a byte, beside an explicit search of all states."""

from library.all_states import broken_by, model_of, reaches, run_of
from library.certificate import clauses_of, formula, proof_of, strengthened
from library.circuits import write_all
from library.dump_reader import Dump
from library.plain_reader import Fault, Reader, in_order, spelled, test_parts
from library.runs import EXAMPLES, Ended, contents, refused, write
from program.certificate_rows import (
    CERTIFICATES, CHANGED, CHANGES, CIRCUITS, COMMANDS, COMMENTS, MAPPINGS, NAMED_MODEL, NO_CLAIM, NO_TWO, ONE_CLAIM,
    ONE_CLAIM_RUN, PARTS, RING, RING_BINARY, RING_FORMULA, RING_STRENGTHENED, THREE_AND_ONE, THREE_CLAIMS,
    TWO_AND_A_GATE, WORDS)
from program.rows import Rows, data


def certificates(program, tally, _):
    rows = Rows("certificates", program, tally)
    write_all()
    ring(rows)
    circuits(rows)
    mappings(rows)
    sizes(rows)
    parts(rows)
    for words in WORDS:
        ended = program.run(*words.split(" "))
        tally.check(f"certificates: {words}", (ended.status, ended.out) == (2, b"") and ended.err != b"", ended)
    refusals(rows)
    limits(rows)
    proofs(rows)
    models(rows)
    fails(rows)
    changed(rows)


def ring(rows):
    """The ring, from the circuit to the answer, and the step that fails without a claim."""
    for to, text in (("aag", RING_STRENGTHENED), ("aig", RING_BINARY)):
        rows.gives(f"a ring, to {to}", f"strengthen --to {to} --certificate claims model", text, model=RING,
                   claims=NO_TWO)
    rows.gives("the formula of a ring", "cnf --certificate claims model", RING_FORMULA)
    rows.refuses("a ring without a proof", "refute --certificate claims model proof", "proof: no refutation", proof="")
    rows.gives("a ring is unreachable", "refute --certificate claims model proof", "unreachable\n",
               proof=proof_of(clauses_of(circuit_of(RING, NO_TWO))[2]))
    rows.refuses("a claim is missing", "refute --certificate fewer model proof", "proof: step 1", fewer=ONE_CLAIM)
    rows.gives("the step that fails", "witness --certificate fewer --model found model", ONE_CLAIM_RUN,
               found="s SATISFIABLE\nv -2 3 4 0\n")
    x = spelled(circuit_of(RING, ONE_CLAIM), "aag")
    rows.gives("the claim that it breaks", "check --trace x run", "011  00 101\n101  01 110\ninitial 0\n", 1, x=x,
               run=ONE_CLAIM_RUN)
    shown = Dump(rows.run("wave", "--witness", "x", "run").out)
    rows.tally.compare("certificates: the dump of the run", (shown.of("latches"), shown.of("outputs")),
                       (["011", "101"], ["00", "01"]))


def circuit_of(model, certificate, asked=0):
    """The parts of the strengthened circuit, of texts."""
    return strengthened(Reader(data(model)).parts(), asked, Reader(data(certificate)).parts())


def binary(text):
    return spelled(in_order(Reader(data(text)).parts()), "aig")


def circuits(rows):
    """Texts by hand, and formulas, from files in both formats."""
    for name, certificate, asked, text in CIRCUITS:
        words = f"--certificate claims --property {asked} model"
        rows.gives(name, f"strengthen --to aag {words}", text, model=NAMED_MODEL, claims=certificate)
        rows.tally.compare(f"certificates: {name}, as the plain writer has it",
                           spelled(circuit_of(NAMED_MODEL, certificate, asked), "aag"), data(text))
        made = in_order(Reader(data(text)).parts())
        rows.gives(f"{name}, in binary", f"strengthen --to aig {words}", spelled(made, "aig"))
        rows.gives(f"{name}, its formula", f"cnf {words}", formula(Reader(data(text)).parts(), asked))
    for name, model, claims in (("a binary model", binary(RING), NO_TWO),
                                ("a binary certificate", RING, binary(NO_TWO)),
                                ("two binary files", binary(RING), binary(NO_TWO))):
        rows.gives(name, "strengthen --to aag --certificate claims model", RING_STRENGTHENED, model=model,
                   claims=claims)
        rows.gives(f"{name}, its formula", "cnf --certificate claims model", RING_FORMULA)
    wraps = f"{EXAMPLES}/wraps.aag"
    rows.gives("an example, and no claim", f"cnf --certificate claims {wraps}",
               formula(circuit_of(contents(wraps), NO_CLAIM)), claims=NO_CLAIM)


def mappings(rows):
    """A mapping says what symbols say, in both formats; without lines it says nothing; any other is rejected."""
    write("model", NAMED_MODEL)
    words = "--certificate claims --property 1 model"
    for name, symbols, comment in MAPPINGS:
        named, mapped = THREE_AND_ONE + symbols, data(THREE_AND_ONE + "c\n") + data(comment)
        x = spelled(circuit_of(NAMED_MODEL, named, 1), "aag")
        rows.tally.compare(f"certificates: a mapping, {name}, as the plain writer has it",
                           spelled(circuit_of(NAMED_MODEL, mapped, 1), "aag"), x)
        for kind, claims in (("by symbols", named), ("a mapping", mapped), ("a mapping, in binary", binary(mapped))):
            rows.gives(f"{kind}, {name}", f"strengthen --to aag {words}", x, claims=claims)
            rows.gives(f"{kind}, {name}, its formula", f"cnf {words}", formula(Reader(data(x)).parts(), 1))
    # All entries are the certificate's own.
    rows.gives("a mapping without lines", f"strengthen --to aag {words}",
               "aag 15 5 3 3 6 1 1\n2\n4\n16\n18\n20\n6 10 1\n8 4 8\n22 16 1\n9\n24\n26\n31\n3\n"
               "10 12 6\n12 4 2\n24 20 17\n26 22 19\n28 25 8\n30 28 27\ni0 req\nl1 state\no0 oops\nc0 quiet\n",
               claims=THREE_AND_ONE + "c\nMAPPING 0\n")
    for name, comment in COMMENTS:
        rows.refuses(f"a mapping, {name}", f"strengthen --to aag {words}", "certificate: comment",
                     claims=data(TWO_AND_A_GATE) + b"c\n" + data(comment))


def many(kind, count, literals=0):
    """A circuit of so many inputs and latches, a gate over each two of them, and as many properties and constraints.
    Each entry has a name. Every third input and latch is named by one of so many literals, if there are some."""
    sources = 2 * count
    gates = [(2 * (sources + at), 2 * (count + at), 2 * at + 1) for at in range(1, count + 1)]
    lines = [f"aag {3 * count} {count} {count} 0 {count} {count} {count}"]
    lines += [f"{2 * at}" for at in range(1, count + 1)]
    lines += [f"{2 * (count + at)} {2 * (sources + at)} {(0, 1, 2 * (count + at))[at % 3]}" for at in range(1,
                                                                                                            count + 1)]
    lines += [f"{gate[0] + at % 2}" for at, gate in enumerate(gates)] + [f"{2 * at + 1}" for at in range(1, count + 1)]
    lines += [f"{left} {a} {b}" for left, a, b in gates]
    for letter in "clbi":
        for at in range(count):
            is_shared = literals and letter in "il" and at % 3 == 0
            lines.append(f"{letter}{at} " + (f"= {7 * at % literals}" if is_shared else f"{kind}_{letter}[{at}]"))
    return "".join(line + "\n" for line in lines)


def sizes(rows):
    """Sizes over 10, 100 and 256, of names too, and a property over 10; a formula of over a block."""
    for count, more, asked in ((13, 13, 12), (13, 130, 12), (300, 13, 299), (130, 300, 128)):
        for literals in (0, 6 * count + 2):
            model, claims = many("model", count), many("claims", more, literals)
            x = circuit_of(model, claims, asked)
            name = f"{count} entries of each kind, and {more} of the certificate, {literals} literals"
            words = f"--certificate claims --property {asked} model"
            rows.gives(name, f"strengthen --to aag {words}", spelled(x, "aag"), model=model, claims=claims)
            rows.gives(f"{name}, to binary", f"strengthen --to aig {words}", spelled(in_order(x), "aig"))
            rows.gives(f"{name}, its formula", f"cnf {words}", formula(x, asked))


def model_of_parts(ones, way):
    """A model whose latch with this digit is 1: at the start, by its reset, or after a step."""
    latches = [f"{2 * at + 2} 0 {one}" if way == "start" else f"{2 * at + 2} {one}" for at, one in enumerate(ones)]
    return "".join(line + "\n" for line in ("aag 3 0 3 0 0 1", *latches, "2"))


def parts(rows):
    """Each part fails, at the start and in a step, and the others do not."""
    for part, ones in PARTS.items():
        for to in (data, binary):
            part_fails(rows, f"the {part} fails at the start, {to.__name__}",
                       (to(model_of_parts(ones, "start")), to(THREE_CLAIMS)), [ones], f"{ones}  {ones} 000\n")
            part_fails(rows, f"the {part} fails in a step, {to.__name__}",
                       (to(model_of_parts(ones, "step")), to(THREE_CLAIMS)), ["000", ones],
                       f"000  000 {ones}\n{ones}  {ones} {ones}\n")
    rows.gives("no part fails", "refute --certificate claims model proof", "unreachable\n",
               model=model_of_parts("000", "step"), claims=THREE_CLAIMS, proof="x is not read")


def part_fails(rows, name, files, states, trace):
    """The run with these states is the one that a solver's model shows, and its trace shows the part."""
    model, claims = files
    run = f"1\nb0\n{states[0]}\n" + "\n" * len(states) + ".\n"
    literals = [at if value == "1" else -at for at, value in enumerate(states[0], 2)]
    rows.refuses(f"{name}: no proof", "refute --certificate claims model proof", "proof: no refutation", model=model,
                 claims=claims, proof="")
    rows.gives(f"{name}: its run", "witness --certificate claims --model found model", run,
               found=" ".join(map(str, [*literals, 0])) + "\n")
    x = spelled(circuit_of(model, claims), "aag")
    rows.gives(f"{name}: the circuit", "strengthen --to aag --certificate claims model", x)
    rows.gives(f"{name}: the part", "check --trace x run", f"{trace}confirmed\n", run=run, x=x)


def refusals(rows):
    """What is refused, in the order in which it is looked for, by each command."""
    write("found", "0\n")
    write("proof", "")
    for command, after in COMMANDS:
        word = "strengthen" if command.startswith("strengthen") else "cnf"
        for name, certificate, message in CERTIFICATES:
            rows.refuses(f"{command}: {name}", f"{command} --certificate claims --property 7 model{after}",
                         f"certificate: {message}", model=NAMED_MODEL, claims=certificate)
        for name, certificate in (("no claim", NO_CLAIM), ("names", "aag 1 1 0 0 0\n2\ni0 = 8\n")):
            for asked in (2, 4294967295):
                words = f"{command} --certificate claims --property {asked} model{after}"
                rows.refuses(f"{words}, {name}", words, f"{word}: property", claims=certificate)
        rows.refuses(f"{command}: no property", f"{command} --certificate claims one_gate{after}", f"{word}: property",
                     claims=NO_CLAIM)
        rows.refuses(f"{command}: a refused model", f"{command} --certificate cycle cycle{after}", "circuit: cycle 2")
        rows.refuses(f"{command}: an empty model", f"{command} --certificate cycle nothing{after}",
                     "circuit: text at 0",
                     nothing="")


def limits(rows):
    """Strengthened circuits and formulas over the limit, and just within it."""
    write("large", "aag 4194303 0 0 0 0 1\n1\n")
    write("wide", "aig 2097152 2097152 0 0 0 1\n2\n")
    write("kept", "aig 1048576 1048576 0 0 0 1 1048576\n2\n" + "".join(f"{2 * at}\n" for at in range(1, 1048577)))
    write("own", "aag 1 1 0 0 0\n2\n")
    write("claim", "aag 0 0 0 1 0\n0\n")
    write("claims", NO_CLAIM)
    for command, after in COMMANDS:
        word = "strengthen" if command.startswith("strengthen") else "cnf"
        for name in ("own", "claim"):
            rows.refuses(f"{command}: over M by the certificate, {name}",
                         f"{command} --certificate {name} large{after}",
                         f"{word}: limit")
        if word == "cnf":
            rows.refuses(f"{command}: two frames over M", f"{command} --certificate claims kept{after}", "cnf: limit")
    rows.gives("M at its limit", "strengthen --to aag --certificate claims large", "aag 4194303 0 0 1 0 1\n1\n1\n")
    rows.gives("more inputs than two frames have numbers for", "strengthen --to aig --certificate claims wide",
               "aig 2097152 2097152 0 1 0 1\n2\n2\n")
    rows.refuses("inputs that nothing reads", "refute --certificate claims wide proof", "proof: no refutation", proof="")
    rows.refuses("as many claims as a circuit has entries", "strengthen --to aag --certificate many constants",
                 "strengthen: limit", many="aag 0 0 0 4194303 0\n" + "0\n" * 4194303, constants="aag 0 0 0 0 0 1\n0\n")


def proofs(rows):
    """Proofs that are refused, and those that are not read."""
    write("model", RING)
    write("claims", NO_TWO)
    for name, proof, fault in (("an empty proof", "", "no refutation"), ("comments", "c\n", "no refutation"),
                               ("a step that follows, and no more", "-5 3 0\n", "no refutation"),
                               ("the empty clause at once", "0\n", "step 1"),
                               ("the claim that the step is right", "14 0\n", "step 1"),
                               ("no proof", "x", "text at 0"), ("binary, cut off", b"a\x04", "text at 2")):
        rows.refuses(name, "refute --certificate claims model proof", f"proof: {fault}", proof=proof)
    rows.gives("propagation alone", "refute --certificate claims kept proof", "unreachable\n",
               kept="aag 1 0 1 0 0 1\n2 2\n2\n", claims=NO_CLAIM, proof="x")
    # The certificate's constraint is the negated property: as an assumption it would exclude each run that is bad.
    rows.refuses("a constraint of the certificate is no assumption", "refute --certificate claims bad_input proof",
                 "proof: no refutation", claims="aag 1 1 0 0 0 0 1\n2\n3\n", proof="")
    rows.refuses("a next state of a shared latch is not read", "refute --certificate claims rises proof",
                 "proof: no refutation", claims="aag 1 0 1 0 0 1\n2 0\n2\n", rises="aag 1 0 1 0 0 1\n2 1\n2\n")
    rows.refuses("a reset of a shared latch is not read", "refute --certificate claims starts proof",
                 "proof: no refutation", claims="aag 1 0 1 0 0 1\n2 0\n2\n", starts="aag 1 0 1 0 0 1\n2 0 1\n2\n")
    rows.refuses("a latch without a reset", "refute --certificate claims free proof", "proof: no refutation",
                 free="aag 1 0 1 0 0 1\n2 2 2\n2\n")
    excluded = "aag 1 1 0 0 0 1 1\n2\n2\n3\n"
    rows.gives("a constraint of the model", "refute --certificate claims excluded proof", "unreachable\n",
               excluded=excluded, claims=NO_CLAIM, proof=proof_of(clauses_of(circuit_of(excluded, NO_CLAIM))[2]))


def models(rows):
    """Solvers' models that are refused, and runs that break nothing."""
    write("model", RING)
    write("claims", ONE_CLAIM)
    for name, found, fault in (("no model", "s UNSATISFIABLE\n", "unsatisfiable"),
                               ("no answer", "s UNKNOWN\n", "unknown"),
                               ("no text", "", "text at 0"), ("a variable over the last", "10 11 0\n", "text at 3"),
                               ("both signs", "2 -2 0\n", "text at 2"), ("no 0", "2", "text at 1")):
        rows.refuses(name, "witness --certificate claims --model found model", f"model: {fault}", found=found)
    rows.refuses("the last variable", "witness --certificate claims --model found model", "witness: no run",
                 found="10 0\n")
    rows.refuses("a run that breaks nothing", "witness --certificate claims --model found model", "witness: no run",
                 found="2 -3 -4 0\n")
    rows.gives("a state that breaks a claim at once", "witness --certificate claims --model found model",
               "1\nb0\n110\n\n.\n", found="2 3 -4 0\n")
    rows.gives("a state that is known in part", "witness --certificate claims --model found model",
               "1\nb0\n11x\n\n.\n", found="2 3 0\n")
    # Two frames of two inputs, of which the second is the certificate's own: variables 2 to 5. Then the latch, and its own.
    # Without the second claim nothing reads those of the certificate.
    small, run = "aag 3 1 1 0 1 1\n2\n4 0\n6\n6 4 2\n", "1\nb0\n01\n0x\n1x\n.\n"
    for name, claims, found in (
            ("inputs and latches of both circuits", "aag 5 2 2 0 1 2\n2\n4\n6 6\n8 8 1\n2\n10\n10 8 4\n", "-2 4 -6 7 0\n"),
            ("inputs and latches that nothing reads", "aag 4 2 2 0 0 1\n2\n4\n6 6\n8 8 1\n2\n", "-2 3 -4 0\n")):
        rows.gives(name, "witness --certificate claims --model found model", run, model=small, claims=claims, found=found)
        rows.gives(f"{name}, the verdict", "check x run", "confirmed\n", run=run, x=spelled(circuit_of(small, claims), "aag"))


def fails(rows):
    """Files that are missing, in the order in which they are opened and read."""
    write("model", RING)
    write("claims", NO_TWO)
    write("proof", "")
    write("found", "0\n")
    for command, after in COMMANDS:
        rows.fails(f"{command}: no model", f"{command} --certificate nowhere nowhere{after}", "circuit")
        rows.fails(f"{command}: no certificate", f"{command} --certificate nowhere cycle{after}", "certificate")
        rows.fails(f"{command}: a folder for a certificate", f"{command} --certificate . cycle{after}", "certificate")
        rows.fails(f"{command}: a folder for a model", f"{command} --certificate . .{after}", "circuit")
    rows.fails("no proof before no certificate", "refute --certificate nowhere model nowhere", "proof")
    rows.fails("a folder in place of a proof", "refute --certificate claims model .", "proof")
    rows.fails("no certificate before a folder in place of a proof", "refute --certificate nowhere model .",
               "certificate")
    rows.refuses("no certificate's fault before a folder in place of a proof", "refute --certificate cycle model .",
                 "certificate: cycle 2")
    rows.fails("no certificate before no solver's model", "witness --certificate nowhere --model missing model",
               "certificate")
    rows.fails("no solver's model", "witness --certificate claims --model missing model", "model")
    rows.fails("a folder in place of a solver's model", "witness --certificate claims --model . model", "model")


def changed(rows):
    """Certificates that are cut, or changed at a byte, beside an explicit search of all states. One is accepted only
    where the model's property is unreachable."""
    right = 0
    for model, whole in CHANGED:
        circuit = Reader(data(model)).parts()
        is_reached, _ = reaches(circuit, 0)
        write("model", model)
        write("whole", proof_of(clauses_of(circuit_of(model, whole))[2]))
        cut = {data(whole)[:at] for at in range(len(whole))}
        bytewise = {data(whole)[:at] + bytes([byte]) + data(whole)[at + 1:] for at in range(len(whole)) for byte in CHANGES}
        for certificate in sorted(cut | bytewise):
            is_right = decided(rows, circuit, certificate)
            right += is_right
            rows.tally.check(f"certificates: {certificate}: what it shows", not (is_right and is_reached),
                             "it is reached")
    rows.tally.check("certificates: changed ones that are right", right > 10, right)


def decided(rows, circuit, certificate):
    """Whether a certificate is right, by the search. The program refuses it with the same message; or it writes the
    same formula, and takes a proof of it or shows the run by which it fails."""
    name = f"certificates: {certificate}"
    write("claims", certificate)
    words = ("--certificate", "claims", "model")
    try:
        claims = Reader(certificate).parts()
        test_parts(claims)
    except Fault as fault:
        rows.tally.compare(name, rows.run("refute", *words, "whole"), refused(f"certificate: {fault}"))
        return False
    try:
        x = strengthened(circuit, 0, claims, "cnf")
    except Fault as fault:
        rows.tally.compare(name, rows.run("refute", *words, "whole"), refused(f"{fault}"))
        return False
    rows.tally.compare(f"{name}: its formula", rows.run("cnf", *words), Ended(0, formula(x), b""))
    broken = broken_by(x)
    if broken is None:
        write("proof", proof_of(clauses_of(x)[2]))
        rows.tally.compare(name, rows.run("refute", *words, "proof"), Ended(0, b"unreachable\n", b""))
        return True
    ended = rows.run("refute", *words, "whole")
    is_refused = (ended.status, ended.out) == (1, b"") and ended.err.startswith(b"aig: proof: ")
    rows.tally.check(f"{name}, wrong", is_refused, ended)
    write("found", model_of(x, broken))
    rows.tally.compare(f"{name}: how it fails", rows.run("witness", "--model", "found", *words),
                       Ended(0, run_of(x, broken), b""))
    return False
