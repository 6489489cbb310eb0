"""Two circuits side by side."""

import random

import aig
from package.common import example, raised


def miters(_, tally, __):
    """Two circuits side by side, beside the runs of each by itself."""
    counter, fifo = example("counter.aag"), example("fifo.aag")
    chance = random.Random(7)
    for name, left, right in (("itself", counter, counter), ("formats", fifo, aig.Circuit(fifo.to("aig"))),
                              ("another", counter, edited(counter))):
        both = aig.miter(left, right)
        rows = ["".join(chance.choice("01") for _ in left.inputs) for _ in range(40)]
        one, other, trace = left.simulate(rows), right.simulate(rows), both.simulate(rows)
        for section in ("outputs", "states"):
            wanted = [a + b for a, b in zip(getattr(one, section), getattr(other, section))]
            tally.compare(f"{name}: the {section} of both", getattr(trace, section), wanted)
        wanted = [f"{side}.{it}" for side in ("left", "right") for it in left.outputs]
        tally.compare(f"{name}: the names", both.outputs, wanted)
        differ = next((at for at in range(40) if one.outputs[at] != other.outputs[at]), None)
        tally.compare(f"{name}: whether they differ", differ is not None, name == "another")
        error = raised(both.witness, rows)
        tally.compare(f"{name}: where they differ", None if error else len(both.witness(rows).rows) - 1, differ)
        tally.compare(f"{name}: the property", both.properties, ["differ"])
    turned = aig.Circuit("aag 3 2 0 1 1\n2\n4\n6\n6 2 5\ni0 b\ni1 a\no0 y\n")
    plain = aig.Circuit("aag 3 2 0 1 1\n2\n4\n6\n6 2 5\ni0 a\ni1 b\no0 y\n")
    rows = ["00", "01", "10", "11"]
    for by, turn in (("name", -1), ("position", 1)):
        both = aig.miter(plain, turned, by)
        expected = [plain.simulate([row])["y"] != turned.simulate([row[::turn]])["y"] for row in rows]
        tally.compare(f"matched by {by}", [raised(both.witness, [row]) is None for row in rows], expected)
    each_output(tally)
    many_outputs(tally)
    refused = {
        "an input more": ("aag 1 1 0 1 0\n2\n2\ni0 a\no0 y\n", "aag 2 2 0 1 0\n2\n4\n2\ni0 a\ni1 b\no0 y\n"),
        "another name": ("aag 1 1 0 1 0\n2\n2\ni0 a\no0 y\n", "aag 1 1 0 1 0\n2\n2\ni0 b\no0 y\n"),
        "a name twice": ("aag 2 2 0 1 0\n2\n4\n2\ni0 a\ni1 a\no0 y\n",) * 2,
        "no outputs": ("aag 1 1 0 0 0\n2\n",) * 2,
        "another output": ("aag 1 1 0 1 0\n2\n2\no0 y\n", "aag 1 1 0 1 0\n2\n2\no0 z\n"),
    }
    words = {"an input more": "'b' of the second", "another name": "'a' of the first", "no outputs": "no outputs",
             "a name twice": "two entries have the name 'a'", "another output": "'y' of the first"}
    for name, texts_of in refused.items():
        error = raised(aig.miter, *map(aig.Circuit, texts_of))
        tally.check(name, isinstance(error, ValueError) and words[name] in str(error), error)
    odd = aig.Circuit(b"aag 1 1 0 1 0\n2\n2\ni0 \xff b\no0 y  z\n")
    tally.compare("odd names", (aig.miter(odd, odd).inputs, aig.miter(odd, odd).outputs),
                  (["\udcff b"], ["left.y  left.z", "right.y  right.z"]))
    tally.check("no way to match", isinstance(raised(aig.miter, counter, counter, "order"), ValueError))
    free = aig.Circuit("aag 1 0 1 1 0\n2 2 2\n2\nl0 q\n")
    kept = aig.miter(free, free, starts=True)
    tally.check("starts by themselves", bool(aig.miter(free, free).check("1\nb0\n01\n\n.\n")))
    tally.compare("starts that are matched", kept.check("1\nb0\n010\n\n.\n").line, "constraint 0 0")
    tally.compare("a constraint of the start alone", kept.check("1\nb0\n000\n\n\n.\n").line, "not bad")
    fixed = aig.Circuit("aag 1 0 1 1 0\n2 2 0\n2\nl0 q\n")
    tally.check("a start without a match", isinstance(raised(aig.miter, free, fixed, starts=True), ValueError))
    held = aig.Circuit("aag 1 1 0 1 0 0 1\n2\n2\n3\n")
    tally.compare("constraints of both", aig.miter(held, held).check("1\nb0\n\n1\n.\n").line, "constraint 0 0")
    one, other = (aig.Circuit(f"aag 2 2 0 1 0 0 1\n2\n4\n2\n{literal}\n") for literal in (3, 5))
    found = [aig.miter(one, other).check(f"1\nb0\n\n{row}\n.\n").line for row in ("00", "10", "01")]
    tally.compare("constraints of each", found, ["not bad", "constraint 0 0", "constraint 0 1"])


def many_outputs(tally):
    """Circuits of 70 outputs, of which one differs."""
    lines = "".join(f"{2 * at + 2}\n" for at in range(70))
    plain = aig.Circuit(f"aag 70 70 0 70 0\n{lines}{lines}")
    for at in (0, 63, 64, 69):
        turned = [str(2 * it + 2 + (it == at)) for it in range(70)]
        both = aig.miter(plain, aig.Circuit(f"aag 70 70 0 70 0\n{lines}" + "\n".join([*turned, ""])))
        found = both.check(f"1\nb0\n\n{'0' * 70}\n.\n").line
        tally.compare(f"of 70 outputs the one at {at} differs", found, "confirmed")
    both = aig.miter(plain, plain)
    tally.compare("of 70 outputs none differs", both.check(f"1\nb0\n\n{'01' * 35}\n.\n").line, "not bad")


def each_output(tally):
    """Circuits of five outputs and five uninitialised latches, of which one differs."""
    lines = "".join(f"{2 * at + 2} {2 * at + 3} {2 * at + 2}\n" for at in range(5))
    free = aig.Circuit("aag 5 0 5 6 0\n" + lines + "".join(f"{2 * at + 2}\n" for at in range(5)) + "1\n")
    both = aig.miter(free, free, starts=True)
    tally.compare("the names of all", both.latches, [f"{side}.l{at}" for side in ("left", "right") for at in range(5)]
                  + ["started"])
    for at in range(5):
        other = "".join("1" if it == at else "0" for it in range(5))
        witness = f"1\nb0\n00000{other}\n\n.\n"
        tally.check(f"output {at} differs", bool(aig.miter(free, free).check(witness)))
        tied = witness.replace(other + "\n", other + "0\n")
        tally.compare(f"latch {at} starts elsewhere", both.check(tied).line, "constraint 0 0")
    tally.compare("all start the same", both.check("1\nb0\n01100011000\n\n\n.\n").line, "not bad")
    follows, turns = (aig.Circuit(f"aag 2 1 1 1 0\n2\n4 {following} 4\n4\n") for following in (2, 3))
    later = aig.miter(follows, turns, starts=True)
    tally.compare("they may differ later", later.check("1\nb0\n000\n1\nx\n.\n").line, "confirmed")
    constants = [aig.Circuit(f"aag 0 0 0 2 0\n{one}\n{other}\n") for one, other in ((0, 1), (0, 0), (1, 1))]
    for one in constants:
        for other in constants:
            line = aig.miter(one, other).check("1\nb0\n\n\n.\n").line
            tally.compare("constants", line, "not bad" if one is other else "confirmed")


def edited(counter):
    """The counter with another next state."""
    with counter.bench(["10"]) as bench:
        bench.rewire(counter.gates[3][0], counter.gates[3][1] ^ 1, counter.gates[3][2])
        return bench.save()[0]
