"""Formulas of small random circuits (`aig cnf`), beside library/part.py and library/reference.py: each is the text of the
part that the property reads, unrolled, without the gates that no bad literal depends on. Where cadical is installed, it
gives this formula and that of all gates of the whole circuit the same answer in each third case. A model of the smaller
one is a run that `aig check` confirms, and `aig refute` takes a proof of it."""

import shutil
import subprocess

from at_random.cases import Wrong, each
from at_random.formulas import heading_of, names_of
from at_random.replays import circuit_to_check
from library import supervised
from library.certificate import signed
from library.part import part_of
from library.reference import Parts, unrolled
from library.runs import Ended, write

SATISFIABLE, UNSATISFIABLE = 10, 20  # cadical's statuses


class Formula:
    """The formula of a circuit that starts where a goal does: its variables, its bad literals and the gates."""

    def __init__(self, goal, parts, frames, bad):
        self.goal = goal
        new = Parts(unrolled(parts, frames))
        self.variables = new.maximum + 1
        self.goals = [new.bad[frame * len(parts.bad) + bad] for frame in range(frames)]
        self.gates = [(left, *sides) for left, sides in new.gates.items()]

    def cone(self):
        """The gates that the bad literals depend on."""
        wanted = {literal & ~1 for literal in self.goals}
        for left, *sides in reversed(self.gates):
            if left in wanted:
                wanted |= {side & ~1 for side in sides}
        return [gate for gate in self.gates if gate[0] in wanted]

    def text(self, gates):
        """The formula with these gates."""
        goals = [signed(literal) for literal in self.goals]
        clauses = {"within": [goals], "step": [*([-goal] for goal in goals[:-1]), goals[-1:]],
                   "alive": [goals[-1:]]}[self.goal]
        clauses.insert(0, [-1])
        for left, first, second in (map(signed, gate) for gate in gates):
            clauses += [[-left, first], [-left, second], [left, -first, -second]]
        lines = "".join(f"c b {goal} {frame}\n" for frame, goal in enumerate(goals))
        lines += f"p cnf {self.variables} {len(clauses)}\n"
        return lines + "".join(" ".join(map(str, [*clause, 0])) + "\n" for clause in clauses)


class Asked:
    """What is asked of a circuit, the formula of the part that this reads, and that of the whole circuit."""

    def __init__(self, text, goal, frames, bad):
        self.goal, self.frames, self.bad = goal, frames, bad
        self.parts = Parts(text)
        self.parts.is_live = False
        self.options = ["--frames", str(frames), "--property", str(bad)]
        self.heading = heading_of(text, frames, bad)
        if goal == "step":
            self.parts.latches = [[lit, following, lit] for lit, following, _ in self.parts.latches]
            self.options = ["--step", *self.options]
            self.heading = self.heading.replace("cnf ", "cnf --step ", 1)
            frames += 1
        if goal == "alive":
            self.parts.bad, bad = [1], 0
            self.options = ["--alive", "--frames", str(frames)]
            self.heading = f"c aig cnf --alive --frames {frames} \n"
        part = part_of(self.parts, self.parts.bad[bad])
        self.names = names_of(text, self.parts, part, frames)
        self.of_part, self.of_all = Formula(goal, part, frames, 0), Formula(goal, self.parts, frames, bad)

    def text(self):
        """What `cnf` writes."""
        return self.heading + self.names + self.of_part.text(self.of_part.cone())

    def whole(self):
        """The formula of the whole circuit, with all gates."""
        return self.of_all.text(self.of_all.gates)


def answer(formula, proof):
    """The status of cadical, and its model."""
    done = supervised.run(["cadical", "-q", formula, proof], stdin=subprocess.DEVNULL, stdout=subprocess.PIPE,
                          stderr=subprocess.DEVNULL, check=False)
    return done.returncode, done.stdout


def confirm(program, asked, text, model):
    """The run of a model of the formula is confirmed, for the circuit that starts where the formula does."""
    if asked.goal == "alive":
        return
    write("model", model)
    said = program.run("witness", "--model", "model", *asked.options, "circuit")
    if (said.status, said.err) != (0, b""):
        raise Wrong(f"{asked.goal}: {said} for cadical's model")
    write("witness", said.out)
    lines = text.split("\n")
    for at, (lit, following, reset) in enumerate(asked.parts.latches, 1 + len(asked.parts.inputs)):
        lines[at] = f"{lit} {following} {reset}"
    write("started", "\n".join(lines))
    if program.run("check", "started", "witness") != Ended(0, b"confirmed\n", b""):
        raise Wrong(f"{asked.goal}: the run of cadical's model is not confirmed")


def refute(program, within, step, alive, answers):
    """The proofs of the formulas that no assignment satisfies are taken."""
    taken = []
    if answers["within"] == UNSATISFIABLE:
        taken.append((within.options, ["within.drat"], f"unreachable within {within.frames}\n"))
        if answers["step"] == UNSATISFIABLE:
            taken.append((["--step", "step.drat", *step.options[1:]], ["within.drat"], "unreachable\n"))
    if answers["alive"] == UNSATISFIABLE:
        taken.append((alive.options, ["alive.drat"], f"no run of {alive.frames} frames\n"))
    for options, proof, line in taken:
        got = program.run("refute", *options, "circuit", *proof)
        if got != Ended(0, line.encode(), b""):
            raise Wrong(f"{options}: {got} for cadical's proof")


def case(program, rng, has_solver):
    """Compares three formulas of a circuit. Returns how many gates they leave out, and the solver's answers."""
    text, parts = circuit_to_check(rng)
    write("circuit", text)
    frames, bad = rng.randrange(1, 6), rng.randrange(len(parts.bad))
    asked = {goal: Asked(text, goal, frames, bad) for goal in ("within", "step", "alive")}
    is_solved = rng.randrange(3) == 0 and has_solver
    answers, left_out = {}, 0
    for goal, it in asked.items():
        left_out += len(it.of_all.gates) - len(it.of_part.cone())
        got = program.run("cnf", *it.options, "circuit")
        if got != Ended(0, it.text().encode(), b""):
            raise Wrong(f"{goal}: {got}, wanted {it.text()}")
        if not is_solved:
            continue
        write("cone.cnf", got.out)
        write("whole.cnf", it.whole())
        answers[goal], model = answer("cone.cnf", f"{goal}.drat")
        whole, _ = answer("whole.cnf", "whole.drat")
        if answers[goal] != whole or whole not in (SATISFIABLE, UNSATISFIABLE):
            raise Wrong(f"{goal}: cadical's status {answers[goal]}, and {whole} for the whole circuit")
        if whole == SATISFIABLE:
            confirm(program, it, text, model)
    if is_solved:
        refute(program, asked["within"], asked["step"], asked["alive"], answers)
    return left_out, list(answers.values())


def cones(program, tally, chosen):
    has_solver = shutil.which("cadical") is not None
    found = []
    each("cones", tally, chosen, lambda rng: found.append(case(program, rng, has_solver)))
    answers = [status for it in found for status in it[1]]
    solved = f"{answers.count(SATISFIABLE)} satisfiable, {answers.count(UNSATISFIABLE)} not" if has_solver else "no solver"
    return f"cases of seed {chosen.seed}, {sum(it[0] for it in found)} gates left out, {solved}: "
