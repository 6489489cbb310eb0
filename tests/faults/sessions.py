"""A session of `aig shell` whose allocations and calls fail, each one in turn. A line that finds no memory answers so
and does nothing; a file that cannot be written stays as it was, the answer says why, and the session goes on. A session
is killed before each of its calls: each file has its old text or the whole new one."""

import os
import re
import signal

from faults.kept import DESIGN, NEW_DESIGN, NEW_ROWS, ROWS, new_files
from faults.refusing import Refusing
from library.runs import Ended, contents, write

WORDS = ("shell", "design", "rows")
EDITS = b"gate 6 3 4\nadd\nset 1 i0 0\n"
SAVE = b"save design rows\n"
AFTER = b"show 6 i0\n"
EDITED = b"6 = !i0 and i1\n"
TABLE = b"frame 0 1\n6     0 x\ni0    1 0\n"
NO_MEMORY = b"no: out of memory\n"
REFUSED = re.compile(rb"no: (design|rows) is not written: [^\n]+\n")
# Lines that only ask, with their answers.
QUERIES = ((b"show 6 i0 i1\n", b"frame 0\n6     1\ni0    1\ni1    1\n"), (b"why 6\n", b"6=1 at 0: i0=1 i1=1\n"),
           (b"gate 6\n", b"6 = i0 and i1\n"), (b"diff\n", b"no difference\n"), (b"names\n", b"i0 i1 o0\n"),
           (b"check\n", b"the circuit has no bad state property\n"))


def sessions(program, tally, _):
    prepare()
    queries(Refusing(program, "refuse_allocation"), tally)
    edits(Refusing(program, "refuse_allocation"), tally)
    beneath = Refusing(program, "refuse_call")
    for call in ("file", "fsync", "fchmod", "rename", "statx", "open"):
        files(beneath, tally, call)
    streams(beneath, tally)
    kills(beneath, tally)


def prepare():
    for name in new_files():
        os.remove(name)
    write("design", DESIGN)
    write("rows", ROWS)


def left():
    return [contents("design"), contents("rows")], new_files()


def tells_memory(ended):
    return ended.status == 3 and ended.out == b"" and re.fullmatch(rb"aig: ([a-z]+: )?memory\n", ended.err) is not None


def queries(beneath, tally):
    lines = b"".join(line for line, _ in QUERIES)
    wanted = b"".join(b"(?:%s|%s)" % (re.escape(answer), NO_MEMORY) for _, answer in QUERIES)
    whole, calls = beneath.counted(*WORDS, input=lines, REFUSE=0)
    tally.compare("sessions: queries", whole, Ended(0, b"".join(answer for _, answer in QUERIES), b""))
    for number in range(1, calls + 1):
        ended = beneath.run(*WORDS, input=lines, REFUSE=number)
        is_answered = ended.status == 0 and ended.err == b"" and re.fullmatch(wanted, ended.out)
        tally.check(f"sessions: queries, allocation {number} of {calls}", tells_memory(ended) or is_answered, ended)


def edits(beneath, tally):
    """A row or a file that finds no memory is as before; so is the frame that is set where there is none."""
    wanted = re.compile(b"(?:" + re.escape(EDITED) + rb"|no: [^\n]*\n)*"
                        rb"(?:frame [01 ]+\n6 +[01x ]+\ni0 +[01x ]+\n)?(?:unsaved: [a-z ]+\n)?")
    prepare()
    whole, calls = beneath.counted(*WORDS, input=EDITS + SAVE + AFTER, REFUSE=0)
    tally.compare("sessions: edits", (whole, left()), (Ended(0, EDITED + TABLE, b""), ([NEW_DESIGN, NEW_ROWS], [])))
    for number in range(1, calls + 1):
        prepare()
        ended = beneath.run(*WORDS, input=EDITS + SAVE + AFTER, REFUSE=number)
        name = f"sessions: edits, allocation {number} of {calls}"
        is_answered = ended.status == 0 and ended.err == b"" and wanted.fullmatch(ended.out)
        tally.check(name, tells_memory(ended) or is_answered, ended)
        (design, rows), new = left()
        is_whole = design in (DESIGN, NEW_DESIGN) and rows in (ROWS, b"11\nxx\n", NEW_ROWS) and not new
        tally.check(f"{name}, the files", is_whole, (design, rows, new))


def files(beneath, tally, call):
    """Each call of this name in turn. The circuit's file may have its name where the second does not get its own."""
    prepare()
    lines = EDITS + SAVE + AFTER
    whole, most = beneath.counted(*WORDS, input=lines, STEP=1, CALL=call)
    done = ([NEW_DESIGN, NEW_ROWS], [])
    tally.compare(f"sessions: {call}", (whole, left()), (Ended(0, EDITED + TABLE, b""), done))
    refused = 0
    for number in range(1, most + 1):
        prepare()
        ended = beneath.run(*WORDS, input=lines, STEP=1, CALL=call, REFUSE=number)
        name = f"sessions: {call} {number} of {most} fails"
        behind = TABLE + b"unsaved: circuit and run\n"
        said = ended.out[len(EDITED):-len(behind)]
        if ended.status == 0 and ended.out == EDITED + said + behind and REFUSED.fullmatch(said):
            refused += 1
            (design, rows), _ = left()
            tally.check(f"{name}, the files", design in (DESIGN, NEW_DESIGN) and rows == ROWS, (design, rows))
        else:
            is_whole = ended == whole and left() == done
            tally.check(name, is_whole or (ended.status == 3 and left() == ([DESIGN, ROWS], [])), ended)
    tally.check(f"sessions: {call}, refusals", refused > 0, f"none of {most} calls was refused by an answer")


def streams(beneath, tally):
    """A line that cannot be read, and an answer that cannot be written."""
    failed = b"aig: shell: input or output\n"
    for call in ("read", "write"):
        prepare()
        whole, most = beneath.counted(*WORDS, input=EDITS + AFTER, CALL=call)
        told = 0
        for number in range(1, most + 1):
            ended = beneath.run(*WORDS, input=EDITS + AFTER, CALL=call, REFUSE=number)
            is_told = (ended.status, ended.err) == (3, failed) and whole.out.startswith(ended.out)
            told += is_told
            is_other = ended == whole or (ended.status == 3 and ended.out == b"")
            tally.check(f"sessions: {call} {number} of {most} fails", is_told or is_other, ended)
        tally.check(f"sessions: {call}", told > 0, "no failure was told")


def kills(beneath, tally):
    lines = EDITS + SAVE
    prepare()
    most = beneath.counted(*WORDS, input=lines, CALL="any")[1]
    for number in range(1, most + 1):
        prepare()
        ended = beneath.run(*WORDS, input=lines, CALL="any", REFUSE=number, KILL=1)
        (design, rows), _ = left()
        name = f"sessions: killed before call {number} of {most}"
        tally.compare(name, (ended.status, ended.err), (-signal.SIGKILL, b""))
        is_whole = (design, rows) in ((DESIGN, ROWS), (NEW_DESIGN, ROWS), (NEW_DESIGN, NEW_ROWS))
        tally.check(f"{name}, the files", is_whole, (design, rows))
