"""Sources as a simulator reads them that knows no assertions.

Each assertion, assumption and cover becomes a `$display` of its value. `$past` and its like become registers. A free
value loses its driver. No line moves."""

from __future__ import annotations

import re
from typing import List, NamedTuple, Optional, Tuple

from .structs import Structs
from .words import MUTE, NotReplayed, Words

CHECKS = ("assert", "assume", "cover", "restrict")
# Where a run begins, `$past` has the value of this macro.
BEFORE = "AIG_BEFORE"
_PAST = {"$past": "{0}", "$stable": "(({1}) === {0})", "$changed": "(({1}) !== {0})", "$rose": "(!{0} && ({1}))",
         "$fell": "({0} && !({1}))"}
# What comes before a name in its declaration: the kind, the sign, the range and other names.
_KIND = r"\b(?:input|output|inout|reg|wire|logic|integer)\b"
_DECLARED = (r"\b(input|output|inout|reg|wire|logic|integer)\b(?:\s+(?:reg|wire|logic)\b)?\s*(signed\b)?\s*"
             rf"((?:\[[^\]]*\])*)\s*(?:(?:(?!{_KIND})[^;()])*?,\s*)?")
_OF_ONE_BIT = re.compile(r"&&|\|\||[=!]==?|[<>]=?(?![<>])|^\s*!")
# A signal, or a part of a struct.
_OF_TYPE = re.compile(r"[A-Za-z_]\w*(?:\.[A-Za-z_]\w*)*")
_PROCEDURES = ("always", "always_ff", "always_comb", "always_latch", "initial", "final")


class Check(NamedTuple):
    """An assertion, an assumption or a cover of the sources.

    block  where it is: `clock` (a block at an edge), `comb`, `initial`, `task` or `module`
    """

    kind: str
    file: str
    first: int
    last: int
    label: str
    block: str

    @property
    def place(self) -> str:
        return f"{self.file}:{self.last}"


class Adapted(Words):
    """A preprocessed source as a simulator reads it.

    text    the source. Check K prints `aig value K VALUE SCOPE`, and a block with the checks J to K first prints
            `aig begin J K SCOPE` when it runs.
    checks  its checks
    steps   how far `$past` looks back
    """

    def __init__(self, source: str):
        super().__init__(source)
        self._edits: List[Tuple[int, int, str]] = []
        self._clock: Optional[str] = None
        self._head = 0  # where the procedure begins
        self._block_kind = "module"
        self._pasts = self.steps = 0
        self._structs = Structs(source)
        self.checks: List[Check] = []
        self._walk()
        self.text = self._edited()

    def _edited(self) -> str:
        """The source with all edits. Edits of one place come in their order."""
        parts, at = [], 0
        for start, end, new in sorted(self._edits, key=lambda it: it[0]):
            lost = self._source.count("\n", start, end) - new.count("\n")
            parts += [self._source[at:start], new, "\n" * lost]
            at = end
        return "".join([*parts, self._source[at:]])

    def _edit(self, start: int, end: int, new: str) -> None:
        self._edits.append((start, end, new))

    # -- modules and statements

    def _walk(self) -> None:
        i = 0
        while i < len(self._tokens):
            text = self._text(i)
            if text in _PROCEDURES:
                i = self._procedure(i)
            elif text in CHECKS:
                i = self._check(i, False, i > 1 and self._text(i - 1) == ":")
            elif text in ("property", "sequence", "covergroup"):
                raise self._not_replayed(i, f"`{text}`")
            elif text == "function":
                while i < len(self._tokens) and self._text(i) != "endfunction":
                    i = self._word(i, True)
            elif text == "task":
                i = self._task(i)
            else:
                i = self._word(i, False)

    def _task(self, i: int) -> int:
        """The token after a task. The checks in it are statements."""
        self._block_kind = "task"
        while self._text(i) not in ("endtask", ""):
            has_label = self._text(i + 1) == ":" and self._text(i + 2) in CHECKS
            if has_label or self._text(i) in CHECKS:
                i = self._check(i + 2 * has_label, True, has_label)
            else:
                i = self._word(i)
        self._block_kind = "module"
        return i + 1

    def _procedure(self, i: int) -> int:
        self._head = self._tokens[i].start
        first, at = len(self.checks), len(self._edits)
        begin = self._after_event(i + 1)
        is_once = self._text(i) in ("initial", "final")
        self._block_kind = "initial" if is_once else "comb" if self._clock is None else "clock"
        end = self._statement(begin)
        if len(self.checks) > first:
            display = f'begin $display("aig begin {first} {len(self.checks) - 1} %m"); '
            self._edits.insert(at, (self._tokens[begin].start, self._tokens[begin].start, display))
            self._edit(self._tokens[end - 1].end, self._tokens[end - 1].end, " end")
        self._clock, self._block_kind = None, "module"
        return end

    def _after_event(self, i: int) -> int:
        """The token after `@ (..)`, `@ *` or nothing. The clock of a block is its first edge."""
        if self._text(i) != "@":
            return i
        if self._text(i + 1) != "(":
            return i + 2
        end = self._after_group(i + 1)
        words = [self._text(k) for k in range(i + 2, end - 1)]
        if words[:1] in (["posedge"], ["negedge"]):
            is_plain = len(words) < 3 or words[2] in ("or", ",")
            self._clock = " ".join(words[:2] if is_plain else words)
        return end

    def _statement(self, i: int) -> int:
        """The token after the statement at token i."""
        text = self._text(i)
        if not text:
            raise self._not_replayed(i, "a statement has no end")
        if text == "(" and self._text(i + 1) == "*":
            return self._statement(self._after_group(i))
        if re.match(r"[A-Za-z_\\]", text) and self._text(i + 1) == ":" and self._text(i + 2) in CHECKS:
            return self._check(i + 2, True, True)
        if text in ("begin", "fork"):
            return self._block(i)
        if re.match(r"[A-Za-z_\\]", text) and self._text(i + 1) == ":":
            return self._statement(i + 2)
        if text == "do":
            return self._statement(self._statement(i + 1))
        if text in ("unique", "unique0", "priority", "forever"):
            return self._statement(i + 1)
        if text == "if":
            i = self._statement(self._expression(i + 1))
            return self._statement(i + 1) if self._text(i) == "else" else i
        if text in ("case", "casez", "casex"):
            return self._case(i)
        if text in ("for", "while", "repeat", "foreach", "wait"):
            return self._statement(self._expression(i + 1))
        if text in ("@", "#"):
            return self._statement(self._after_group(i + 1))
        if text in CHECKS:
            return self._check(i, True, False)
        while self._text(i) not in (";", ""):
            i = self._word(i)
        return i + 1

    def _block(self, i: int) -> int:
        i += 3 if self._text(i + 1) == ":" else 1
        while self._text(i) not in ("end", "join", "join_any", "join_none"):
            i = self._statement(i)
        return i + 3 if self._text(i + 1) == ":" else i + 1

    def _case(self, i: int) -> int:
        i = self._expression(i + 1)
        while self._text(i) != "endcase":
            while self._text(i) not in (":", "default", ""):
                i = self._after_group(i)
            i += 1 + (self._text(i) == "default" and self._text(i + 1) == ":")
            i = self._statement(i)
        return i + 1

    def _expression(self, i: int) -> int:
        """The token after the group at token i, whose words are adapted."""
        end = self._after_group(i)
        while i < end:
            i = self._word(i)
        return end

    # -- words

    def _word(self, i: int, is_statement: bool = True) -> int:
        """The token after a word, or after a function with its arguments. Outside of statements, `$error` is about
        parameters."""
        text = self._text(i)
        if is_statement and MUTE.fullmatch(text):
            end = self._after_call(i)
            self._edit(self._tokens[i].start, self._tokens[end - 1].end, "")
            return end
        if text in _PAST and self._text(i + 1) == "(":
            return self._past(i)
        if text == "$initstate":
            end = i + 3 if self._text(i + 1) == "(" else i + 1
            self._edit(self._tokens[i].start, self._tokens[end - 1].end, "aig_tb.initstate")
            return end
        if text in ("$anyseq", "$anyconst"):
            return self._free(i)
        if text in ("$allseq", "$allconst", "$sampled", "s_eventually"):
            raise self._not_replayed(i, f"`{text}`")
        return i + 1

    def _free(self, i: int) -> int:
        """A wire that has a free value loses its driver: the testbench forces it."""
        end = i + 3 if self._text(i + 1) == "(" else i + 1
        is_driver = self._text(i - 1) == "=" and self._text(end) in (";", ",")
        if not is_driver or not re.match(r"[A-Za-z_]", self._text(i - 2)):
            raise self._not_replayed(i, f"`{self._text(i)}` in an expression")
        start = i - 3 if self._text(i - 3) == "assign" else i - 1
        self._edit(self._tokens[start].start, self._tokens[end - 1].end, "")
        return end

    def _past(self, i: int) -> int:
        """A register has the value of the expression at the last edge of the clock."""
        end = self._after_group(i + 1)
        inside = self._source[self._tokens[i + 1].end:self._tokens[end - 1].start]
        parts = [" ".join(it.split()) for it in _split(inside)]
        if self._clock is None or len(parts) > 2 or "$" in inside:
            raise self._not_replayed(i, f"`{self._text(i)}` outside of a block at a clock, or inside of another one")
        steps = int(parts[1]) if len(parts) == 2 and parts[1].isdigit() else 1
        width = "" if self._text(i) in ("$rose", "$fell") else self._width(parts[0], i)
        self._pasts, self.steps = self._pasts + 1, max(self.steps, steps)
        names = [f"aig_past_{self._pasts}_{k}" for k in range(steps)]
        moves = " ".join(f"{to} <= {of};" for to, of in zip(names, [parts[0], *names]))
        declared = ", ".join(f"{it} = `{BEFORE}" for it in names)
        self._edit(self._head, self._head, f"reg {width} {declared}; always @({self._clock}) begin {moves} end ")
        new = _PAST[self._text(i)].format(names[-1], parts[0])
        self._edit(self._tokens[i].start, self._tokens[end - 1].end, new)
        return end

    def _width(self, text: str, i: int) -> str:
        """The range of an expression, where that is plain."""
        if _OF_ONE_BIT.search(text):
            return ""
        match = re.fullmatch(r"([A-Za-z_]\w*)\s*(?:\[([^\]:]*)\]|\[([^\]]*):([^\]]*)\])?", text)
        if match and match[3]:
            return f"[({match[3]})-({match[4]}):0]"
        begin = max(self._source.rfind("module ", 0, self._head), 0)
        of_type = self._structs.width(text, begin, self._head) if _OF_TYPE.fullmatch(text) else None
        if of_type is not None:
            return of_type.declared
        declared = match and re.search(rf"{_DECLARED}\b{match[1]}\b\s*(\[)?", self._source[begin:])
        if not match or not declared:
            raise self._not_replayed(i, f"the width of `{text}`")
        kind, sign, bits, is_array = declared.groups()
        if match[2] is not None and not is_array:
            return ""
        return "signed [31:0]" if kind == "integer" else f"{'signed ' if sign else ''}{bits}"

    def _check(self, i: int, is_statement: bool, has_label: bool) -> int:
        """The token after a check, which becomes a `$display`."""
        kind, start, at = self._text(i), self._tokens[i].start, i
        label = ""
        if has_label:
            label, start = self._text(i - 2).lstrip("\\"), self._tokens[i - 2].start
        i += 2 if self._text(i + 1) == "property" else 1
        if self._text(i) != "(":
            raise self._not_replayed(at, f"`{kind} {self._text(i)}`")
        inside = self._source[self._tokens[i].start:self._tokens[self._after_group(i) - 1].end]
        if self._text(i + 1) in ("eventually", "s_eventually"):
            return self._without(start, self._after_group(i), is_statement)
        if self._text(i + 1) == "@" or "|->" in inside or "|=>" in inside:
            raise self._not_replayed(at, "a property with a clock or a sequence")
        display = f'$display("aig value {len(self.checks)} %b %m", !(!('
        self._edit(start, self._tokens[i].end, f"{'' if is_statement else 'always @* '}{display}")
        end = self._expression(i)
        if self._text(end) != ";":
            raise self._not_replayed(at, "an assertion with an action")
        self._edit(self._tokens[end - 1].start, self._tokens[end].end, ")));")
        file, first = self._lines.place(self._tokens[at].start)
        _, last = self._lines.place(self._tokens[end - 1].start)
        self.checks.append(Check(kind, file, first, last, label, self._block_kind))
        return end + 1


    def _without(self, start: int, end: int, is_statement: bool) -> int:
        """The token after a check that asks for liveness, which no run of a simulator decides."""
        self._edit(start, self._tokens[end].end, ";" if is_statement else "")
        return end + 1


def _split(text: str) -> List[str]:
    """The parts between commas that are in no parentheses."""
    parts, depth = [""], 0
    for letter in text:
        depth += (letter in "([{") - (letter in ")]}")
        if letter == "," and depth == 0:
            parts.append("")
        else:
            parts[-1] += letter
    return parts
