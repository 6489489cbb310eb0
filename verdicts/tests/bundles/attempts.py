"""Two versions of a design as rows: those in which a failure tries to hide, and those in which none does. A letter is
what is known of each assertion, in the order of the lines: F fails, P holds, B holds within 4 frames, S within 2 frames,
U is undecided. `// is NAME` names a row that has another name than its line, and `// no row` one that has no row."""

from __future__ import annotations

from typing import Dict, List, NamedTuple, Optional


class Attempt(NamedTuple):
    """The old source and the new one, what is known of their assertions, the exit status, and the words of the rows."""

    name: str
    old: str
    new: str
    before: str
    now: str
    status: int
    words: List[str]
    old_options: Optional[Dict[str, object]] = None
    new_options: Optional[Dict[str, object]] = None
    old_more: Optional[Dict[str, str]] = None
    new_more: Optional[Dict[str, str]] = None


def defined(*macros):
    return {"defines": list(macros)}


NEAR = "module m;\n  always @(posedge clk) begin\n    {}\n  end\nendmodule\n"
TWO = "module m;\n  {}\n  {}\nendmodule\n"


def near(text):
    return NEAR.format(text)


def two(one, other):
    return TWO.format(one, other)


def edited(name, text, one, other):
    """An assertion that fails, in a text with one piece and with another one."""
    return Attempt(name, text % one, text % other, "F", "F", 5, ["edited"])


ATTEMPTS = [
    edited("in the place of an old one", near("assert (n != %s);"), "3", "2"),
    edited("under the label of an old one", near("a: assert (n != %s);"), "3", "2"),
    Attempt("under an exchanged label", two("a: assert (x);", "b: assert (y);"), two("b: assert (x);", "a: assert (y);"),
            "F P", "P F", 5, ["edited", "edited"]),
    Attempt("on an exchanged line", two("assert (x);", "assert (y);"), two("assert (y);", "assert (x);"),
            "F P", "F P", 5, ["edited", "mended"]),
    Attempt("beside an old one in its line", near("assert (x);"), near("assert (x); assert (y);"), "F", "F", 5,
            ["edited"]),
    Attempt("one that is deleted", two("a: assert (x);", "b: assert (y);"), two("", "b: assert (y);"), "F P", "P", 4,
            ["gone", "as before"]),
    Attempt("one that is a comment", two("assert (x);", "b: assert (y);"), two("// assert (x); // no row", "b: assert (y);"),
            "F P", "P", 4, ["gone", "as before"]),
    Attempt("one under an ifdef", "assert (x);\nb: assert (y);\n",
            "`ifdef OFF\nassert (x); // no row\n`endif\nb: assert (y);\n", "F P", "P", 4, ["gone", "as before"]),
    Attempt("one whose text holds", near("a: assert (n != 3);"), near("a: assert (n < 9);"), "F", "P", 4, ["edited"]),
    Attempt("behind a new assumption", near("a: assert (x);"), near("a: assert (x);\n    assume (q);"), "F", "P", 4,
            ["mended"]),
    Attempt("behind a stronger assumption", two("a: assert (x);", "assume (p);"), two("a: assert (x);", "assume (p && q);"),
            "F", "P", 4, ["mended"]),
    Attempt("behind an assumption of a macro", "`define RULE(x) assert (x) // no row\n`RULE(p);\na: assert (x);\n",
            "`define RULE(x) assume (x)\n`RULE(p);\na: assert (x);\n", "F", "P", 4, ["mended"]),
    Attempt("behind a stronger assumption of a macro", "`define RULE(x) assume (x)\n`RULE(p);\na: assert (x);\n",
            "`define RULE(x) assume (x && q)\n`RULE(p);\na: assert (x);\n", "F", "P", 4, ["mended"]),
    Attempt("behind an instance with an assumption", "a: assert (x);\nassume (p); // is u0.f.v:2\n",
            "a: assert (x);\nassume (p); // is u1.f.v:2\n", "F", "P", 4, ["mended"]),
    edited("under another `if`", near("if (%s)\n      a: assert (x);"), "p", "q"),
    edited("in a block under another `if`", near("if (%s) begin\n      y <= 1;\n      assert (x);\n    end"), "p", "q"),
    edited("in a block in a block under another `if`",
           near("if (%s) begin\n      if (r) begin\n        assert (x);\n      end\n    end"), "p", "q"),
    edited("after another `else`", near("if (%s) y <= 1; else\n      assert (x);"), "p", "q"),
    edited("in a `case` of another value",
           near("case (%s)\n      1: y <= 1;\n      2: assert (x);\n    endcase"), "p", "q"),
    edited("in another item of a `case`",
           near("case (p)\n      1: y <= 1;\n      %s: assert (x);\n    endcase"), "2", "3"),
    edited("at another clock", "always @(posedge %s)\n  assert (x);\n", "c", "d"),
    edited("in a macro", "`define OK (n != %s)\nassert (`OK);\n", "3", "2"),
    edited("in a macro of a macro", "`define K %s\n`define OK (n != `K)\nassert (`OK);\n", "3", "2"),
    Attempt("in a macro from outside", "assert (`OK);\n", "assert (`OK);\n", "F", "F", 5, ["edited"],
            defined("OK=n != 3"), defined("OK=n != 2")),
    Attempt("in a macro of another file", "assert (`OK);\n", "assert (`OK);\n", "F", "F", 5, ["edited"], None, None,
            {"h.vh": "`define OK n != 3\n"}, {"h.vh": "`define OK n != 2\n"}),
    edited("in a constant", "localparam K = %s;\nassert (n != K);\n", "3", "2"),
    edited("in a parameter of a module",
           "module m #(parameter W = 4, K = %s) (input c);\nassert (n != K);\nendmodule\n", "3", "2"),
    edited("in a function", "function ok(input [3:0] n);\nok = n != %s;\nendfunction\nassert (ok(n));\n", "3", "2"),
    edited("in a property", "property p;\n@(posedge c) n != %s;\nendproperty\nassert property (p);\n", "3", "2"),
    Attempt("within a smaller bound", near("a: assert (x);"), near("a: assert (x);"), "F", "S", 4, ["weaker"]),
    Attempt("in a search without an answer", near("a: assert (x);"), near("a: assert (x);"), "F", "U", 4, ["weaker"]),
    Attempt("in a row that is left out", near("a: assert (x);"), near("a: assert (x);"), "F", "-", 4, ["weaker"]),
    Attempt("without the question of its `if`", near("a: assert (x);"), near("a: assert (x);"), "F", "P", 4, ["mended"],
            {"conditions": True}, {"conditions": False}),
    Attempt("as another of one name", "assert (x); // is a#0\nassert (x); // is a#1\n",
            "assert (x); // is a#0\nassert (x); // is a#1\nassert (x); // is a#2\n", "F P", "F F P", 5,
            ["edited", "edited", "new"]),
    Attempt("as a cover", near("a: assert (x);"), near("a: cover (x);"), "P", "P", 5, ["new", "gone"]),
    Attempt("in another instance", near("assert (x); // is u0.a"), near("assert (x); // is u1.b"), "F", "F", 5, ["edited"]),
    Attempt("in a block comment", near("a: assert (x);\n    b: assert (y);"),
            near("/* a: assert (x); // no row\n    */ b: assert (y);"), "F P", "P", 4, ["gone", "as before"]),
    Attempt("in another file", near("assert (x);"), "", "F", "F", 5, ["edited"], None, None, None,
            {"g.v": near("assert (x);")}),
    Attempt("in another module", "module m;\nassert (x);\nendmodule\n\n\nmodule n;\nendmodule\n",
            "module m;\nendmodule\n\n\nmodule n;\nassert (x);\nendmodule\n", "F", "F", 5, ["edited"]),
    Attempt("one that was not there", near("a: assert (x);"), near("a: assert (x);\n    b: assert (y);"), "P", "P F", 5,
            ["new", "as before"]),
    Attempt("a cover that is not reached any more", near("a: cover (x);"), near("a: cover (x);"), "F", "P", 5, ["broken"]),
    Attempt("without any assertion", "a: assert (x);\n", "\n", "F", "", 4, ["gone"]),
]

HARMLESS = [
    Attempt("a comment", near("assert (x);"), f"// one more\n{near('assert (x);')}", "F", "F", 0, ["still fails"]),
    Attempt("a comment in its line", near("assert (x);"), near("assert (x); // must be"), "F", "F", 0, ["still fails"]),
    Attempt("spaces", near("assert (x);"), near("  assert ( x ) ;"), "F", "F", 0, ["still fails"]),
    Attempt("a known failure", near("a: assert (x);"), near("y <= 2;\n    a: assert (x);"), "F", "L", 0, ["still fails"]),
    Attempt("one more that holds", near("assert (x);"), near("assert (x);\n    assert (y);"), "F", "F P", 0,
            ["new", "still fails"]),
    Attempt("one more before it", near("assert (x);"), near("assert (y);\n    assert (x);"), "F", "P F", 0,
            ["new", "still fails"]),
    Attempt("a mended bug", near("assert (x);"), near("y <= 2;\n    assert (x);"), "F", "P", 0, ["mended"]),
    Attempt("a mended bug within a bound", near("assert (x);"), near("y <= 2;\n    assert (x);"), "F", "B", 0, ["mended"]),
    Attempt("a new bug", near("assert (x);"), near("y <= 2;\n    assert (x);"), "P", "F", 5, ["broken"]),
    Attempt("an edited text that holds", near("assert (x);"), near("assert (x && y);"), "P", "P", 0, ["edited"]),
    Attempt("another label", near("a: assert (x);"), near("b: assert (x);"), "P", "P", 0, ["edited"]),
    Attempt("a label in another file", near("a: assert (x);"), "", "F", "F", 0, ["still fails"], None, None, None,
            {"g.v": near("a: assert (x);")}),
    Attempt("another constant than its own", "localparam K = 3;\nassert (n != 3);\n", "localparam K = 2;\nassert (n != 3);\n",
            "F", "F", 0, ["still fails"]),
    Attempt("an assumption less", two("a: assert (x);", "assume (p);"), two("a: assert (x);", ""), "P", "P", 0,
            ["as before"]),
    Attempt("an assumption on another line", two("a: assert (x);", "assume (p);"), two("assume (p);", "a: assert (x);"),
            "P", "P", 0, ["as before"]),
    Attempt("a statement before it", near("if (p) begin\n      y <= 1;\n      assert (x);\n    end"),
            near("if (p) begin\n      y <= 2; z <= 3;\n      assert (x);\n    end"), "F", "F", 0, ["still fails"]),
    Attempt("a function before it", "module m;\nassert (x);\nendmodule\n",
            "module m;\nfunction f(input a);\nf = a;\nendfunction\nassert (x);\nendmodule\n", "F", "F", 0, ["still fails"]),
    Attempt("a block before it", near("if (p) begin\n      y <= 1;\n    end\n    assert (x);"),
            near("if (q) begin\n      y <= 1;\n    end\n    assert (x);"), "F", "F", 0, ["still fails"]),
]
