"""Properties of each operator, and of each function of the past at the first edges."""

from __future__ import annotations

from typing import Iterator, List, Tuple

from .judge import Property


def e(text: str) -> Tuple:
    return "e", text


def seq(form: Tuple) -> Tuple:
    return "sequence", form


A, B, C, D = (e(it) for it in "abcd")
# A form and its text.
SEQUENCES = [
    (("repeat", A, 2, 2), "a[*2]"), (("delay", ("repeat", A, 2, 2), 1, 1, B), "a[*2] ##1 b"),
    (("delay", A, 0, 2, B), "a ##[0:2] b"), (("delay", A, 0, 0, B), "a ##0 b"),
    (("delay", ("delay", A, 1, 2, B), 0, 0, ("delay", C, 1, 1, D)), "(a ##[1:2] b) ##0 (c ##1 d)"),
    (("delay", ("repeat", A, 0, 1), 1, 1, B), "a[*0:1] ##1 b"), (("delay", ("repeat", A, 0, 1), 2, 2, B), "a[*0:1] ##2 b"),
    (("delay", ("repeat", A, 1, None), 1, 1, B), "a[*1:$] ##1 b"), (("delay", ("repeat", A, 1, None), 1, 1, B), "a[+] ##1 b"),
    (("delay", ("repeat", A, 0, None), 1, 1, B), "a[*] ##1 b"), (("delay", A, 1, 3, B), "a ##[1:3] b"),
    (("delay", A, 2, 2, B), "a ##2 b"), (("delay", A, 1, None, ("delay", B, 1, 1, C)), "a ##[1:$] b ##1 c"),
    (("delay", A, 1, None, B), "a ##[+] b"), (("wait", 2, 2, A), "##2'd6 a"), (("wait", 1, 2, ("delay", A, 1, 1, B)), "##[1:2] a ##1 b"),
    (("repeat", ("delay", A, 1, 2, B), 2, 2), "(a ##[1:2] b)[*2]"), (("repeat", ("delay", A, 1, 1, B), 1, 2), "(a ##1 b)[*1:2]"),
    (("delay", ("goto", B, 2, 2), 1, 1, C), "b[->2] ##1 c"), (("delay", ("nonconsecutive", B, 1, 1), 1, 1, C), "b[=1] ##1 c"),
    (("goto", e("!b"), 1, 2), "(!b)[->1:2]"), (("throughout", A, ("delay", B, 2, 2, C)), "a throughout b ##2 c"),
    (("within", ("delay", A, 1, 1, B), ("repeat", C, 3, 3)), "(a ##1 b) within c[*3]"),
    (("within", B, ("delay", C, 2, 2, D)), "b within c ##2 d"),
    (("intersect", ("delay", A, 1, 2, B), ("repeat", C, 3, 3)), "a ##[1:2] b intersect c[*3]"),
    (("and", ("delay", A, 1, 1, B), ("delay", C, 2, 2, D)), "a ##1 b and c ##2 d"),
    (("and", ("delay", A, 2, 2, B), C), "a ##2 b and c"),
    (("or", ("delay", A, 1, 1, B), ("delay", C, 2, 2, D)), "a ##1 b or c ##2 d"),
    (("first", ("delay", A, 1, 3, B)), "first_match(a ##[1:3] b)"), (e("v"), "v"), (e("(a && !b)"), "(a && !b)"),
    (("delay", e("v"), 1, 1, e("v > 1")), "v ##1 v > 1"), (("delay", A, 1, 1, e("1")), "a ##1 1"),
]
# If c is false at the second edge, it can match no more: the first side has four letters then.
UNLIKE = ("intersect", ("or", ("delay", ("delay", B, 1, 1, A), 2, 2, e("1")), ("delay", ("delay", B, 1, 1, C), 1, 1, e("1"))),
          ("delay", B, 2, 2, D))
PROPERTIES = [
    (("not", seq(("delay", A, 1, 1, B))), "not a ##1 b"), (("if", A, seq(("delay", B, 1, 1, C)), seq(D)), "if (a) b ##1 c else d"),
    (("next", 2, seq(A)), "nexttime[2] a"), (("por", ("next", 1, seq(A)), seq(B)), "nexttime a or b"),
    (("pand", ("next", 2, seq(A)), ("not", seq(B))), "nexttime[2] a and not b"), (("until", seq(A), seq(B)), "a until b"),
    (("until_with", seq(A), seq(("delay", B, 1, 1, C))), "a until_with b ##1 c"), (("always", seq(A)), "always a"),
    (("until", seq(A), ("not", seq(B))), "a until not b"), (("until_with", seq(e("!a")), seq(B)), "!a until_with b"),
    (("implies", seq(A), seq(("delay", B, 1, 1, C))), "a implies b ##1 c"), (("iff", seq(A), ("next", 1, seq(B))), "a iff nexttime b"),
    (("not", ("implication", A, False, ("not", seq(("delay", B, 1, 1, C))))), "a #-# b ##1 c"),
    (("not", ("implication", A, True, ("not", seq(B)))), "a #=# b"),
    (("implication", A, False, ("implication", B, True, seq(C))), "a |-> b |=> c"),
    (("implication", A, False, ("pand", seq(B), ("next", 1, seq(C)))), "a |-> b and nexttime c"),
    (("implication", A, False, ("until", seq(B), seq(C))), "a |-> b until c"),
    (("not", ("implication", A, True, seq(B))), "not (a |=> b)"), (("implication", A, False, seq(("wait", 1, 3, B))), "a |-> ##[1:3] b"),
    (("implication", A, True, seq(("repeat", B, 2, 3))), "a |=> b[*2:3]"),
    (("implication", A, False, seq(("delay", ("goto", B, 1, 1), 0, 0, C))), "a |-> b[->1] ##0 c"),
    (("always", ("implication", A, True, seq(B))), "always a |=> b"), (("implication", A, True, ("always", seq(B))), "a |=> always b"),
    (("implication", A, False, seq(UNLIKE)), "a |-> (b ##1 a ##2 1 or b ##1 c ##1 1) intersect b ##2 d"), (("implication", e("1"), True, seq(A)), "1 |=> a"),
]
PASTS = [
    "$past(a)", "!$past(a)", "!$past(!a)", "$past(k) && b", "!($past(a) || b)", "$past(a) || !$past(b, 2)", "a ? $past(b) : $past(k)",
    "($past(a) ? !b : c == d)", "$past(a) === b", "$past(a) !== b", "$past(a) == $past(b, 2)", "$past(k) != c", "$past(v) == v",
    "$past(m, 2) != m", "v == $past(v) + 2'd1", "n == $past(n) + v", "$past(v) < v", "!($past(v) - 1 > v)", "&$past(v)", "!(|$past(v))",
    "$past(v)", "!$past(v, 3)", "$past(v) == 3'd6", "$past(v) != 3'd6", "3'd5 == $past(m, 2)", "$past(q)", "!$past(q)", "$past(n) == 5",
    "$past(n, 2) != n", "$past(a && k)", "!$past(a && q)", "$past(!q)", "$past(q || b)", "!$past(v == 2'd1)", "!$past(v == 3'd6)",
    "$past(v == 3'd6) || a", "$past(n == 3'd5)", "$past(v[1])", "$past(n[2])", "!$past(n[1])", "!$past(a) && !$past(b)", "$past(a, 2) && !$past(b)", "$past(s) == s",
]
CHANGES = [
    "$rose(a)", "$fell(b)", "$rose(w)", "$rose(q)", "$fell(q)", "$stable(v)", "$changed(v)", "$stable(n)", "$changed(n)",
    "$rose(v == 2'd1)", "$fell(v == 3'd6)", "$stable(v == 3'd6)", "$rose(a) == b", "$changed(a && !q)", "!$fell(a)", "!$stable(v)",
]


# Declarations, a form, and the words that use them.
NAMED = [
    ("sequence two(x, y); x ##1 y; endsequence", ("implication", ("delay", ("or", A, B), 1, 1, C), False, seq(D)), "two(a or b, c) |-> d"),
    ("property later(x, y = b); x |=> y; endproperty", ("implication", ("delay", A, 1, 1, C), True, seq(B)), "later(a ##1 c)"),
    ("sequence end_of(s, n); s[*n] ##1 d; endsequence property both(p, q); p and q; endproperty",
     ("pand", ("not", seq(("delay", ("repeat", A, 2, 2), 1, 1, D))), ("implication", B, False, seq(C))),
     "both(.q(b |-> c), .p(not end_of(a, 2)))"),
]


def named() -> Iterator[Property]:
    """Named properties and sequences with arguments."""
    for at, (declared, form, words) in enumerate(NAMED):
        yield Property(f"n{at}", form, words, declared=declared)


def operators() -> Iterator[Property]:
    """Each operator, in an assertion, under `disable iff`, in an antecedent, and in a cover."""
    for at, (form, words) in enumerate(SEQUENCES):
        before, after = ("implication", form, False, seq(D)), ("implication", A, at % 2 == 0, seq(form))
        yield Property(f"s{at}", before, f"({words}) |-> d", "negedge" if at % 5 == 0 else "posedge")
        yield Property(f"t{at}", after, f"a {'|=>' if at % 2 == 0 else '|->'} {words}", has_off=True)
        yield Property(f"c{at}", form, words, has_off=at % 2 == 0, is_cover=True)
    yield from named()
    for at, (form, words) in enumerate(PROPERTIES):
        yield Property(f"p{at}", form, words, has_off=at % 2 == 0)


def first_edges() -> Iterator[Property]:
    """Each function of the past, true and false, in a module and in a checker that is bound."""
    at = 0
    for words in PASTS + CHANGES:
        forms: List[Tuple[Tuple, str]] = [
            (("implication", e(words), False, seq(A)), f"{words} |-> a"), (("implication", B, False, seq(e(words))), f"b |-> {words}"),
            (("not", seq(e(words))), f"not ({words})"), (("implication", e(f"!({words})"), False, seq(C)), f"!({words}) |-> c"),
        ]
        for number, (form, text) in enumerate(forms):
            is_bound = words in PASTS and number == at % 4 and "q" not in words
            yield Property(f"f{at}_{number}", form, text, "negedge" if number == 3 else "posedge", is_bound=is_bound)
        at += 1
