"""The manual pages, made from what the program's help says, from docs/BEHAVIOUR.md, docs/EXPLAIN.md and
docs/FORMATS.md, and from the help of aig-verdicts."""

import os
import re
import subprocess
import sys

from library import supervised
from library.helptext import commands, examples, grouped
from library.roff import Markdown, code_block, filled, lines, literal, prose, sections
from library.runs import REPOSITORY, contents

DATE = "2026-12-01"
SEE_ALSO = ("abc", "gtkwave", "yosys")
FILES = {
    "share/doc/aig/examples":
        "Circuits with stimuli, scripts of bench, witnesses, certificates and proofs; and designs in Verilog. README.md says "
        "what each file is. The folder is below /usr/local, /usr, or another folder that the program was installed into.",
    "share/doc/aig/docs": "The documentation.",
    "FILE.new": "What bench and unroll write before they rename it to FILE.",
}


def asker(program):
    """A function that runs the program under the name `aig`, and returns what it prints on standard error."""
    def ask(*words):
        return supervised.run(["aig", *words], executable=os.path.abspath(program), stdin=subprocess.DEVNULL,
                              capture_output=True, check=False).stderr.decode()
    return ask


def pages(ask):
    """The texts of the manual pages by their names."""
    version = ask("--version").split(" ")[1].strip()
    return {"aig.1": aig_page(ask, version), "aig-formats.5": formats_page(version),
            "aig-explain.1": explain_page(version), "aig-verdicts.1": verdicts_page(version)}


def document(name):
    return contents(f"{REPOSITORY}/docs/{name}").decode()


def head(name, section, version, kind, about):
    """The head of a page. Its lines are neither stretched nor hyphenated, so that words can be found and copied, and a
    sentence ends with one space wherever the source breaks its lines."""
    return (f'.\\" tools/make_manual.py writes this page.\n.TH {name.upper()} {section} {DATE} "aig {version}" "{kind}"\n'
            f".nh\n.ad l\n.ss 12 0\n.SH NAME\n{name.lower().replace('-', chr(92) + '-')} \\- {about}\n")


def formats_page(version):
    """aig-formats(5): all of FORMATS.md."""
    text = document("FORMATS.md").split("\n", 1)[1]
    intro, rest = re.split(r"(?m)^(?=## )", text, maxsplit=1)
    markdown = Markdown({"BEHAVIOUR.md": "\\fBaig\\fP(1)"})
    return finished(head("aig-formats", 5, version, "File Formats", "files that aig reads and writes")
                    + ".SH DESCRIPTION\n" + markdown.page(intro) + markdown.page(rest)
                    + ".SH SEE ALSO\n\\fBaig\\fP(1)\n")


def explain_page(version):
    """aig-explain(1): all of EXPLAIN.md."""
    text = document("EXPLAIN.md").split("\n", 1)[1]
    markdown = Markdown({"FORMATS.md": "\\fBaig\\-formats\\fP(5)", "BEHAVIOUR.md": "\\fBaig\\fP(1)"})
    return finished(head("aig-explain", 1, version, "User Commands",
                         "why a command of aig failed, where, and what to do")
                    + ".SH SYNOPSIS\n.nf\naig-explain COMMAND ..\n.fi\n.SH DESCRIPTION\n" + markdown.page(text)
                    + ".SH SEE ALSO\n\\fBaig\\fP(1), \\fBaig\\-formats\\fP(5)\n")


def arguments_of_verdicts():
    """The parser of aig-verdicts, those of its commands by name, and what its help says of statuses."""
    sys.path[:0] = [f"{REPOSITORY}/verdicts/src", f"{REPOSITORY}/python/src"]
    from aig_verdicts.arguments import STATUSES, parser

    top = parser()
    return top, next(it.choices for it in top._actions if it.choices), STATUSES


def verdicts_page(version):
    """aig-verdicts(1): the help of its commands."""
    top, each, statuses = arguments_of_verdicts()
    text = head("aig-verdicts", 1, version, "User Commands", "from Verilog to checked verdicts on its assertions")
    text += (".SH SYNOPSIS\n.nf\naig-verdicts run [OPTION ..] FILE ..\naig-verdicts demo\n"
             "aig-verdicts recheck [OPTION ..] BUNDLE\naig-verdicts replay [OPTION ..] BUNDLE\n.fi\n"
             f".SH DESCRIPTION\n{filled(prose(top.description))}")
    for name, one in each.items():
        text += f".SH COMMAND: {name.upper()}\n{flowing(one.description.strip())}"
        text += entries({words_of(it): it.help for it in one._actions})
    rows = statuses.split("\n", 1)[1]
    text += f".SH EXIT STATUS\n{flowing(rows)}"
    text += (".SH EXAMPLES\nThe examples come with the program.\n" + code_block("aig-verdicts run queue.v --out queue\n")
             + code_block("aig-verdicts recheck queue\n"))
    return finished(text + ".SH SEE ALSO\n\\fBaig\\fP(1), \\fByosys\\fP(1), \\fBcadical\\fP(1), \\fBabc\\fP(1)\n")


def words_of(action):
    """How an option or an argument is typed."""
    if not action.option_strings:
        return action.metavar
    value = f" {action.metavar}" if action.metavar else ""
    return ", ".join(f"{name}{value}" for name in action.option_strings)


def finished(text):
    """A page without the paragraphs that begin right below a head, of which mandoc warns."""
    return re.sub(r"(?m)^(\.S[HS] .*\n)\.PP\n", r"\1", text)


def entries(items):
    return "".join(f".TP\n.B {lines(literal(name))}{filled(prose(said))}" for name, said in items.items())


def flowing(text):
    """The text of a help, whose lines the page breaks anew: paragraphs, and lists of terms with their descriptions."""
    page = ""
    for block in re.findall(r"(?m)(?:^  .*\n?)+|(?:^(?!  ).+\n?)+", text):
        page += terms(block) if block.startswith("  ") else f".PP\n{filled(prose(block))}"
    return page


def terms(block):
    """A list of the help, `  TERM  TEXT`. Further lines of a text are indented more."""
    rows = [re.split(r" {2,}|\n +", row.strip(), maxsplit=1) for row in re.split(r"(?m)^ {2}(?=\S)", block)[1:]]
    width = max((len(term) for term, *_ in rows if len(term) <= 16), default=2) + 2
    page = "".join(f".TP {width}\n.B {lines(literal(term))}{filled(prose(' '.join(told)))}" for term, *told in rows)
    return f".RS 2\n.PD 0\n{page}.PD\n.RE\n"


def said(one):
    """The help's text after the options, without the examples and references: the page has sections for these."""
    text = re.sub(r"(?m)^(Example|See also): (?:.*\\\n)*.*\n?", "", one.after + "\n")
    return text.strip("\n")


def aig_page(ask, version):
    """aig(1): the help of each command, and sections of BEHAVIOUR.md."""
    overview, each = commands(ask)
    general = set(overview.options)
    text = head("aig", 1, version, "User Commands",
                "verified AIGER toolkit that checks both verdicts of model checkers")
    text += ".SH SYNOPSIS\n.nf\n" + "".join(lines(literal(one.usage)) for one in each.values()) + ".fi\n"
    text += f".SH DESCRIPTION\n{filled(prose(overview.about + '.'))}"
    for group, names in grouped(ask("--help")).items():
        text += f".SH COMMANDS: {group.upper()}\n"
        for name in names:
            one = each[name]
            own = {option: it for option, it in one.options.items() if option not in general}
            text += f".SS aig {name}\n{lines(prose(one.about + '.'))}" + entries(one.arguments) + entries(own)
            text += flowing(said(one))
    text += ".SH OPTIONS\nEach command takes these, except for --version.\n" + entries(overview.options)
    for name, list_of_terms in re.findall(r"(?m)^(.*):\n((?:  .*\n?)+)", said(overview)):
        text += f".SH {name.upper()}\n{flowing(list_of_terms)}"
    text += ".SH FILES\n" + entries(FILES)
    markdown = Markdown({"FORMATS.md": "\\fBaig\\-formats\\fP(5)"})
    behaviour = sections(document("BEHAVIOUR.md"))
    for name in ("Pipes, full devices and closed outputs", "Terminals", "What a run needs", "Limits"):
        text += f".SH {name.upper()}\n" + markdown.page(behaviour[name])
    text += ".SH EXAMPLES\nThese commands use files of the folder\n.BR examples ,\nwhich comes with the program.\n"
    for one in each.values():
        text += f".PP\n{lines(prose(one.about + ':'))}" + "".join(code_block(it) for it in examples(one))
    return finished(text + ".SH SEE ALSO\n\\fBaig\\-explain\\fP(1), \\fBaig\\-formats\\fP(5), " + ", ".join(
        f"\\fB{name}\\fP(1)" for name in SEE_ALSO) + "\n")
