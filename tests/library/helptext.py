"""What the program's help says: its commands, and the options and arguments of each."""

import collections
import re

# The help of a command: what it does, its usage, its arguments and options with their texts, and the text after them.
Help = collections.namedtuple("Help", "about usage arguments options after")

# The start of an entry below a heading, `  NAME  TEXT`. An option without a short name has four spaces more. Further
# lines of its text are indented more.
ENTRY = r"(?m)^(?: {2}| {6}(?=--))(?=\S)"

# The groups of the commands in the help of the whole program.
GROUPS = ("Files", "Runs", "Verdicts")


def section(text, head):
    """The entries below a heading, by name."""
    rows = re.search(rf"(?m)^{head}:\n((?:  .*\n?)+)", text)
    entries = [re.split(r"  +", row.strip(), maxsplit=1) for row in re.split(ENTRY, rows[1])[1:]] if rows else []
    return {name: re.sub(r"\n +", " ", said) for name, said in entries}


def parsed(text):
    about, usage, rest = re.match(r"(.*?)\n\nUsage: (.*?)\n\n(.*)", text, re.DOTALL).groups()
    after = re.split(r"(?m)^Options:\n(?:  .*\n)+\n?", rest, maxsplit=1)[1]
    arguments = {name.strip("<>"): said for name, said in section(rest, "Arguments").items()}
    return Help(about, usage, arguments, section(rest, "Options"), after.strip("\n"))


def grouped(overview):
    """What the help of the whole program says of each command, by name, in each group."""
    return {group: section(overview, group) for group in GROUPS}


def commands(ask):
    """The help of the whole program, and that of each command by name; `ask` runs the program with these arguments."""
    overview = ask("--help")
    names = [name for group in grouped(overview).values() for name in group]
    return parsed(overview), {name: parsed(ask(name, "--help")) for name in names}


def long_options(help_text):
    """The long names of the options."""
    return [re.search(r"--[a-z-]+", option)[0] for option in help_text.options]


def examples(help_text):
    """The commands that the help shows as examples. One goes on after a line that ends with a backslash."""
    return re.findall(r"(?m)^Example: ((?:.*\\\n)*.*)$", help_text.after)


def listed(text, above):
    """The terms of the list below a line of the help that ends with these words."""
    rows = re.search(rf"(?m)^(?:.*\s)?{re.escape(above)}\n((?:  .*\n?)+)", text)[1]
    return [row[2:].split("  ")[0] for row in rows.splitlines() if not row.startswith("   ")]
