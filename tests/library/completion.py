"""The completions for bash, zsh and fish: the files completions/*.in, filled with what the help of the program and of
aig-verdicts says."""

import argparse
import re

from library.helptext import commands, long_options
from library.manual import arguments_of_verdicts
from library.runs import REPOSITORY, contents


def shells(ask):
    """The texts of the completions by their names."""
    overview, each = commands(ask)
    return {"aig.bash": filled("aig.bash", bash_tables(overview, each)),
            "_aig": filled("_aig", zsh_tables(overview, each)),
            "aig-verdicts.bash": filled("aig-verdicts.bash", {"options": indented(verdicts_table(), 8)}),
            "_aig-verdicts": filled("_aig-verdicts", zsh_tables_of_verdicts()),
            "aig-verdicts.fish": filled("aig-verdicts.fish", fish_tables_of_verdicts())}


def filled(name, tables):
    """The text of a file that ends with .in, with each `@table@` filled in."""
    text = contents(f"{REPOSITORY}/completions/{name}.in").decode()
    return re.sub(r"@(\w+)@", lambda at: tables[at[1]], text)


def value_of(option, said):
    """What the value of an option is: the words that it may be, `number`, `file`, or nothing where it has none. The
    help lists words after a colon. The name of a number has one letter; nothing completes a NAME either."""
    name = re.search(r"<(\w+)>", option)
    words = re.match(r"[^:(]*: (.* or .*)", said)
    if not name:
        return None
    if words:
        return re.sub(r" \(.*?\)", "", words[1]).replace(" or ", " ")
    return "number" if len(name[1]) == 1 or name[1] == "NAME" else "file"


def long_name(option):
    return re.search(r"--[a-z-]+", option)[0]


def bash_tables(overview, each):
    lines = [f'[{name}]="{" ".join(long_options(one))}"' for name, one in each.items()]
    values = [f'["{name} {long_name(option)}"]="{value_of(option, said)}"'
              for name, one in each.items() for option, said in one.options.items() if value_of(option, said)]
    return {"commands": " ".join([*each, "help"]), "general": " ".join(long_options(overview)),
            "options": indented(lines, 8), "values": indented(values, 8)}


def verdicts_table():
    """The options of each command of aig-verdicts."""
    for name, one in arguments_of_verdicts()[1].items():
        options = sorted(word for action in one._actions for word in action.option_strings if word.startswith("--"))
        yield f'[{name}]="{" ".join(options)}"'


def zsh_tables(overview, each):
    about = {**{name: one.about for name, one in each.items()}, "help": "Print the help of the program or of a command"}
    cases = []
    for name, one in each.items():
        specs = [zsh_option(*it) for it in one.options.items()] + [zsh_file(it) for it in one.arguments]
        cases.append(f"        {name})\n            _arguments \\\n{indented(specs, 16, ' ' + chr(92))}\n            ;;")
    return {"commands": indented([quoted(f"{name}:{short(said)}") for name, said in about.items()], 8),
            "general": indented([zsh_option(*it) for it in overview.options.items()], 12, " \\"),
            "cases": "\n".join(cases)}


def zsh_tables_of_verdicts():
    """The commands of aig-verdicts with their options and files."""
    top, each, _ = arguments_of_verdicts()
    about = {it.dest: it.help for action in top._actions if action.choices for it in action._choices_actions}
    cases = []
    for name, one in each.items():
        specs = [zsh_argument(it) for it in one._actions]
        cases.append(f"        {name})\n            _arguments \\\n{indented(specs, 16, ' ' + chr(92))}\n            ;;")
    return {"commands": indented([quoted(f"{name}:{short(said)}") for name, said in about.items()], 8),
            "general": indented([zsh_argument(it) for it in top._actions if it.option_strings], 12, " \\"),
            "cases": "\n".join(cases)}


def fish_tables_of_verdicts():
    """The lines of fish for the commands of aig-verdicts and their options."""
    top, each, _ = arguments_of_verdicts()
    about = {it.dest: it.help for action in top._actions if action.choices for it in action._choices_actions}
    commands = [f"complete -c aig-verdicts -n __fish_use_subcommand -a {name} -d {quoted(short(said))}" for name,
                said in about.items()]
    return {"general": "\n".join(map(fish_option("-n __fish_use_subcommand"), options_of(top))),
            "commands": "\n".join(commands),
            "options": "\n".join(fish_option(f"-n '__fish_seen_subcommand_from {name}'")(it)
                                 for name, one in each.items() for it in options_of(one))}


def options_of(parser):
    return [it for it in parser._actions if it.option_strings]


def fish_option(where):
    """A function of an option, which writes what fish takes for it at a place."""
    def line(action):
        names = [f"-s {it[1:]}" if len(it) == 2 else f"-l {it[2:]}" for it in action.option_strings]
        value = f" -xa {quoted(' '.join(action.choices))}" if action.choices else {
            "FOLDER": " -xa '(__fish_complete_directories)'", "PROGRAM": " -xa '(__fish_complete_command)'"}.get(
            action.metavar, " -r" if action.metavar in COMPLETED else " -x")
        said = quoted(short(action.help).replace("`", ""))
        return f"complete -c aig-verdicts {where} {' '.join(names)}{value * (action.nargs != 0)} -d {said}"
    return line


# What completes the value of an option or an argument of aig-verdicts, by its name in the help.
COMPLETED = {"FOLDER": "_files -/", "PROGRAM": "_command_names",
             **dict.fromkeys(("FILE", "LIST", "BUNDLE", "OLD", "NEW"), "_files")}


def zsh_argument(action):
    """What zsh's `_arguments` takes for an argument of aig-verdicts. An option that may be given again has a star."""
    value = (action.metavar or "").replace(":", "\\:")
    ending = f":{value}:{COMPLETED.get(value, '')}"
    if not action.option_strings:
        return f'"*:{value}:$designs"' if action.nargs == "*" else quoted(ending)
    has_value, star = action.nargs != 0, "*" * isinstance(action, argparse._AppendAction)
    said = f"[{first_words(action.help)}]{ending * has_value}".replace("`", "")
    names = [f"{it}{'=' if it.startswith('--') else '+'}" if has_value else it for it in action.option_strings]
    if len(names) == 1:
        return quoted(f"{star}{names[0]}{said}")
    others = star or f"({' '.join(action.option_strings)})"
    return f"'{others}'{{{','.join(names)}}}{quoted(said)}"


def zsh_option(option, said):
    """What zsh's `_arguments` takes for an option. One that may be given again has a star."""
    star = "*" if "once for each" in said else ""
    value = value_of(option, said)
    if value is None:
        return quoted(f"{star}{long_name(option)}[{short(said)}]")
    action = {"file": "_files", "number": ""}.get(value, f"({value})")
    name = re.search(r"<(\w+)>", option)[1]
    return quoted(f"{star}{long_name(option)}=[{short(said)}]:{name}:{action}")


def zsh_file(argument):
    """What zsh's `_arguments` takes for a file. One that may be left out has a second colon."""
    name = argument.strip("[]")
    colon = "::" if argument.startswith("[") else ":"
    return f'"{colon}{name}:$circuits"' if name == "CIRCUIT" else quoted(f"{colon}{name}:_files")


def first_words(said):
    """What a help says up to the first colon, semicolon or parenthesis."""
    return re.split(r": |; | \(", said)[0]


def short(said):
    """The same, as it begins inside of a sentence."""
    text = first_words(said)
    return text if text[:2].isupper() else text[:1].lower() + text[1:]


def quoted(text):
    """A text in single quotes, as both shells read it."""
    return "'" + text.replace("'", "'\\''") + "'"


def indented(lines, blanks, between=""):
    return f"{between}\n".join(" " * blanks + line for line in lines)
