"""The commands and options of `ldvbi` and `ldvbi-side` in one form, read where they stand: of `ldvbi` in the tables of
crates/vbi_cli/src/commands.rt, of `ldvbi-side` in its parsers."""

import argparse
import os
import re
import sys
from typing import Dict, List, NamedTuple, Tuple

TOP = os.path.dirname(os.path.dirname(os.path.abspath(__file__)))
sys.path.insert(0, os.path.join(TOP, "python"))
COMMANDS_OF_LDVBI = "crates/vbi_cli/src/commands.rt"
PARSERS = "python/ldvbi_side/command/parsers.py"

# What an option or a word takes
NOTHING, FILE, FOLDER, ANYTHING = "nothing", "file", "folder", "anything"


class Option(NamedTuple):
    names: Tuple[str, ...]      # the long one last
    value: str                  # how its value is called, empty where it takes none
    takes: str
    choices: Tuple[str, ...]
    text: str                   # what the help says of it
    short: str                  # the same in one clause
    others: Tuple[str, ...]     # options that don't go with it
    group: bool                 # whether it is one of several of which one is taken


class Words(NamedTuple):
    """A word of the command line that is no option."""
    name: str
    takes: str
    least: int                  # so many at least
    many: bool                  # and more


class Command(NamedTuple):
    name: str                   # empty where none is given
    about: str                  # one clause
    text: str                   # what the help says of it
    options: List[Option]
    words: List[Words]


class Program(NamedTuple):
    name: str
    source: str                 # where its commands and options stand
    commands: List[Command]     # the first one is that without a command
    needs_command: bool
    statuses: List[Tuple[str, str]]


HELP = Option(("-h", "--help"), "", NOTHING, (), "print help", "print help", (), False)


def lower(text: str) -> str:
    """A text as part of a sentence."""
    return text if re.match(r"[A-Z]{2}|[A-Z]\w*-", text) else text[:1].lower() + text[1:]


def clause(text: str) -> str:
    """The first clause of a text, up to a semicolon or the end of a sentence outside of parentheses."""
    depth = 0
    for place, sign in enumerate(text):
        depth += {"(": 1, ")": -1}.get(sign, 0)
        if not depth and (sign == ";" or text[place:place + 2] == ". "):
            return text[:place]
    return text


# ---- ldvbi

LITERAL = r'"((?:[^"\\]|\\[\s\S])*)"'


def unescaped(literal: str) -> str:
    """The text of a string literal of Rust."""
    joined = re.sub(r"\\\n\s*", "", literal)
    return joined.replace("\\n", "\n").replace("\\x20", " ").replace('\\"', '"').replace("\\\\", "\\")


def fields_of(text: str, struct: str) -> List[Dict[str, str]]:
    """The values of this struct in the table of a source, each by the names of its fields."""
    bodies = re.findall(r"^    %s \{\n(.*?)^    \}" % struct, text, re.M | re.S)
    return [{name: unescaped(literal) if literal else other for name, literal, other in
             re.findall(r"^\s+(\w+): (?:%s|([\w:]+))" % LITERAL, body, re.M)} for body in bodies]


def paragraph(text: str) -> str:
    return " ".join(text.split())


def option_of_ldvbi(row: Dict[str, str]) -> Option:
    takes = FILE if row["taken"] == "Taken::Path" else ANYTHING
    choices = ("NTSC", "PAL") if row["taken"] == "Taken::System" else ()
    # the longer text has the range of a number
    details = paragraph(row["details"])
    return Option(("--" + row["name"],), row["value"], takes, choices, details, lower(clause(details)), (), False)


def ldvbi() -> Program:
    with open(os.path.join(TOP, COMMANDS_OF_LDVBI), encoding="utf-8") as file:
        text = file.read()
    options = [option_of_ldvbi(row) for row in fields_of(text, "OptionTexts")]
    version = Option(("-V", "--version"), "", NOTHING, (), "print the version", "print the version", (), False)
    constants = re.findall(r"^const (\w+): &str =\s+%s;" % LITERAL, text, re.M)
    whole = {name: unescaped(literal) for name, literal in constants}
    name = re.findall(r"^pub\(crate\) const RECOVER: &str = %s;" % LITERAL, text, re.M)[0]
    flag = Option(("--" + name,), "", NOTHING, (), paragraph(whole["RECOVER_DETAILS"]),
                  lower(whole["RECOVER_HELP"]), (), False)
    commands = [Command(row["name"], row["about"], paragraph(row["details"]),
                        options + [flag] * (row["recovers"] == "true") + [HELP], [Words("input", FILE, 1, False)])
                for row in fields_of(text, "CommandTexts")]
    statuses = re.findall(r"^  (\d+)  (.*)$", whole["EXAMPLES"].partition("Exit status:")[2], re.M)
    if (len(commands), len(options), len(statuses)) != (text.count("about: \""), text.count("value: \""), 4):
        raise SystemExit("%s has commands, options or statuses in a form that isn't known" % COMMANDS_OF_LDVBI)
    without = Command("", "", paragraph(whole["DETAILS"]), [HELP, version], [])
    return Program("ldvbi", COMMANDS_OF_LDVBI, [without, *commands], True, statuses)


# ---- ldvbi-side

FILES = ("FILE", "SIDE", "PAGE", "PATH")


def takes_of(action: argparse.Action) -> str:
    if action.nargs == 0:
        return NOTHING
    name = action.metavar or action.dest.upper()
    return FOLDER if name == "FOLDER" else FILE if name in FILES else ANYTHING


def option_of(action: argparse.Action, parser: argparse.ArgumentParser) -> Option:
    others, in_group = [], False
    for group in parser._mutually_exclusive_groups:
        if action in group._group_actions:
            others = [one.option_strings[-1] for one in group._group_actions]
            in_group = True
    text = "print help" if action.dest == "help" else action.help or ""
    names = action.metavar if isinstance(action.metavar, tuple) else (action.metavar or "NAME",)
    value = "" if action.nargs == 0 else " ".join(names)
    return Option(tuple(action.option_strings), value, takes_of(action), tuple(action.choices or ()), text,
                  clause(text), tuple(others), in_group)


def command_of(name: str, parser: argparse.ArgumentParser) -> Command:
    options, words = [], []
    for action in parser._actions:
        if action.option_strings:
            options.append(option_of(action, parser))
        else:
            # of `join` its own action asks for two
            least = action.nargs if isinstance(action.nargs, int) else 2 if name == "join" else 1
            words.append(Words(str(action.metavar or action.dest), takes_of(action), least, action.nargs == "+"))
    text = paragraph(parser.description or "")
    return Command(name, lower(clause(text)), text, options, words)


def by_options(commands: List[Command]) -> List[Tuple[List[str], Command]]:
    """The names of commands that have the same options, and one of these commands."""
    groups: Dict[Tuple[str, ...], List[Command]] = {}
    for command in commands:
        groups.setdefault(tuple(option.names[-1] for option in command.options), []).append(command)
    return [([command.name for command in group], group[0]) for group in groups.values()]


def ldvbi_side() -> Program:
    from ldvbi_side.command.parsers import parsers
    from ldvbi_side.command.statuses import statuses_of
    commands = [command_of(name, parser) for name, parser in parsers("ldvbi-side").items()]
    merged: Dict[int, List[str]] = {}
    for command in commands:
        for status, texts in statuses_of(command.name).items():
            merged.setdefault(status, [])
            merged[status] += [text for text in texts if text not in merged[status]]
    statuses = [(str(status), "; ".join(texts)) for status, texts in sorted(merged.items())]
    return Program("ldvbi-side", PARSERS, commands, False, statuses)
