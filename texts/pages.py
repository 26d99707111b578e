"""The parts of the manual pages that the commands and options of a program make, in mdoc."""

import re
import textwrap
from typing import Iterable, List

from program import NOTHING, Command, Option, Program, by_options

WIDTH = 80
# A word of a text that is an option, or stands in backquotes, with what stands after it
OPTION = re.compile(r"--([a-z-]+)([.,;:)]*)$")
CODE = re.compile(r"`([^`]+)`([.,;:)]*)$")


def sentence(text: str) -> str:
    """A text as a sentence of its own."""
    text = text.strip()
    if not text.startswith("ld-decode"):
        text = text[:1].upper() + text[1:]
    return text + ("" if text.endswith(".") else ".")


def lowered(text: str) -> str:
    return text[:1].lower() + text[1:]


def plain(words: List[str]) -> List[str]:
    """Lines of these words, of which none is taken for a request."""
    lines = textwrap.wrap(" ".join(words), WIDTH, break_long_words=False, break_on_hyphens=False)
    lines = [line.replace("\\", "\\e") for line in lines]
    return ["\\&" + line if line[:1] in ".'" else line for line in lines]


def macro(word: str) -> str:
    """The line of a word that has a macro, or an empty text."""
    option, code = OPTION.match(word), CODE.match(word)
    after = " ".join((option or code)[2]) if option or code else ""
    if option:
        return (".Fl -%s %s" % (option[1], after)).rstrip()
    return (".Ql %s %s" % (code[1], after)).rstrip() if code else ""


def mdoc(text: str) -> str:
    """A text with a line for each sentence at least, and for each option in it."""
    lines, words = [], []
    for word in re.findall(r"`[^`]+`\S*|\S+", text):
        line = macro(word)
        if line:
            lines += plain(words) + [line]
            words = []
        else:
            words.append(word)
        if word.endswith(".") and not word.endswith(".."):
            lines += plain(words)
            words = []
    return "".join(line + "\n" for line in lines + plain(words) if line)


def names_of(option: Option) -> str:
    """The names of an option with its value, as an item of a list has them."""
    names = " , ".join("Fl " + name[1:] for name in option.names)
    return names + (" Ar " + option.value if option.takes != NOTHING else "")


def item(head: str, text: str) -> str:
    return ".It %s\n%s" % (head, mdoc(text))


def options_list(options: Iterable[Option]) -> str:
    items = "".join(item(names_of(option), sentence(option.text)) for option in options)
    return ".Bl -tag -width indent\n%s.El\n" % items


def options(command: Command) -> str:
    """The options of a command, and of those of which one alone is taken a list of its own."""
    single, group = ([one for one in command.options if one.group == wanted] for wanted in (False, True))
    text = options_list(single)
    return text + (".Pp\nWhat is printed, by at most one of these:\n" + options_list(group) if group else "")


# ---- ldvbi

def commands_of_ldvbi(program: Program) -> str:
    items = "".join(item("Cm " + command.name, sentence(command.about) + " " + sentence(command.text))
                    for command in program.commands[1:])
    return ".Bl -tag -width extract\n%s.El\n" % items


def options_of_ldvbi(program: Program) -> str:
    without, first, *others = program.commands
    text = options(first)
    for names, command in by_options(others):
        own = [option for option in command.options if option not in first.options]
        of = "and\n".join(".Cm %s\n" % name for name in names)
        text += ".Pp\nOf\n" + of + "alone:\n" + options_list(own) if own else ""
    return text + ".Pp\nWithout a command:\n" + options_list(without.options)


# ---- ldvbi-side

def usage(command: Command) -> str:
    """The lines of a command in the synopsis."""
    lines = [".Nm"] + ([".Cm " + command.name] if command.name else [".Op Ar option ..."])
    grouped = [option for option in command.options if option.group]
    if command.name:
        if grouped:
            lines.append(".Op " + " | ".join("Fl " + option.names[-1][1:] for option in grouped))
        for option in command.options:
            if not option.group and option.names[-1] != "--help":
                value = " Ar " + option.value if option.takes != NOTHING else ""
                lines.append(".Op Fl %s%s" % (option.names[-1][1:], value))
    words = [" ".join([words.name.lower()] * words.least) + (" ..." if words.many else "") for words in command.words]
    return "\n".join(lines + [".Ar " + " ".join(words)]) + "\n"


def synopsis(program: Program) -> str:
    return "".join(map(usage, program.commands))


def description(program: Program) -> str:
    return ".Nm\n" + mdoc(lowered(text_of(program.commands[0])))


def text_of(command: Command) -> str:
    """What a command does, without its statuses, which the page has in one list."""
    return command.text.partition(" Statuses: ")[0]


def commands(program: Program) -> str:
    text = ""
    for command in program.commands[1:]:
        own = [option for option in command.options if option.names[-1] != "--help"]
        text += ".Ss %s\n" % command.name + mdoc(text_of(command)) + (options_list(own) if own else "")
    return text


def statuses(program: Program) -> str:
    return ".Bl -tag -width indent\n%s.El\n" % "".join(item(status, text) for status, text in program.statuses)


# The parts of each page
PARTS = {
    "ldvbi": {"commands": commands_of_ldvbi, "options": options_of_ldvbi, "statuses": statuses},
    "ldvbi-side": {"synopsis": synopsis, "description": description, "commands": commands,
                   "options": lambda program: options(program.commands[0]), "statuses": statuses},
}
