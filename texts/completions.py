"""The completions of bash and zsh, written from the commands and options of a program."""

import textwrap
from typing import Iterable, List

from program import ANYTHING, FILE, FOLDER, NOTHING, Command, Option, Program, by_options

WIDTH = 120


def long_names(options: Iterable[Option]) -> List[str]:
    return [option.names[-1] for option in options]


# ---- bash

BASH = """# Completion of {name}'s command line, for bash 4 or later. Written by texts/write.py.

{function}() {{
    local word=${{COMP_WORDS[COMP_CWORD]}} before=${{COMP_WORDS[COMP_CWORD - 1]}} command=${{COMP_WORDS[1]}}
    local options='' answers=''
    COMPREPLY=()

    # bash cuts --system=PAL into three words
    if [ "$word" = = ]; then
        word=
    elif [ "$before" = = ]; then
        before=${{COMP_WORDS[COMP_CWORD - 2]}}
    fi
    [ "$COMP_CWORD" != 1 ] || command=

    case $command in
{cases}
    esac
    if [ -z "$answers" ]; then
        case $word in
            -*) answers=$options ;;
            *) compopt -o default ;;
        esac
    fi
    if [ -n "$answers" ]; then
        # shellcheck disable=SC2207
        COMPREPLY=($(compgen -W "$answers" -- "$word"))
    fi
}}

complete -F {function} {name}
"""
HELP_OF_COMMANDS = """        help)
            [ "$COMP_CWORD" = 2 ] || return
            answers='%s'
            ;;"""


def bash_case(pattern: str, command: Command) -> str:
    """What is offered after a command: its options, and after an option with a value what that may be."""
    lines = textwrap.wrap(" ".join(long_names(command.options)), WIDTH - 26, break_on_hyphens=False)
    names = "'\n            options=\"$options \"'".join(lines)
    text = "        %s)\n            options='%s'\n" % (pattern, names)
    rows = ["%s) answers='%s' ;;" % (" | ".join(option.names), " ".join(option.choices))
            for option in command.options if option.choices]
    for takes, action in ((FILE, "compopt -o default; return"), (FOLDER, "compopt -o dirnames; return"),
                          (ANYTHING, "return")):
        names = [name for option in command.options if option.takes == takes and not option.choices
                 for name in option.names]
        rows += ["%s) %s ;;" % (" | ".join(names), action)] if names else []
    if rows:
        text += "            case $before in\n%s            esac\n" % "".join(
            "                %s\n" % row for row in rows)
    return text + "            ;;"


def bash(program: Program) -> str:
    without, *commands = program.commands
    if program.needs_command:
        all_names = " ".join(command.name for command in commands)
        first = " ".join([all_names, "help", *long_names(without.options)])
        cases = ["        '') answers='%s' ;;" % first, HELP_OF_COMMANDS % all_names]
        cases += [bash_case(" | ".join(names), command) for names, command in by_options(commands)]
    else:
        cases = [bash_case(command.name, command) for command in commands] + [bash_case("*", without)]
    return BASH.format(name=program.name, function="_" + program.name.replace("-", "_"), cases="\n".join(cases))


# ---- zsh

ACTIONS = {FILE: "_files", FOLDER: "_files -/", ANYTHING: ""}


def quoted(text: str) -> str:
    """A word of the shell, in the quotes that leave it as it is."""
    return '"%s"' % text if "'" in text else "'%s'" % text


def zsh_text(text: str) -> str:
    """A text within the brackets of a specification."""
    plain = text.replace("`", "'").replace('"', "'")
    return plain.replace("[", "\\[").replace("]", "\\]")


def zsh_option(option: Option) -> str:
    """The specification of an option, as _arguments has it."""
    ends = "(- *)" if option.names[-1] in ("--help", "--version") else ""
    excluded = [name for name in option.others if name != option.names[-1]]
    if len(option.names) > 1 and not ends:
        excluded = list(option.names) + excluded
    before = ends or ("(%s)" % " ".join(excluded) if excluded else "")
    value = ""
    if option.takes != NOTHING:
        action = "(%s)" % " ".join(option.choices) if option.choices else ACTIONS[option.takes]
        value = " ".join(":%s:%s" % (name, action) for name in option.value.lower().split())
    said = "[%s]%s" % (zsh_text(option.short), value)
    if len(option.names) == 1:
        return quoted("%s%s%s%s" % (before, option.names[0], "=" if value else "", said))
    short, long = option.names
    names = "{%s%s,%s%s}" % (short, "+" if value else "", long, "=" if value else "")
    return (quoted(before) if before else "") + names + quoted(said)


def zsh_arguments(command: Command, indent: str) -> str:
    """The call of _arguments for the words of a command."""
    specifications = [zsh_option(option) for option in command.options]
    for words in command.words[-1:]:
        several = "*" if words.many or words.least > 1 else ""
        specifications.append("'%s:%s:%s'" % (several, words.name.lower(), ACTIONS[words.takes]))
    return (" \\\n" + indent + "    ").join([indent + "_arguments -S"] + specifications) + "\n"


ZSH = """#compdef {name}
# Completion of {name}'s command line, for zsh. Written by texts/write.py.

if (( CURRENT > 2 )); then
    local command=$words[2]
    case $command in
{cases}
    esac
fi

{without}"""
OF_COMMANDS = """local curcontext=$curcontext state line
local -a commands
commands=(
{commands}
    'help:print help'
)
_arguments -C -S \\
{options} \\
    ': :->command' \\
    '*:: :->words'
case $state in
    command) _describe command commands ;;
    words)
        commands=(${{commands:#help:*}})
        [[ $line[1] == help ]] && (( CURRENT == 2 )) && _describe command commands
        ;;
esac
"""


def zsh_case(pattern: str, command: Command) -> str:
    return "        %s)\n            shift words\n            (( CURRENT-- ))\n%s            return\n            ;;" % (
        pattern, zsh_arguments(command, "            "))


def zsh(program: Program) -> str:
    without, *commands = program.commands
    if program.needs_command:
        cases = [zsh_case("|".join(names), command) for names, command in by_options(commands)]
        rows = "\n".join("    " + quoted("%s:%s" % (command.name, command.about[:1].lower() + command.about[1:]))
                         for command in commands)
        options = " \\\n".join("    " + zsh_option(option) for option in without.options)
        rest = OF_COMMANDS.format(commands=rows, options=options)
    else:
        cases = [zsh_case(command.name, command) for command in commands]
        rest = zsh_arguments(without, "")
    return ZSH.format(name=program.name, cases="\n".join(cases), without=rest)
