"""Prints the help of a command or of the program as the tables of the source have its texts, without the indents and
the empty lines. Behind -h the texts are the short ones, and each stands in the line of its option.
usage: python3 tests/cli/help.py [COMMAND] -h | --help"""
import pathlib
import re
import sys

sys.path.insert(0, str(pathlib.Path(__file__).resolve().parents[2] / "texts"))
from program import COMMANDS_OF_LDVBI, LITERAL, TOP, fields_of, unescaped

SOURCE = pathlib.Path(TOP, COMMANDS_OF_LDVBI).read_text(encoding="utf-8")
TEXTS = {name: unescaped(text) for name, text in re.findall(r"const (\w+): &str =\s+%s;" % LITERAL, SOURCE)}
COMMANDS = {row["name"]: row for row in fields_of(SOURCE, "CommandTexts")}

*command, asked = sys.argv[1:]
about, text, before, other = ("about", "help", " ", "more with '--help'") if asked == "-h" else (
    "details", "details", "\n", "a summary with '-h'")
own = f"-h, --help{before}Print help (see {other})"
if command:
    row = COMMANDS[command[0]]
    print(row[about], f"Usage: ldvbi {command[0]} [OPTIONS] [INPUT]", "Arguments:", f"[INPUT]{before}{row['input']}",
          "Options:", sep="\n")
    for option in fields_of(SOURCE, "OptionTexts"):
        values = f"{before}[possible values: NTSC, PAL]" if option["taken"] == "Taken::System" else ""
        print(f"--{option['name']} <{option['value']}>{before}{option[text]}{values}")
    if row["recovers"] == "true":
        print(f"--recover{before}{TEXTS['RECOVER_' + text.upper()]}")
    print(own, row["example"], sep="\n")
else:
    print(TEXTS[about.upper()], "Usage: ldvbi <COMMAND>", "Commands:", sep="\n")
    for name, row in COMMANDS.items():
        print(name, row["about"])
    print("help Print this message or the help of the given subcommand(s)", "Options:", own,
          f"-V, --version{before}Print version", TEXTS["EXAMPLES"], sep="\n")
