"""Runs the examples by the rows of a table on standard input, and names each run that isn't as its row has it. A row is
NAMES|STATUS|OUT|SIDES|WORDS|SAID: the examples, of which that in C++ is stops_cpp; the lines that they write, the sides
and the words of runs, all parted by ;, and what is said: nothing, or a line after the example's name, which goes on
where it ends with *. One of Python may say the word after it that is wrong. In place of @ stand the side's system and
levels, in that of & what the example is asked else, in that of % its name, and '' is an empty word. `stops` says no
pictures."""
import pathlib
import re
import runpy
import sys

sys.path.append(str(pathlib.Path(__file__).parents[1] / "cli"))
from answers import EXAMPLES, LEVELS, run

PAL = "clv", "marks", "minutely", "rare", "runs", "sparse"  # sides; all others are of NTSC
ELSE = {"seek": "3", "player": "search 3"}


def command(name, side, words):
    """A run's words, and what is on its standard input."""
    kind = name.partition(".")[0]
    levels = "" if kind == "player" else " ".join(LEVELS["PAL" if side in PAL else "NTSC"])
    words = [word.strip("'") for word in words.replace("@", levels).replace("&", ELSE.get(kind, "")).split()]
    if kind.startswith("stops"):
        return [f"./{name}", *words], f"{side}.tbc"
    program = f"{EXAMPLES}/{name}" if name.endswith(".py") else f"./{name}"
    return [program, f"{side}.tbc", *[f"{side}.map"] * (name == "player"), *words], "/dev/null"


def says(name, err, said, words):
    """Whether what an example says is this."""
    said = "%s: %s" % (name.replace("_cpp", ""), said.replace("%", name))
    if said.endswith("*"):
        return err.startswith(said[:-1]) and err.endswith("\n") and err.count("\n") == 1
    return err == said + "\n" or name.endswith(".py") and err in [f"{said}: {word}\n" for word in (*words, "")]


def is_right(name, answer, status, text, said, words):
    found, out, err = answer
    wanted = text.replace(";", "\n") + "\n" * (text != "")
    if name == "stops":
        wanted = re.sub(" picture [0-9]*", "", wanted)
    return (found, out) == (int(status), wanted) and (says(name, err, said, words) if said else err == "")


def main():
    for name in ("seek", "player", "whole"):  # where it is read in it does nothing
        runpy.run_path(f"{EXAMPLES}/{name}.py")
    runs = wrong = 0
    for row in sys.stdin:
        names, status, text, sides, asked, said = row.rstrip("\n").split("|", 5)
        for name, side, words in ((name, side, words) for name in names.split() for side in sides.split(";")
                                  for words in asked.split(";")):
            words, given = command(name, side, words)
            answer = run(*words, given=given)
            runs += 1
            if not is_right(name, answer, status, text, said, words):
                wrong += 1
                print(*words, *answer, file=sys.stderr)
    print(runs)
    return wrong > 0 or runs < 200


if __name__ == "__main__":
    sys.exit(main())
