"""Draws the sides of the table answers.txt in this folder; or asks a program each of the table's questions, prints how
many there were, and names on standard error each answer that isn't the table's. The sides and the examples that are
built stand in this folder then (answers.sh, rust_answers.sh).

usage: answers.py draw [SIDE..]     (all of the table, if none is named)
       answers.py PROGRAM           (one of PROGRAMS)
"""
import contextlib
import functools
import io
import json
import os
import pathlib
import re
import runpy
import subprocess
import sys

TOP = pathlib.Path(__file__).resolve().parents[2]
TABLE = (TOP / "tests/cli/answers.txt").read_text("utf-8").splitlines()
LEVELS = {"NTSC": ["NTSC", "16384", "51200"], "PAL": ["PAL", "16384", "54016"]}


def write_side(path, levels, fields):
    """Draws a side of which each field has these words on lines 16 to 18: a file with holes. What isn't drawn takes no
    room, as a line 16 without a word."""
    import ldvbi
    system, *levels = levels
    draw = functools.lru_cache(64)(lambda word: ldvbi.draw_line(word, system, *map(int, levels)))
    size, line = ldvbi.field_bytes(system), ldvbi.line_bytes(system)
    with open(path, "wb", buffering=0) as file:
        count = 0
        for count, words in enumerate(fields, 1):
            first = 0 if words[0] else 1
            os.pwrite(file.fileno(), b"".join(map(draw, words[first:])), (count - 1) * size + (15 + first) * line)
        file.truncate(count * size)


def draw_sides(*names):
    sys.path.append(str(TOP / "tests/unit"))
    from compact import words_of
    texts = {}
    for _, side, system, *words in (line.split(" ", 3) for line in TABLE if line[0] == "="):
        texts.setdefault((side, system), []).extend(words)
    for (side, system), words in texts.items():
        if words and (not names or side in names):
            write_side(f"{side}.tbc", LEVELS[system], words_of(" ".join(words), {"NTSC": 30, "PAL": 25}[system]))


@functools.cache
def run(command, *words, given="/dev/null"):
    """The status of a command, what it writes, and what it says. One in Python is a call in this process."""
    if not command.endswith((".py", "ldvbi-side")):
        file = os.open(given, os.O_RDONLY)  # which may be a folder
        done = subprocess.run([command, *words], stdin=file, capture_output=True, text=True, check=False)
        os.close(file)
        return done.returncode, done.stdout, done.stderr
    from ldvbi_side.__main__ import main as ldvbi_side
    out, err, before, status = io.TextIOWrapper(io.BytesIO(), "utf-8"), io.StringIO(), sys.argv, 0
    sys.argv = [command, *words]
    with contextlib.redirect_stdout(out), contextlib.redirect_stderr(err):
        try:
            if command == "ldvbi-side":
                status = ldvbi_side([*words])
            else:
                runpy.run_path(command, run_name="__main__")
        except SystemExit as stop:
            status = stop.code
    sys.argv = before
    out.flush()
    return status, out.buffer.getvalue().decode(), err.getvalue()


def questions():
    """Yields of each question the side, its system and levels, the question, its answer, and who answers nothing."""
    for line in TABLE:
        if line[0] == "=":
            _, side, system, *_ = line.split()
        elif line[0] != "#":
            pairs, _, silent = line.partition(" | ")
            for pair in pairs.split("; "):
                yield side, LEVELS[system], *pair.split(" = "), silent.partition(":")[0].split()


def fields(numbers):
    """The answer that has these fields."""
    return "field " + " ".join(map(str, numbers)) if numbers else ""


def found(status, out, said):
    """What a search finds. By lines alone, `ldvbi-side` finds it with status 3."""
    return status, fields(re.findall(r"^field (\d+)", out, re.M)) if status in (0, 3) else "", said


def told(question, status, out, said):
    """What an example as examples/whole.c tells: whether the side is whole, its gaps, or what is set aside."""
    if question == "aside":
        answer = fields(re.findall(r"^aside: field (\d+) ", out, re.M))
    elif question == "gaps":
        gaps = re.findall(r"^([a-z]*) (\d+): field (\d+) has \d+, field (\d+) has \d+$", out, re.M)
        answer = ", ".join(f"{kind} {after} {before} {count}" for kind, count, after, before in gaps)
    else:
        answer = "".join(re.findall(r"^whole: (yes|no)\b", out))
    return status, answer, said


def is_of_side(question):
    return question.startswith("whole") or question in ("gaps", "aside")


def of_example(name, side, levels, question):
    """What the examples in a language answer, by the path of one, with % for what it is called."""
    path = f"{side}.tbc"
    if is_of_side(question):
        cut = [] if question == "whole to lead-out" else ["cut"]
        return told(question, *run(name.replace("%", "whole"), path, *levels, *cut))
    if question == "stops":
        return found(*run(name.replace("%", "stops"), *levels, given=path))
    return found(*run(name.replace("%", "seek"), path, *levels, *question.split()))


def of_player(player, side, levels, question):
    """What a player finds. A place is searched, but `chapter N` is a command of its own."""
    command = question.split() if question.startswith("chapter") else ["search", question]
    shown = "" if question.isdigit() and player != "./player" else "?"
    picture = f"(?: picture {question if question.isdigit() else '[0-9]*'}){shown}"
    beside = [f"{side}.map"] if player == "./player_c" else []
    status, out, said = run(player, f"{side}.tbc", *beside, *command)
    return status, "".join(re.findall(f"^[a-z]*: (field [0-9]*){picture}$", out)) if status == 0 else "", said


def of_ldvbi_side(_, side, levels, question):
    path = f"{side}.tbc"
    if question in ("stops", "aside"):
        document = json.loads(run("ldvbi-side", path, "--json")[1])
        return 0, fields([one["field"] for one in document["stops" if question == "stops" else "doubtful"]]), ""
    if is_of_side(question):
        return told(question, *run("ldvbi-side", path, *["--open-end"] * (question == "whole")))
    return found(*run("ldvbi-side", path, "--seek", question))


def of_rust(_, side, levels, question):
    """The example of the crate counts fields from 0."""
    if question == "stops":
        status, out, said = run("./answers", f"{side}.tbc", *levels)
        return status, fields([int(one) + 1 for one in re.findall(r"^(\d+) (?!bytes ).* true$", out, re.M)]), said
    if is_of_side(question):
        return of_example("./%", side, levels, question)
    return of_player("./player", side, levels, question)


def sought_in_rust(_, side, levels, question):
    """What `Side::seek` finds, which the example prints, too; the player has it of the judged side."""
    status, out, said = run("./answers", f"{side}.tbc", *levels, question)
    none, one = (re.findall(f"^{re.escape(question)}: {what}$", out, re.M) for what in (r"none", r"(\d+)"))
    return 1 if none else status, fields([int(field) + 1 for field in one]), said


# Each program: its name in the table, what asks it, by what name, and which questions. Of the examples in C++ stops.cpp
# alone has a source of its own.
EXAMPLES = str(TOP / "examples")
PROGRAMS = {
    "c": ("c", of_example, "./%_c", ""),
    "c++": ("c++", of_example, "./%_cpp", "stops"),
    "python": ("python", of_example, EXAMPLES + "/%.py", "[0-9cwga]"),
    "player.c": ("player", of_player, "./player_c", "[0-9c]"),
    "player.py": ("player", of_player, EXAMPLES + "/player.py", "[0-9c]"),
    "ldvbi-side": ("side", of_ldvbi_side, "", "[0-9cswa]"),
    "rust": ("rust", of_rust, "", ""),
    "Side::seek": ("rust", sought_in_rust, "", "[0-9c]"),
}


def is_silent(question, status, said):
    """Whether a run has found nothing, or has said that it knows no such question."""
    known = (0, ) if question == "stops" else (0, 1, 4) if question in ("gaps", "aside") else (1, )
    return status in ((0, 4) if question.startswith("whole") else known) or status == 2 and said


def main(program):
    name, ask, command, begin = PROGRAMS[program]
    asked, wrong = 0, 0
    for side, levels, question, wanted, silent in questions():
        if re.match(begin, question):
            status, answer, said = ask(command, side, levels, question)
            is_none = wanted == "none" or {name, "all"} & {*silent}
            asked += 1
            if not (not answer and is_silent(question, status, said) if is_none else answer == wanted):
                wrong += 1
                print(f"{side}, {question}: '{answer}', status {status}, {said}", file=sys.stderr)
    print(asked)
    return wrong > 0 or asked == 0


if __name__ == "__main__":
    sys.exit(draw_sides(*sys.argv[2:]) if sys.argv[1] == "draw" else main(sys.argv[1]))
