"""A side of 10 GB for fetched.sh, and what is to be answered of it.

usage: great.py draw PATH              draws it: a file with holes, in which lines 16 to 18 have words
       great.py answers PATH           prints commands of a player and what it has to say, by the whole side's judge
       great.py run PATH COMMAND..     runs a command with the side out of memory, and prints how many MB it fetched

The side is of a CAV disc: 400 fields of lead-in, pictures 1 to 10,012 without 6,001 to 6,012, a chapter for each 300 of
them, a stop for each 200, and 600 fields of lead-out."""

import os
import pathlib
import subprocess
import sys

import ldvbi
from ldvbi import State

SETUP, FIELDS, LEAD_IN, LEAD_OUT = ("NTSC", 16384, 51200), 21000, 400, 600
STOP, TOP = 0x82CFFF, pathlib.Path(__file__).parents[2]
sys.path += [str(TOP / "bench"), str(TOP / "tests/cli")]


def digits(number):
    return int(str(number), 16)


def words():
    """The words of lines 16 to 18 of each field."""
    for _ in range(LEAD_IN):
        yield [0, 0x88FFFF, 0x88FFFF]
    for place in range((FIELDS - LEAD_IN - LEAD_OUT) // 2):
        picture = place + 1 if place < 6000 else place + 13
        word, chapter = 0xF00000 + digits(picture), 0x800DDD + 0x1000 * digits(picture // 300)
        yield [STOP, STOP, word] if picture % 200 == 70 else [0, word, word]
        yield [0, chapter, chapter]
    for _ in range(LEAD_OUT):
        yield [0, 0x80EEEE, 0x80EEEE]


def draw(path):
    from answers import write_side
    write_side(path, SETUP, words())
    with open(path, "rb") as file:
        os.fsync(file.fileno())


def answers(path):
    with ldvbi.Stream(path, *SETUP, recover=True) as side:
        readings = b"".join(side.packed(0, len(side)))
    pictures, chapters = ldvbi.judge(readings, "NTSC"), ldvbi.judge_chapters(readings)
    stops = [place for place, stop in enumerate(ldvbi.judge_stops(readings)) if stop == State.believed]
    known = {number for number, state in pictures if state in (State.believed, State.due)}

    def said(command, place, how=""):
        number, state = pictures[place]
        shown = " picture %d" % number if state in (State.believed, State.due) else ""
        return "%s:%s field %d%s" % (command, how, place + 1, shown)

    def search(number):
        found = min(known, key=lambda one: (abs(one - number), one))
        return said("search", ldvbi.first_of(pictures, found), "" if found == number else " not found,")

    def chapter(number, command="chapter"):
        return said(command, ldvbi.first_of(chapters, number))

    begin = ldvbi.first_of(pictures, 2400)
    for number in (2345, 6005, 6009, 60000):
        print("search %d" % number, search(number), sep="|")
    print("chapter 5", chapter(5), sep="|")
    print("search 2400 play", search(2400), said("play", next(one for one in stops if one > begin)), sep="|")
    print("search 2345 next", search(2345), chapter(2345 // 300 + 1, "next"), sep="|")
    print("search 9700 previous still", search(9700), chapter(9700 // 300 - 1, "previous"),
          chapter(9700 // 300 - 1, "still"), sep="|")


def run(path, command):
    from fetched import bytes_in_memory, put_out  # bench/fetched.py
    put_out(path)
    ended = subprocess.run(command, check=False, stdout=subprocess.PIPE)
    sys.stdout.write(ended.stdout.decode())
    print("%.1f" % (bytes_in_memory(path) / 1e6), file=sys.stderr)
    return ended.returncode


if __name__ == "__main__":
    asked, place, *rest = sys.argv[1:]
    sys.exit(run(place, rest) if asked == "run" else {"draw": draw, "answers": answers}[asked](place))
