#!/usr/bin/env python3
"""A player. It does each command in turn, and prints the field that it shows then, from 1, and its picture. `search N`
or `search H:MM:SS.PP` goes to a picture; if the capture lacks it, to the nearest one beside it. `chapter N`, `next` and
`previous` go to where a chapter begins, `play` to the next stop, and `still` stays. All but `play` find their way by
halving and fetch a few MB. So numbers and chapters have to rise, and on a worn side one may be missed. System and
levels are those of the metadata beside the file. Status 1: something wasn't found; 2: something can't be read, and
standard error says what.

    PYTHONPATH=python python3 examples/player.py side.tbc search 12345 play next still
"""

import re
import signal
import sys

import ldvbi
from ldvbi.metadata import beside, read_metadata, settings_of

REACH = 24  # fields before a field, and after it, by which its chapter is judged; twice as many tell its number
LEAD_OUT = 80  # above all chapters
KNOWN = (ldvbi.State.believed, ldvbi.State.due)


def around(side, place, reach):
    """The readings around a field, and which of them is its own."""
    begin = max(0, place - reach)
    return side[begin:place + reach + 1], place - begin


def picture_of(side, place):
    """The picture of a field, by so many fields that this is the answer of the whole side's judge."""
    readings, own = around(side, place, 2 * REACH)
    number, state = ldvbi.judge(readings, side.system)[own]
    return number if state in KNOWN else None


def chapter_of(side, place):
    """The last chapter that is believed up to a field; -1 before all of them."""
    readings, own = around(side, place, REACH)
    told = list(zip(ldvbi.judge_chapters(readings), ldvbi.judge_ends(readings)))
    for chapter, end in reversed(told[:own + 1]):
        if end == ldvbi.End.lead_out:
            return LEAD_OUT
        if chapter.state == ldvbi.State.believed:
            return chapter.number
    return -1


def first_found(side, chapters):
    """Where the first of these chapters that is found begins, and which it is."""
    sought = ((ldvbi.seek_chapter(side, chapter), chapter) for chapter in chapters)
    return next((found for found in sought if found[0] is not None), (None, None))


def search(side, text):
    """The field of a picture or a time, and whether this is the one that was asked for."""
    time = re.fullmatch("([0-9]):([0-5]?[0-9]):([0-5]?[0-9])[.]([0-9]{1,2})", text)
    rate = 30 if side.system == ldvbi.System.NTSC else 25
    if not (int(time[4]) < rate if time else re.fullmatch("[0-9]{1,5}", text)):
        raise ValueError("neither a picture nor a time: " + text)
    if time:
        hours, minutes, seconds, picture = map(int, time.groups())
        number, counted = ((hours * 60 + minutes) * 60 + seconds) * rate + picture, "times"
    else:
        number, counted = int(text), "pictures"
    sought = ldvbi.seek(side, number, counted)
    if sought is not None:
        return sought.field, True
    beside = filter(None, ldvbi.neighbours(side, number, counted))
    nearest = min(beside, key=lambda one: abs(one.number - number), default=None)
    return nearest and nearest.field, False


def play(side, place):
    """The next stop. If all fields of a picture have its stop, the first one counts."""
    had, now = ldvbi.next_stop(side, place, 1) is not None, ldvbi.next_stop(side, place + 1)
    while had and now == place + 1 and picture_of(side, now) in (None, picture_of(side, place)):
        place, now = now, ldvbi.next_stop(side, now + 1)
    return now


def done(side, place, command, words):
    """Where a command leads, and whether that is what was asked for."""
    if command == "search":
        return search(side, next(words, ""))
    if command == "chapter":
        number = int(next(words, ""))
        if not 0 <= number < LEAD_OUT:
            raise ValueError("no chapter from 0 to 79: %d" % number)
        found, chapter = first_found(side, range(number, LEAD_OUT))
        return found, chapter == number
    if command not in ("next", "previous", "play", "still"):
        raise ValueError("no such command: " + command)
    if command in ("next", "previous"):
        at = chapter_of(side, place)
        found, _ = first_found(side, range(at + 1, LEAD_OUT) if command == "next" else reversed(range(at)))
    else:
        found = play(side, place) if command == "play" else place
    return found, found is not None


def main():
    if len(sys.argv) < 3:
        raise ValueError("usage: player.py FILE search PLACE|chapter N|next|previous|play|still ..")
    path = sys.argv[1]
    metadata = beside(path)
    settings = settings_of(read_metadata(metadata) if metadata else None)
    place, status, words = 0, 0, iter(sys.argv[2:])
    with ldvbi.Stream(path, settings.system, settings.black, settings.white, recover=True) as side:
        if not side:
            raise ValueError("no field in " + path)
        for command in words:
            found, is_right = done(side, place, command, words)
            status |= not is_right
            said = command + ":" + ("" if is_right else " not found")
            if found is not None:
                place, picture = found, picture_of(side, found)
                said += "%s field %d%s" % ("" if is_right else ",", found + 1,
                                           "" if picture is None else " picture %d" % picture)
            print(said)
    return status


if __name__ == "__main__":
    signal.signal(signal.SIGPIPE, signal.SIG_DFL)  # so that it ends quietly where nobody reads on
    try:
        sys.exit(main())
    except (OSError, ValueError) as error:
        print("player.py: %s" % error, file=sys.stderr)
        sys.exit(2)
