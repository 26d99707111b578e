#!/usr/bin/env python3
"""Finds a picture, a time (0:59:29.07 is picture 7 of its second) or a chapter in a TBC file, and prints its first
field, from 1. It is sought by halving: 2 to 6 MB of 50 GB are fetched. So numbers and chapters have to rise, and on a
worn side one may be missed: to be sure that it isn't there, judge the whole side, as whole.py does. A misread number
isn't found. Status 1: not found; 2: something can't be read, and standard error says what.

    PYTHONPATH=python python3 examples/seek.py side.tbc NTSC 16384 51200 12345
    PYTHONPATH=python python3 examples/seek.py side.tbc NTSC 16384 51200 chapter 3

As `make install PREFIX=DIR` installs this file, with the package in DIR/share/ldvbi/python:

    PYTHONPATH=DIR/share/ldvbi/python python3 DIR/share/doc/ldvbi/examples/seek.py side.tbc NTSC 16384 51200 12345
"""

import re
import signal
import sys

import ldvbi


def whole_number(text, most):
    if not re.fullmatch("[0-9]{1,9}", text) or int(text) > most:
        raise ValueError("no level from 0 to 65535, picture from 0 to 79999, or chapter from 0 to 79: " + text)
    return int(text)


def pictures_of(text, rate):
    """The pictures from the disc's beginning to a time."""
    time = re.fullmatch("([0-9]):([0-5]?[0-9]):([0-5]?[0-9])[.]([0-9]{1,2})", text)
    if not time or int(time[4]) >= rate:
        raise ValueError("no time of a disc: " + text)
    hours, minutes, seconds, picture = map(int, time.groups())
    return ((hours * 60 + minutes) * 60 + seconds) * rate + picture


def main():
    is_chapter = sys.argv[5:6] == ["chapter"]
    if len(sys.argv) != 6 + is_chapter:
        raise ValueError("usage: seek.py FILE NTSC|PAL BLACK WHITE NUMBER|H:MM:SS.PP|chapter N")
    path, system, *levels, wanted = *sys.argv[1:5], sys.argv[-1]
    with ldvbi.Stream(path, system, *(whole_number(level, 65535) for level in levels)) as side:
        if is_chapter:
            place = ldvbi.seek_chapter(side, whole_number(wanted, 79))
        else:
            is_time = ":" in wanted
            number = (pictures_of(wanted, 30 if side.system == ldvbi.System.NTSC else 25) if is_time
                      else whole_number(wanted, 79999))
            sought = ldvbi.seek(side, number, "times" if is_time else "pictures")
            place = sought and sought.field
    print("not found" if place is None else "field %d" % (place + 1))
    return 1 if place is None else 0


if __name__ == "__main__":
    signal.signal(signal.SIGPIPE, signal.SIG_DFL)  # so that it ends quietly if nobody reads on
    try:
        sys.exit(main())
    except (OSError, ValueError) as error:
        print("seek.py: %s" % error, file=sys.stderr)
        sys.exit(2)
