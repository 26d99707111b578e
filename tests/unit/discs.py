"""Sides by hand, for the tests. A row has the items of lines 16, 17 and 18, as `ldvbi draw` reads them: six hexadecimal
digits (with * after them for a word of pass 2, with ^ for one that was recovered from a line that is `change 170`), or
a line without a word: - (blank), ~ (unfinished), ? (change 170), ! (hold 200)."""

import functools

from ldvbi import Cause, FieldReadings, Reading, System
from ldvbi.readings import Levels
from ldvbi_side.join.captures import capture_of
from ldvbi_side.answer.analysis import analyse, analysed
from ldvbi_side.side import Side
from ldvbi_side.write.joined import join

CAUSES = {"-": (Cause.blank, 0), "~": (Cause.unfinished, 0), "?": (Cause.change, 170), "!": (Cause.hold, 200)}
BLANK = "- - -"
LEAD_IN, LEAD_OUT = "- 88FFFF 88FFFF", "- 80EEEE 80EEEE"
STOP, CLV_MARK = "82CFFF", "87FFFF"


def picture(number):
    return "F%05d" % number


def chapter(number):
    return "8%d%dDDD" % divmod(number, 10)


def minutes(hours, minute):
    return "F%dDD%02d" % (hours, minute)


def second(seconds, number):
    """The word of line 16: a second, and the picture in it."""
    return "8%sE%d%02d" % ("ABCDEF"[seconds // 10], seconds % 10, number)


def pictures(numbers, odd=None):
    """The two fields of each of these pictures: its number, and chapter 0. Those of film with an odd number have 3
    fields where `odd` is 1, those with an even one where it is 0."""
    return [row for number in numbers for row in (
        "- {0} {0}".format(picture(number)), *["- 800DDD 800DDD"] * (1 + (number % 2 == odd)))]


def times(numbers, rate=25):
    """The two fields of each of these CLV pictures, counted from the disc's start: its time, with a mark on line 17
    beside it, then a mark and its chapter, as 60857 and 60856 have the lines."""
    rows = []
    for number in numbers:
        seconds, part = divmod(number, rate)
        at = minutes(seconds // 3600, seconds // 60 % 60)
        rows += ["%s %s %s" % (second(seconds % 60, part), CLV_MARK, at), "8BA000 %s 800DDD" % CLV_MARK]
    return rows


@functools.lru_cache(maxsize=None)
def item(text):
    """The reading of a line."""
    of_pass = 0 if text in CAUSES else {"*": 2, "^": 3}.get(text[6:], 1)
    cause, column = CAUSES.get("?" if of_pass == 3 else text, (Cause.word, 0))
    return Reading(cause, of_pass, column, int(text[:6], 16) if of_pass else 0)


def side(rows, system="PAL", first=None, cut=None):
    """The `Side` with these rows, read with the levels 16384 and 51200, which may end without lead-out."""
    readings = [FieldReadings(*map(item, row.split(" "))) for row in rows]
    one = Side(System[system], readings, cut, Levels(16384, 51200), first)
    one.may_end = True
    return one


def plain(rows, system="PAL", first=None, cut=None):
    """Its plain data."""
    return side(rows, system, first, cut).plain()


def answer(rows, system="PAL", first=None, cut=None):
    """What the analysis says of a side with these rows, as plain data."""
    return analyse(plain(rows, system, first, cut))


def typed(rows, system="PAL", first=None, cut=None):
    """The same as an `Answer`."""
    return analysed(plain(rows, system, first, cut)).answer


def joined(*sides):
    """What these sides, named a, b, c, have together."""
    return join([capture_of(one, name) for name, one in zip("abc", sides)])
