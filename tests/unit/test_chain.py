"""What breaks cost, how far apart numbers stand, which are believed, also of a disc that is turned by hand, where
minutes are lost, and what becomes of numbers passed over."""

import re

from compact import cells_of
from ldvbi import Number, State
from ldvbi_side.answer.missing import fates, PassedOver
from ldvbi_side.judge.believed import Line, Numbers, Stretch
from ldvbi_side.judge.chain import chain, chosen, is_on_both
from ldvbi_side.judge.order import is_free, with_turned
from ldvbi_side.judge.paces import ChapterPace, MinutePace, Pace, price, Unit
from ldvbi_side.judge.places import minute_breaks, Showing
from ldvbi_side.judge.readings import Reading
import pytest

VIDEO = Pace("video")
LINE = Line(2, 2, 1, 1)
PACES = {"video": VIDEO, "both": Pace("both"), "film": Pace("film"), "minutes": MinutePace("PAL"),
         "NTSC minutes": MinutePace("NTSC"), "chapters": ChapterPace()}
# Of a pace: fields, a number, the step to the next one and their variants, and how many fields are too many or too few.
# A video picture has 2 fields; of both fields the second one is one after; minutes fit within one minute; one chapter
# may be passed over in 18 fields, and at a break of the pictures' numbers, which 100 stands for, any may follow.
OFF = {"video": "10 7 5: 0, 12 7 5: 2, 9 7 5: -1, 4 7 0: None", "both": "1 7 0 0 1: 0, 1 7 1 1 0: 0, 3 7 1 0 1: 0, "
       "2 7 0 0 0: None", "film": "1 7 0 0 1: None, 2 7 0 0 2: None",
       "minutes": "10 4 0: 0, 2999 4 0: 0, 3000 4 0: 3000, 1 4 1: 0, 5999 4 1: 0, 6000 4 1: 3000, 1 4 3: -8999, "
       "5 4 -1: 3005", "NTSC minutes": "7199 4 1: 0, "
       "7200 4 1: 3604, 3591 4 2: 0, 3590 4 2: -3602",
       "chapters": "17 7 2: 2, 18 7 2: 0, 400 7 3: 4, 400 7 -1: 160, 9 7 0: 0, 9 7 1: 0, 9 7 2: 2, "
       "9 7 4: 6, 9 107 2: 2, 9 107 -1: 160, 9 107 100: 0, 9 7 -1: 160, 9 7 100: 0, 9 7 101: 0, 9 7 140: 1, 9 7 97: 1"}
# A number, a step and variants, and the fields between. Film has 2 and 3 fields in turn: pictures with an odd number
# have 3, those with an even one, or none: video in between.
BETWEEN = {"video": "7 5 0 0: 10", "film": "1 1 0 0: 3, 2 1 0 0: 2, 1 4 0 0: 10, 1 1 1 1: 2, 2 1 1 1: 3, 1 1 2 2: 2, "
           "1 3 2 2: 6"}
# How many numbers have so many fields
NUMBERS = {"video": "5: 2", "both": "3: 1", "film": "2: 1, 4: 1, 5: 2, 7: 3", "minutes": "2999: 0, 5999: 1",
           "NTSC minutes": "3595: 0, 3596: 1"}


def test_a_break_costs_1_and_its_binary_digits():
    assert [price(off) for off in (0, 1, 2, 4, 20, 20000, -1, -20, None)] == [0, 2, 3, 4, 6, 16, 2, 6, 0]


@pytest.mark.parametrize("name, table", (("off", OFF), ("between", BETWEEN), ("numbers_in", NUMBERS)))
def test_paces_rows(name, table):
    for kind, rows in table.items():
        for asked, wanted in (row.split(": ") for row in rows.split(", ")):
            words = [*map(int, asked.split()), *[0, 0] * (kind == "video" and name == "off")]
            assert str(getattr(PACES[kind], name)(*words)) == wanted


def test_rows_of_paces():
    """Of numbers that go on from one to the next, in whichever fields of their pictures they were read, the row is the
    same or one of those a step away, and none of these is asked in vain."""
    for pace in map(Pace, ("video", "both", "film")):
        ways = [(one, other) for one in range(pace.variants) for other in range(pace.variants)
                if pace.kind != "film" or one == other < 2]  # as it changes only at a cut
        steps = {pace.row(0, number) - pace.row(pace.between(number, step, *way), number + step)
                 for number in (6, 7) for step in range(1, 9) for way in ways}
        assert steps == set(pace.steps)
    for name in ("minutes", "chapters"):
        assert {PACES[name].row(9, 7) - PACES[name].row(900, 7 + step) for step in (0, 1)} == set(PACES[name].steps)


def test_least_off():
    """As many fields as by the variants by which they are least off."""
    rows = [(number, step, fields) for number in (6, 7) for step in (-3, -1, 1, 2, 5) for fields in range(1, 16)]
    for pace in PACES.values():
        ways = [(one, other) for one in range(pace.variants) for other in range(pace.variants)]
        for number, step, fields in rows + [(7, 1, 6001), (8, 3, 5), (8, -2, 9), (3, 2, 17), (3, 90, 4)]:
            least = abs(pace.least_off(fields, number, step) or 0)
            assert least == min(abs(pace.off(fields, number, step, *way) or 0) for way in ways)


def readings(*numbers, first=1):
    """Readings of these numbers in each second field."""
    return [Reading(first + 2 * place, number, 4, (17, 18)) for place, number in enumerate(numbers)]


def believed(ones, sure=()):
    """The fields of which a number is believed, each with it."""
    return {one.field: one.number for one in chosen(ones, VIDEO, dict(sure))}


# Many numbers, one in four fields or more, are noise if few go on with one of the four before.
def test_noise():
    noise = [Reading(4 * place, place ** 3 % 10007, 4, (17, 18)) for place in range(1, 1002)]
    assert not believed(noise) and not believed(noise[:-1] + [noise[-1]._replace(field=4008)])
    for others in (noise[:1000], noise[:-1] + [noise[-1]._replace(field=4009)],  # few, and too far apart
                   noise[:752] + readings(*range(252), first=3013),
                   # four rows by turns
                   [Reading(2 * place, place + 9999 * (place % 4), 4, (17, 18)) for place in range(1, 1002)]):
        assert believed(others)
    sure = {one.field: one.number for one in noise[::500]}  # between two of the library's there are fewer
    assert len(believed(noise, sure)) > len(sure)


ON, STILL, WILD = list(range(1, 20)), [1, 2, 3, *[4] * 50, 5, 6, 7], list(range(40000, 40020))
TWO = [Reading(1, 5, 2, (17,)), Reading(1, 6, 2, (18,))]


# Of two of a field the one that fits, of two that fit equally well none; pass 1 counts for more than 2. A jump that
# many follow, and a wild number at the end; a number that stays costs nothing; one fits the still before it, but the
# number after it goes back.
@pytest.mark.parametrize("ones, wanted", (
    ([], []), (readings(5, 6, 70000, 8, 9), [5, 6, 8, 9]), (TWO, []), ([TWO[0], Reading(1, 6, 1, (18,))], [5]),
    (sorted(readings(5, 6, 7) + [Reading(3, 80, 2, (18,))]), [5, 6, 7]), (readings(*ON, *WILD), ON + WILD),
    (readings(*ON, 40000), ON), (readings(*STILL), STILL), (readings(*[30] * 10, 31, *[30] * 10), [30] * 20),
    ([*readings(5), Reading(3, 7, 2, (17,)), Reading(3, 5, 2, (18,)), *readings(7, first=5)], [5, 7])))
def test_which_are_believed(ones, wanted):
    assert list(believed(ones).values()) == wanted


# Readings, each as field:number/weight, with = of a sure one, and the fields that are believed. A break of one field
# costs 2, of three 3, of 65,535 17; that a number begins to stay costs 2; of chains that are worth the same the longer
# one is taken, the one without a jump back, and the first. Four readings before one are asked in any case.
CHAINS = """
    1:5/4 | 1 || 1:5/4 1:6/5 | 1 || 1:5/4 3:70000/4 | 1 || 1:5/3 3:70000/4 | 3
    1:5/4 3:5/1 | 1 || 1:5/4 3:5/2 5:5/1 | 1 3 5 || 1:70000/3 3:9/4 5:9/1 | 3 || 1:5/1 3:5/1 | 1
    1:5/4 3:5/4 5:5/1 5:6/2 | 1 3 5 || 1:5/4= 5:5/1 | 1 || 1:4/4= 3:5/4= 5:5/1 | 1 3 || 1:5/4= 3:5/4= 5:5/1 | 1 3 5
    1:5/3 3:5/3 5:5/1 7:4/4 9:5/4 | 1 3 5 9 || 1:5/4 3:5/2 3:6/2 | 1 3
    1:5/4 3:6/4 6:7/2 | 1 3 6 || 1:5/4 3:6/4 6:7/1 | 1 3 || 1:5/4 3:6/4 4:5/3 | 1 3 || 1:5/4 3:6/4 4:5/4 | 1 3 4
    59:30/4= 101:32819/4 104:32820/4= | 59 101 104 || 59:30/4= 101:32819/3 103:9/1 104:32820/4= | 59 101 104
    59:30/4= 101:40000/4 103:9/1 105:900/1 107:90/1 111:40004/4= | 59 101 111
    59:30/4= 101:40000/4 103:9/1 104:9000/1 105:900/1 107:90/1 111:40004/4= | 59 111
    1:5/2 3:6/2 5:7/2 7:8/2 201:40/2 203:41/2 205:42/2 207:43/2 401:173/4 403:174/4 405:175/4 | 1 3 5 7 401 403 405
"""


def parsed(text):
    """Readings, and those of them that are sure."""
    found = [(Reading(int(field), int(number), int(weight), (17,)), sure) for field, number, weight, sure in re.findall(
        r"(\d+):(\d+)/(\d)(=?)", text)]
    return [one for one, _ in found], {one.field: one.number for one, sure in found if sure}


def test_chains():
    assert chain([], VIDEO) == []
    for text, wanted in cells_of(CHAINS):
        ones, sure = parsed(text)
        assert " ".join(str(one.field) for one in chosen(ones, VIDEO, sure)) == wanted, text
        if not sure:
            assert [one.field for one in chain(ones, VIDEO)] == list(believed(ones))
    # a chapter that stays is no jump back, and of two that fit none is taken
    for text, fields in (("1:5/2 3:5/2 5:40/4", [1, 3]), ("1:5/2 3:5/2 3:6/2 5:6/2", [1, 5])):
        assert [one.field for one in chain(parsed(text)[0], PACES["chapters"])] == fields


def test_between_two_that_are_sure():
    """Of a single number the two breaks cost more than it weighs, of ten they don't; a sure one is believed whatever
    stands around it or in its field."""
    assert believed(readings(1, 2, 70000, 4, 5), {3: 2, 7: 4}) == {1: 1, 3: 2, 7: 4, 9: 5}
    row = [1, 2, *range(500, 510), 13, 14]
    assert list(believed(readings(*row), {3: 2, 25: 13}).values()) == row
    both = [*readings(1, 2), Reading(5, 900, 1, (17,)), Reading(5, 3, 4, (18,)), *readings(4, 5, first=7)]
    assert believed(both, {5: 900}) == {5: 900}


# Numbers of fields, of which one is due and one doubtful: most stand on the field before as well, or just half of them.
@pytest.mark.parametrize("text, wanted", (("5 5 6 6", False), ("5 5 5 6 6", True), ("- - 5 5? 6 6 -", False),
                                          ("- 5 5 - - 6 6 6", True), ("5 5 5. 6 6", False), ("- -", False)))
def test_numbers_on_both_fields(text, wanted):
    states = {"?": State.doubtful, ".": State.due}
    assert is_on_both([Number(int(one.rstrip("?.")), states.get(one[-1], State.believed)) if one != "-" else
                       Number(None, State.nothing) for one in text.split()]) == wanted


# Believed numbers of a disc that is turned by hand, others, and those of them that are believed, too: at most 5 off the
# numbers beside them, 40 fields away, and with three more marks as near, which are breaks, stills and such numbers. The
# marks of WHEEL are 3, 9 and 15, where a number begins to stay, and not where it stays on; those of FAR 7, 11 and 15.
HAND = {"WHEEL": "1:10 3:10 5:10 7:11 9:11 11:11 13:12 15:12 17:12", "FAR": "5:10 7:10 9:11 11:11 13:12 15:12",
        "NONE": ""}
TURNED = """
    WHEEL 19:13 | 18:15/2 | 18 || WHEEL 19:13 | 18:17/2 | 18 || WHEEL 19:13 | 18:18/2 | none
    WHEEL 19:13 | 18:8/2 | 18 || WHEEL 19:13 | 18:7/2 | none || WHEEL 19:13 | 18:14/1 | none
    WHEEL 19:13 | 18:12/1 | 18 || WHEEL 19:13 | 18:13/1 | 18 || 1:10 3:10 5:10 7:10 9:10 11:11 | 10:13/2 | none
    FAR 91:13 | 51:15/2 | 51 || FAR 91:13 | 52:15/2 | none || FAR 91:13 | 50:15/2 | none
    FAR 91:17 | 51:15/2 | 51 || FAR 91:18 | 51:15/2 | none || FAR 87:13 | 47:15/2 | 47 || FAR 88:13 | 47:15/2 | none
    1:10 5:12 9:14 13:16 | 10:15/2 | none || 1:10 3:12 5:12 7:14 | 8:15/2 | 8
    FAR 57:13 59:13 60:14 | 55:15/2 | 55 || FAR 57:13 59:13 60:14 | 56:15/2 | none
    1:10 3:11 | 4:13/2 6:13/2 8:13/2 10:14/2 | 4 6 8 10 || 1:10 3:11 | 4:13/2 6:13/2 8:13/2 | none
    NONE | 1:5/4 3:5/4 5:5/4 7:5/4 | none
"""


def test_turned_by_hand():
    for text, others, wanted in cells_of(TURNED):
        ones = parsed(re.sub("([A-Z]+)", lambda one: HAND[one[0]], text).replace(" ", "/4 ") + "/4")[0]
        others = parsed(others)[0]
        found = with_turned(Numbers(Unit("picture", 25), VIDEO, ones), ones + others).believed
        assert found == sorted(found) and set(ones) <= set(found)
        assert " ".join(str(one.field) for one in found if one in others) == wanted.replace("none", ""), text


def test_which_fields_are_free():
    """Of those that were played at other speeds two stretches may share the field in which they meet."""
    speeds = [Stretch(first, last, LINE) for first, last in ((10, 20), (30, 40))]
    asked = (1, 10), (1, 11), (12, 15), (19, 30), (20, 30), (20, 31), (39, 50), (40, 50)
    assert [one for one in asked if is_free(speeds, Stretch(*one, LINE))] == [(1, 10), (20, 30), (40, 50)]
    assert is_free([], Stretch(1, 99, LINE))


# Showings of minutes, fields with lead-in or lead-out, and the breaks: a minute that was held, or that has lost some of
# its fields between two others, or minute 0 after lead-in. PAL has 3,000 fields to one, NTSC 3,590 to 3,600.
MINUTES = """
    PAL | 4@1-3000 5@3001-6000 6@6001-9000 | none | none || PAL | 4@1-3001 | none | held 1-3001 4 4 1
    NTSC | 4@1-3600 5@3601-7190 6@7191-7200 | none | none || NTSC | 4@1-3601 | none | held 1-3601 4 4 1
    NTSC | 4@1-9 5@10-3598 6@3599-3600 | none | lost 9-3599 4 6 1 || NTSC | 4@1-9 5@10-20 6@3600-3600 | none | none
    PAL | 4@1-9 5@10-3008 6@3009-3010 | none | lost 9-3009 4 6 1 || PAL | 4@1-9 6@10-3008 7@3009-3010 | none | none
    PAL | 4@1-9 5@10-3008 7@3009-3010 | none | none || PAL | 4@1-9 5@10-3008 6@3009-3010 | 20 | none
    PAL | 4@1-9 5@10-3008 6@3009-3010 | 9 3009 | lost 9-3009 4 6 1 || PAL | 0@10-20 1@3000-3001 | none | none
    PAL | 0@10-20 1@3009-3010 | 2 9 | lost 9-3009 0 1 1 || PAL | 0@10-20 1@3010-3011 | 2 9 | none
    PAL | 1@10-20 2@3009-3010 | 9 | none || PAL | 0@10-20 2@3009-3010 | 9 | none
    PAL | 0@10-20 1@3009-3010 | 10 | none
    PAL | 0@10-20 1@3009-3010 | 9 30 | none || PAL | 0@10-20 1@3009-3010 | 9 3009 | lost 9-3009 0 1 1
"""


def test_breaks_of_minutes():
    for system, showings, ends, wanted in cells_of(MINUTES):
        shown = [Showing(*map(int, re.split("[@-]", one))) for one in showings.split()]
        found = minute_breaks(MinutePace(system), shown, [int(end) for end in ends.split() if end != "none"])
        assert ", ".join("%s %d-%d %d %d %d" % one for one in found) == wanted.replace("none", ""), showings


def test_a_long_row_of_wrong_numbers():
    """Those that fit one another weigh 14, and the jumps there and back cost 8 each: the best of all chains goes astray
    before the end."""
    for count in (30, 39, 40, 41):
        wrong = [(place * 7919) % 79999 for place in range(30, 30 + count)]
        ones = believed(readings(*range(1, 31), *wrong, *range(31 + count, 121)))
        assert list(ones.values()) == [*range(1, 31), *range(31 + count, 121)]
    wrong = [Reading(41 + 2 * place, 61 + place, 1, (18,)) for place in range(14)]
    ones = believed(readings(*range(1, 21)) + wrong + readings(*range(35, 61), first=69))
    assert list(ones.values()) == [*range(1, 21), *range(35, 61)]


def test_a_chain_that_went_astray():
    """The first of the wrong numbers, one field too late, weighs more than its break, so that the chain which ends
    there is the best one so far; the jump back after it costs more than it brings. The right chain is found by its
    numbers, which go on."""
    for count in (3, 39, 41):
        wrong = [Reading(40, 21, 3, (17,)), *(Reading(41 + place, (place * 7919 + 30000) % 79999, 1, (18,))
                                              for place in range(count - 1))]
        ones = believed(readings(*range(1, 21)) + wrong + readings(*range(60, 80), first=119))
        assert list(ones.values()) == [*range(1, 21), *range(60, 80)]


# The first and the last number that were passed over, for how many of them there are fields, and whether fields are
# lost; and why each is missing. Between two sides (50 to 200 in the last row) a number is of neither.
@pytest.mark.parametrize("passed, expected", (
    ([(1, 100, 5, True)], "1-5 undecided, 6-95 lost, 96-100 undecided"), ([(1, 100, 0, True)], "1-100 lost"),
    ([(1, 100, 10, True)], "1-10 undecided, 11-90 lost, 91-100 undecided"), ([(1, 100, 11, True)], "1-100 undecided"),
    ([(1, 100, 1, True)], "1-1 undecided, 2-99 lost"), ([(1, 100, 100, False)], "1-100 unread"),
    ([(1, 100, 100, None)], "1-100 undecided"),
    ([(1, 100, 0, True), (40, 60, 0, False), (55, 80, 0, None)],
     "1-39 lost, 40-60 unread, 61-80 undecided, 81-100 lost, 101-200 unshown, 201-201 undecided")))
def test_fates(passed, expected):
    spans = {"unread": [], "undecided": [], "lost": [], "unshown": [(50, 200)] if len(passed) > 1 else []}
    for one in passed:
        for why, *span in fates(*one):
            spans[why].append(tuple(span))
    found = PassedOver(list(spans.items()))
    for first, last, why in (fate.replace("-", " ").split() for fate in expected.split(", ")):
        assert {one for *_, one in found.parts(int(first), int(last))} == {why}
