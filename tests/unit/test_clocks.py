"""The clocks of NTSC CLV discs: found and judged by, of sides that the library judges, and which gaps one may have made
if none is found. What the calls answer of numbers has tests/library/whole.txt."""

import functools
import re

from compact import cells_of, made
from discs import side
import ldvbi
from ldvbi import Clock, ClockKind, Gap, GapKind, Reason, Verdict
from ldvbi_side.judge.clock import open_in
import pytest
from room import reason

PLAIN, DROP = Clock(ClockKind.plain), Clock(ClockKind.drop_frame)
THOUSAND, MORE = Clock(ClockKind.one_in, 1000, 399), Clock(ClockKind.one_in, 1001, 300)
# Three places of each: 0:00:59.29 is followed by 0:01:00.02, and of one in 1,000 or 1,001 a number is left out
DISCS = {DROP: "NTSC t0..5430!1800,1801,3600,3601,5400,5401", THOUSAND: "NTSC t0..2430!399%1000",
         MORE: "NTSC t0..2330!300%1001"}


@functools.lru_cache(maxsize=None)
def fields_of(clock, on_both):
    """The readings of a disc, which has its numbers on one field of each picture or on both."""
    fields = list(made(DISCS[clock], side).readings)
    return [fields[place - place % 2 if on_both else place] for place in range(len(fields))]


def judged(fields, clock="find", system="NTSC", counted="times"):
    return ldvbi.judge_side(fields, system, counted, may_end=True, clock=clock)


@pytest.mark.parametrize("on_both", (False, True))
@pytest.mark.parametrize("clock, picture, around", ((DROP, 900, (899, 901)), (THOUSAND, 200, (199, 201)),
                                                    (MORE, 600, (600, 602))))
def test_a_side_and_a_loss(clock, picture, around, on_both):
    """A whole side; then a picture is lost (counted from 0, and the numbers around it): two fields and a number. With
    numbers on both fields of a picture the one before it is a field later, and so is the last one of the side: this one
    is off from the first by one field alone."""
    fields = fields_of(clock, on_both)
    found = judged(fields)
    assert (found.verdict, found.reasons, found.clock, found.on_both) == (Verdict.whole, Reason(0), clock, on_both)
    assert (found.first, found.last, set(found.tally)) == (0, len(fields) - 2 + on_both, {0})
    assert judged(fields, clock) == found and ldvbi.find_clock(fields, "NTSC") == clock
    found = judged(fields[:2 * picture] + fields[2 * picture + 2:])
    assert (found.clock, found.verdict, found.tally.lost) == (clock, Verdict.not_whole, 2)
    assert found.reasons == Reason.is_lost | (Reason(0) if on_both else Reason.is_off)
    assert found.gaps == (Gap(2 * picture - 2 + on_both, 2 * picture, 2, 0, *around, GapKind.lost),)


def test_without_its_clock():
    """Each place is a gap of as many fields as its numbers have: four by drop-frame, and two. With numbers on both
    fields it isn't known to be one of the clock. By one whose places are elsewhere each of its own is a gap, and each
    of the disc's: around the number between the two the others go on."""
    for clock, between in ((DROP, 4), (MORE, 2)):
        found = judged(fields_of(clock, False), None)
        assert (found.verdict, found.reasons, found.clock) == (Verdict.cannot_tell, Reason.is_open, PLAIN)
        assert [(gap.fields, gap.kind) for gap in found.gaps] == [(between, GapKind.open)] * 3
        found = judged(fields_of(clock, True), None)
        assert (found.verdict, found.tally.lost, found.tally.gaps) == (Verdict.not_whole, 3 * between, 3)
    found = judged(fields_of(THOUSAND, False), THOUSAND._replace(phase=400))
    assert (found.verdict, found.reasons, found.tally.open_gaps) == (Verdict.cannot_tell, Reason.is_open, 6)
    assert [(gap.from_, gap.to, gap.kind) for gap in found.gaps[:2]] == [(398, 400, GapKind.replaced),
                                                                         (400, 401, GapKind.replaced)]


@pytest.mark.parametrize("text, counted", (
    ("NTSC t0..3600!1800,1801", "times"), ("NTSC 1..3430!399%1000", "pictures"), ("PAL t0..3430!399%1000", "times"),
    ("NTSC t0..2390!399%1000", "times"), ("NTSC B", "times")))
def test_none_is_found(text, counted):
    """Of pictures, of PAL, and where fewer than three places are shown, it is judged as without a clock."""
    one = made(text, side)
    found = ldvbi.judge_side(one.readings, one.system, counted, clock="find")
    assert found == ldvbi.judge_side(one.readings, one.system, counted)
    assert ldvbi.find_clock(one.readings, one.system, counted) == found.clock == PLAIN


def test_what_is_refused():
    fields = made("NTSC t0..9", side).readings
    wrong = "clock has no such kind, or its phase is not below its period"
    for clock, text in ((Clock(3), wrong), (Clock(ClockKind.one_in), wrong), (Clock(2, 1000, 1000), wrong),
                        (Clock(258, 1000, 1), wrong), (Clock(2, -1, -1), wrong), (Clock(2, 1000, 2 ** 32 + 1), wrong),
                        ("seek", "clock is no Clock, nor to be found"), (1, "clock is no Clock, nor to be found"),
                        ((1, 0), "clock is no Clock, nor to be found")):
        assert reason(judged, fields, clock) == text
    assert judged(fields, (1, 7, 9)).clock == Clock(1, 7, 9)  # which nobody looks at


# Numbers of gaps in which fields for one are too few, or for two; numbers that go on from one to the next; and those of
# the gaps that a clock may have left out. THOUSANDS has none of rest 400 by a thousand but at an end, which shows
# nothing, and MORE none by 1,001. TENTHS is long, and of minutes that the clock leaves out it shows none.
RUNS = {"THOUSANDS": "401-1399 1401-2399 2401-3399 3401-4399 4401-4409",
        "MORE": "401-1401 1402-2402 2403-3403 3404-4404", "TENTHS": "16202-19799 34202-37799 52202-55799"}
OPEN = """
    400 | none | 0-399 401-3998 | 400 || 400 | none | 0-399 401-3999 | none
    400 | none | THOUSANDS 5399-5401 | none || 400 | none | THOUSANDS 5400-5402 | 400
    400 | none | THOUSANDS 5398-5400 | 400 || 400 | none | THOUSANDS 5399-5399 5399-5400 | 400
    400 | none | THOUSANDS 5400-5400 6399-6401 | none || 400 | none | THOUSANDS 4990-5401 | none
    400 | none | MORE | 400 || 400 | none | MORE 5404-5406 | none
    400 6402 | none | THOUSANDS 5399-5401 | 400 || 400 6403 | none | THOUSANDS 5399-5401 | none
    400 6398 | none | THOUSANDS 5399-5401 | 400 || 400 6397 | none | THOUSANDS 5399-5401 | none
    400 6400 | none | THOUSANDS 5399-5401 7399-7401 | none || 400 6400-6401 | none | THOUSANDS 5399-5401 | 6401
    1000 4000 | none | 1001-1999 2001-2999 3001-3999 5500-7102 | none
    1000 | none | 1001-1999 2001-2999 3001-3999 4001-4999 5001-5009 | 1000
    400-401 | none | THOUSANDS | 400-401 || 400 | 3600-3601 | 0-399 401-3000 | 400 3600-3601
    none | 1800-1801 | 0-1799 1802-8998 | 1800-1801 || none | 1800-1801 | 0-1799 1802-8999 | none
    none | 3600-3601 | TENTHS 1799-1802 | none || none | 3600-3601 | TENTHS 1800-1803 | 3600-3601
    none | 3600-3601 | TENTHS 1798-1801 | 3600-3601 || none | 900-901 18000-18001 1799-1800 | TENTHS | none
    none | 3600-3601 7200-7201 | TENTHS 1799-1802 | 3600-3601 7200-7201
    none | 3600-3601 7200-7201 | TENTHS 1799-1802 5399-5402 | none
"""


def test_which_gaps_are_open():
    for row in cells_of(OPEN):
        singles, pairs, runs, wanted = [[range(int(first), int(last or first) + 1) for first, last in re.findall(
            r"(\d+)(?:-(\d+))?", re.sub("[A-Z]+", lambda one: RUNS[one[0]], cell))] for cell in row]
        assert open_in(singles, pairs, runs) == set().union(*wanted), row
