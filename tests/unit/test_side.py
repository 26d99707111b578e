"""The class `Side`, seeking, the map that a player loads, and what the command prints of an answer."""

import gc
import re

from compact import cells_of, made
from discs import side, typed
from ldvbi.readings import Cut, Levels
from ldvbi_side.answer.entries import FewWords, Numbered
from ldvbi_side.answer.lines import SIZES
from ldvbi_side.as_json import as_json
from ldvbi_side.command.chapters import chapter_spans
from ldvbi_side.command.map import head_rows, map_rows
from ldvbi_side.command.summary import MOST_LINES, summary
from ldvbi_side.command.tables import bad_line_rows, field_rows
from ldvbi_side.levels import Best, Tried
from ldvbi_side.seek import seek, text_of, wanted_of, why_not
import pytest
from room import reason

# What is found of what is asked for: field and frame, or why it isn't. A time is sought where it was read, not where it
# is only due; of a second or a minute the first field with any of it counts. The side with 1:09 begins at 1:08:58.
SOUGHT = """
    Lx2 1..20 | 020: 41 21 | 21: the numbers end at 20, in field 41 | 0: the numbers begin at 1, in field 3
        | 0:00:00.00: the side counts pictures, not times | 0:00: the side counts pictures, not minutes
    t103450..103549 | 1:08:59.25: no clock shows it | 1:08:60: no clock shows it | 1:60: no clock shows it
        | 1:9:1.3: 157 79 | 1:10: the numbers end at 1:09:01.24, in field 199
        | 69: the side counts times, not pictures | 1:59:59: the numbers end at 1:09:01.24, in field 199
        | 0:01:09.00: lost before field 1; time 1:08:58.00 is in field 1
    t1500..1529 t1510..1539 31=?/?/? | 0:01:00.15: 71 36 | 0:01:00: 1 1 || PAL/1 1..20 -1 | 2: 2 1 | chapter 0: 1 0
    t103450..103549 101=?/?/? | 1:09: 101 51, by the numbers around it: no number was read there
    m69..70x3000 | 1:10: 3001 1501 | 1:11: the numbers end at 1:10, in field 3001
        | 1:09:00: the side counts minutes, not seconds
    1..20 19=-/#70000*/#70000 9=-/#15/? | 70000: the numbers end at 20, in field 39 | 15: 29 15
        | 5: 9 5, by the numbers around it: another number was read there: 15
        | 10: 19 10, by the numbers around it: another number was read there: 70000
    1..40 22:80/2=-/c3/c3 4=-/c7/c7 | chapter 3: 22 11 | chapter 7: the chapters end at 3, in field 22
        | chapter 2: chapter 3 follows chapter 0 in field 22
    1..10 31..40 2:20/2=-/c1/c1 22:40/2=-/c3/c3 | chapter 0: the chapters begin at 1, in field 2
        | chapter 2: chapter 3 follows chapter 1 in field 22, and fields are lost before it
    1..5 11..20 31..40 2:20/2=-/c1/c1 22:50/2=-/c3/c3 | chapter 2: chapter 3 follows chapter 1 in field 22
    1..11 31..40 2:20/2=-/c1/c1 21=-/#11/c3 22:42/2=-/c3/c3 | chapter 2: chapter 3 follows chapter 1 in field 21
    1..10 31..40 2:20/2=-/c1/c1 21=-/#31/c1 22:40/2=-/c3/c3 | chapter 2: chapter 3 follows chapter 1 in field 22
    Lx2 1..40 4:82/2=-/c5/c5 Ox2 Lx2 1..40 88:166/2=-/c3/c3 | chapter 4: no field shows it
    1..11 14..30 41=-/c0/c0 | 12: lost after field 21; picture 11 is in field 21, picture 14 in field 23
        | 23: unread after field 39; picture 22 is in field 39, picture 24 in field 43
    f1..30 24=-/c0/c0 | 10: lost or unread after field 21; picture 9 is in field 21, picture 11 in field 26
    NTSC t0..1 t3..4 | 0:00:00.02: lost, unread or skipped by the disc itself after field 3;
        time 0:00:00.01 is in field 3, time 0:00:00.03 in field 5
    NTSC t0..2409!400%1001 | 0:00:13.10: skipped by the disc itself after field 799;
        time 0:00:13.09 is in field 799, time 0:00:13.11 in field 801
    m0x3000 m5..6x3000 | 0:03: lost after field 1; minute 0:00 is in field 1, minute 0:05 in field 3001
    Lx2 1..20 Ox2 Lx2 41..60 | 30: no field shows it; picture 20 is in field 41, picture 41 in field 47
    1..10 21..30 1..5 | 15: lost after field 19; picture 10 is in field 19, picture 21 in field 21
    Bx10 | 3: no number of the side is believed | chapter 1: no chapter of the side is believed
"""

# The same of sides with fields of padding, from one to another. Metadata of others may call so what shows numbers.
PADDED = """
    7:8 | 1..3 Bx2 5..8 Bx2 10..12 | 4: padding in fields 7 to 8, between 3 in field 5 and 5 in field 9
        | 9: 17 9, by the numbers around it: no number was read there
    7:8 | 1..3 Bx4 6..8 | 4: padding in fields 7 to 8, between 3 in field 5 and 6 in field 11
        | 5: 9 5, by the numbers around it: no number was read there
    9:10 | 1..3 Bx4 6..8 | 4: 7 4, by the numbers around it: no number was read there
        | 5: padding in fields 9 to 10, between 3 in field 5 and 6 in field 11
    7:7 | 1..3 B 5..8 | 4: padding in field 7, between 3 in field 5 and 5 in field 8
    8:8 | 1..3 B 5..8 | 4: lost or unread after field 5; picture 3 is in field 5, picture 5 in field 8
    1:4 | Bx4 3..8 | 2: the numbers begin at 3, in field 5, after padding in fields 1 to 4 | 9: the numbers end at 8, in
        field 15
    2:4 | Bx4 3..8 | 2: the numbers begin at 3, in field 5 || 1:1 | B 3..8 | 2: padding in field 1, beside 3 in field 2
    1:4+9:10 | Bx4 3..4 Bx2 6..8 | 2: the numbers begin at 3, in field 5, after padding in fields 1 to 4
    5:6+11:12 | 1..2 Bx2 4..5 Bx2 7..9 | 3: padding in fields 5 to 6, between 2 in field 3 and 4 in field 7
        | 6: padding in fields 11 to 12, between 5 in field 9 and 7 in field 13
    27:28 | 41..50 11..13 Bx2 15..18 1..5 | 14: padding in fields 27 to 28, between 13 in field 25 and 15 in field 29
    7:7 | b1..3 Bx2 b5..8 | 4: padding in field 7, between 3 in field 5 and 5 in field 9
    4:5 | b1..3 b5..8 | 4: lost after field 5; picture 3 is in field 5, picture 5 in field 7
    5:6 | b1..3 b5..8 | 4: padding in fields 5 to 6, between 3 in field 5 and 5 in field 7
    6:6 | b1..3 b5..8 | 4: padding in field 6, between 3 in field 5 and 5 in field 7
    6:7 | b1..3 b5..8 | 4: padding in fields 6 to 7, between 3 in field 5 and 5 in field 7
    1:1 | B t103450..103549 | 0:01:09.00: padding in field 1, beside 1:08:58.00 in field 2
"""


def test_texts():
    for text, wanted in (("00123", ("picture", (123,))), ("1:09", ("time", (1, 9))), ("chapter 3", ("chapter", (3,))),
                         ("Chapter 3", ("chapter", (3,))), ("CHAPTER 3", ("chapter", (3,))),
                         ("1:9:3.7", ("time", (1, 9, 3, 7))), ("1:09:30", ("time", (1, 9, 30)))):
        assert wanted_of(text) == wanted
    for text in ("", "x", "-1", "1:2", "1:02:3", "1:02:03.", "chapter", "chapter  3", "1.5", " 1", "1:09:30.12.1"):
        assert reason(wanted_of, text).endswith(", nor a time h:mm, h:mm:ss or h:mm:ss.pp, nor chapter n: %r" % text)


@pytest.mark.parametrize("pads, text, asked", [(pads, text, asked) for pads, text, *asked in (
    *(("", *cells) for cells in cells_of(SOUGHT)), *cells_of(PADDED))])
def test_what_is_found(pads, text, asked):
    given = made(text, side)
    pads = [range(int(first), int(last) + 1) for first, last in re.findall(r"(\d+):(\d+)", pads)]
    given.pad = [any(field in pad for pad in pads) for field in range(1, len(given.readings) + 1)] if pads else None
    known = given.analysis.answer
    for number, _, wanted in (one.partition(": ") for one in asked):
        asked_for = wanted_of(number)
        found = seek(known, asked_for)
        said = text_of(found) if found else why_not(known, asked_for)
        assert re.sub(r"^field (\d+), frame ", r"\1 ", said) == wanted


# A side, and its map: of each kind the number, the field, the frame (0 before the first one), and how it is known there
MAPS = (
    ("L 1..6 4=? 6=S/S/#3 8=-/#70000/#70000* 11=-/c1/c1 13=-/c1/c1",
     "picture 1 2 1 read, picture 2 4 2 neighbours, picture 3 6 3 read, picture 4 8 4 neighbours, picture 5 10 5 read, "
     "picture 6 12 6 read, chapter 0 3 2 read, chapter 1 11 6 read, stop 3 6 3 read"),
    ("t1499..1500", "time 0:00:59.24 1 1 read, time 0:01:00.00 3 2 read, chapter 0 2 1 read"),
    ("m9..10x3000", "minute 0:09 1 1 read, minute 0:10 3001 1501 read"), ("PAL/1 S/-/- B", "stop - 1 0 read"),
    ("0 1=S/#0/#0", "picture 0 1 1 read, chapter 0 2 1 read, stop 0 1 1 read"))
HEADS = (  # a side, its levels, and the head of its map
    ("PAL/1 5..6", Levels(0, 65535), "system PAL 1 0 side, black 0 1 0 side, white 65535 1 0 side, fields 4 1 0 side"),
    ("NTSC 1", None, "system NTSC 1 1 side, black - 1 1 side, white - 1 1 side, fields 2 1 1 side"))


def test_maps():
    """Of pictures it says what seeking says."""
    for text, wanted in MAPS:
        assert ", ".join(" ".join(map(str, row)) for row in map_rows(made(text, typed))) == wanted
    for text, known_levels, wanted in HEADS:
        assert ", ".join(" ".join(map(str, row)) for row in head_rows(made(text, typed), known_levels)) == wanted
    known = made("1..40 21..60 60x4 70..90 1:210/14=?", typed)
    mapped = {number: row for kind, number, *row in map_rows(known) if kind == "picture"}
    for number in range(100):
        found = seek(known, wanted_of(str(number)))
        row = found and [found["field"], found["frame"], "read" if found["read"] else "neighbours"]
        assert mapped.get(number) == row


def test_where_chapters_end():
    """Of a side, of two sides, and where one is doubtful; fields are counted from 0."""
    for text, wanted in (("Lx2 1..40 24:82/2=-/c1/c1 Ox2", "0 3-23, 1 23-82"),
                         ("Lx2 1..20 4:42/2=-/c1/c1 Ox2 Lx2 1..20", "1 3-42, 0 47-86"),
                         ("1..40 22:80/2=-/c3/c3 4=-/c7/c7", "0 1-21, 3 21-80")):
        assert ", ".join("%d %d-%d" % one for one in chapter_spans(made(text, typed))) == wanted


# Rows of sides: field, frame, format, picture, chapter, time, stop, doubtful, programme status, users' codes, unknown.
# Minutes stand in the fields that say them, pictures in both fields that have them.
FIELD_ROWS = (
    ("8BAFFF/#1/#1 -/88FFFB/F00E81* 87D00A/#2/- A00000/-/- B -/8DC000/80D000 8DC0A1/-/-", """
        1|1|cav|1|||||cx off FFF  2|1|neither||||||||88FFFB on line 17; F00E81 on line 18  3|2|cav|2||||||7 00A
        4|2|neither||||||||A00000 on line 16
        6|3|neither|||||cx on on line 17, pass 1: line; users on line 18, pass 1: line  7|4|neither||||||cx on 0A1"""),
    ("t1498..1501 6=-/-/@0:01 7=8AE001/?/?", """1|1|clv|||0:00:59.23  2|1|clv||0||||cx off 000  3|2|clv|||0:00:59.24
        4|2|clv||0||||cx off 000  5|3|clv|||0:01:00.00  6|3|clv|||0:01  7|4|clv|||0:01:00.01
        8|4|clv||0||||cx off 000"""),
    ("t1498..1499 3=-/F0DD75/-", """1|1|clv|||0:00:59.23  2|1|clv||0||||cx off 000
        3|2|clv|||||time on line 17, pass 1: clock  4|2|clv||0||||cx off 000"""),
    ("m9 -/M/- -/@0:09/-", "1|1|clv|||0:09  2|1|clv  3|2|clv|||0:09"),
    ("b4..5", "1|1|cav|4  2|1|cav|4  3|2|cav|5  4|2|cav|5"), ("B", ""))


def test_tables_rows():
    for text, wanted in FIELD_ROWS:
        found = ["|".join(map(str, row)).rstrip("|") for row in field_rows(made(text, side))]
        assert found == (re.split(r"\s{2,}", wanted.strip()) if wanted else [])
    found = list(field_rows(made("1..20 21=-/#70000*/#70000* 23=8AE000/M/#12 32=-/c7/c7", side)))
    assert [found[20][:8], found[22][:8], found[31][:7]] == [
        [21, 11, "cav", "", "", "", "",
         "picture 70000 on line 17, pass 2: neighbours; picture 70000 on line 18, pass 2: neighbours"],
        [23, 12, "both", 12, "", "", "", "clv picture on line 16, pass 1: format; clv on line 17, pass 1: format"],
        [32, 16, "neither", "", "", "", ""]]
    for text, wanted in (("NTSC -/?/#1", [[1, 17, "change 170", 29120, "", "", ""]]), ("B", [])):
        assert list(bad_line_rows(made(text, side))) == wanted


DAMAGED = """
whole: no: 2 fields lost; 1 picture lost
system: PAL, CAV
fields: 62, cut: none
line 16: 1 words, 0 of them read only after smoothing; 1 bad (50.00 %), 60 blank
line 17: 61 words, 0 of them read only after smoothing; 1 bad (1.61 %), 0 blank
line 18: 61 words, 0 of them read only after smoothing; 1 bad (1.61 %), 0 blank
pictures: 27, from 1 to 30
lost: 1 (picture 22 after field 43)
unread: 2 (pictures 10 to 11 after field 19)
lost fields: 2 (2 after field 43)
jumps: none
stills: none
shown again: none
doubtful, set aside: 3 (picture 79999 in field 21 line 17, picture 79999 in field 21 line 18,
 picture 3 in field 27 line 18)
lines 17 and 18 differ: 1 (field 27: picture 13 and 3, 13 taken)
chapters: 1 (chapter 0 in field 4)
picture stops: 1 (picture 12 in field 25)
lead-in: 2 (fields 1 to 2), lead-out: 2 (fields 61 to 62)
unknown words: none
programme status: none, users' codes: none
codes out of place: none
"""
# Sides, and lines of their summaries. Of more than four entries the first are named.
SUMMARIES = """
    1..30 5=-/#3^/#3^ 7=-/#4^/?
        | line 18: 59 words, 0 of them read only after smoothing, 1 recovered; 1 bad (1.67 %), 0 blank
    1..10 10x3 11..30 21..30 3=? 7=? 11=? 15=? 41=? | unread: 5 (picture 2 after field 1, picture 4 after field 5,
        picture 6 after field 9, picture 8 after field 13 and 1 more) | jumps: 1 (picture 30 to 21 in field 67)
        | stills: 1 (picture 10 in fields 19 to 25) | shown again: 2 (picture 10 in field 21, pictures 21 to 30 in field
        67)
    n0..3x3000 -3501:4500 | lost fields: at least 1000 (at least 1000, between fields 3001 and 5000)
    n0..3x3000 -3002:6000 | lost fields: at least 2999 (at least 2999, between fields 3001 and 3001)
    n0..3x3000 -3001:6000 | lost fields: at least 3000 (at least 3000 after field 3000)
    m9..11x3000 | lost: 9 (minutes 0:00 to 0:08 before field 1) | lost fields: at least 27000 (at least 27000
        before field 1) || B m9..11x3000 | lost fields: at least 26999 (at least 26999 before field 2)
    NTSC f1..60 f66..120 | lost fields: at least 12 (at least 12 after field 149)
    b1..60 b66..120 | whole: no: at least 10 fields lost; 5 pictures lost | lost fields: at least 10 (at least 10 after
        field 120)
    PAL/1500 n0..2x3000 | lost fields: 1 (1 or more after field 1499)
    PAL/31,32 1..30 -41:44 | lost fields: 4 (4 after field 39), undecided: 2 (lost or shown again after field 30, lost
        or shown again after field 31)
    1..30 4:60/2.16=8DC0A1 2=8BA0A1/88FFFB/800DDD 6=83D00F/800DDD/F00E81*
        | unknown words: 2 (88FFFB in field 2 line 17, F00E81 in field 6 line 18)
        | programme status: 29 (CX off 0A1 in 1 field, CX on 0A1 in 28 fields), users' codes: 1 (3 00F in 1 field)
    1..9 3=S/#2/#2 5=S^/#3/#3 | picture stops: 1 (picture 2 in field 3), unsure: 1 (picture 3 in field 5)
        | codes out of place: none
    Bx9 | system: PAL, no code of CAV or CLV
        | line 17: 0 words, 0 of them read only after smoothing; 0 bad (0.00 %), 9 blank
    1..30 3=? 7=? 11=? 15=? | unread: 4 (picture 2 after field 1, picture 4 after field 5, picture 6 after field 9,
        picture 8 after field 13)
    1..30 5=-/#70/#80 8=-/c0/c3 9=-/#5/#15 | lines 17 and 18 differ: 3 (field 5: picture 70 and 80, none taken,
        field 8: chapter 0 and 3, 0 taken, field 9: picture 5 and 15, 5 taken)
    1..30 5=-/#3/#13 7=-/#4/#14 9=-/#5/#15 11=-/#6/#16 13=-/#7/#17 15=-/#8/#18 | lines 17 and 18 differ: 6 (field 5:
        picture 3 and 13, 3 taken, field 7: picture 4 and 14, 4 taken, field 9: picture 5 and 15, 5 taken, field 11:
        picture 6 and 16, 6 taken and 2 more)
    t103450..103549 21=?/@1:08/@1:09 | lines 17 and 18 differ: 1 (field 21: time 1:08 and 1:09, none taken)
    1..8 13=-/8DC000/- | codes out of place: 1 (cx on in field 13 line 17) || PAL/1 S/-/- B | picture stops: 1
        (field 1)
    1..60 40061..40070 71..140 | jumps: 1 (fields 121 to 140 show pictures 40061 to 40070, misread or played in the
        place of others)
    NTSC f1..30 | whole: yes | system: NTSC, CAV, film (2 and 3 fields a picture)
    NTSC t0..1 t3..4 | system: NTSC, CLV | unread: none, undecided: 1 (time 0:00:00.02 after field 3)
    NTSC t0..5999!400%1001 | skipped by the disc itself: 6
    1..20 ~11 | swapped fields: 1 (picture 6 in field 11 or 12), other speeds: none
    0..90 89..70 71..110 | swapped fields: none, other speeds: 1 (-1 numbers a picture in fields 181 to 221)
"""


def test_a_damaged_side():
    """Of lead-in alone there is nothing that goes with numbers."""
    lines = list(summary(made("Lx2 1..30 Ox2 21=79999 23=?/!/~ 25=S/S/#12 27=-/#13/#3 -45:46", typed)))
    assert lines == DAMAGED.replace("\n ", " ").strip().split("\n")
    assert list(summary(made("L", typed)))[6:9] == [
        "pictures: none", "doubtful, set aside: none", "lines 17 and 18 differ: none"]


@pytest.mark.parametrize("text, wanted", [(text, wanted) for text, *wanted in cells_of(SUMMARIES)])
def test_lines(text, wanted):
    assert set(wanted) - set(summary(made(text, typed))) == set()


def test_levels():
    """What lines 17 and 18 have, and what to try, each in a line of 100 columns at most. Levels are blamed of the right
    file alone."""
    blank, noise = "0 words, 0 are bad, 8 blank", "another black and white; the signal may be noise, see --bad-lines"
    system = "--system PAL --black 16384 --white 51200, without --meta (200 lines read, now 10 of 200)"
    for text, best, shown, advice in (
            ("Bx4", None, blank, "lower black and white, if the side has codes at all"),
            ("-/?/!x30", None, "0 words, 60 are bad, 0 blank", noise),
            ("Bx4", (None, None, 30000, 98), blank, "--white 30000 (98 lines read, now 10 of 200)"),
            ("Bx4", (None, 2000, 9000, 98), blank, "--black 2000 --white 9000 (98 lines read, now 10 of 200)"),
            ("Bx4", ("PAL", None, None, 200), blank, system)):
        known = made(text, typed)
        tried = Tried(200, 10, 16384, 51200, best and Best(*best))
        known = known._replace(levels=known.levels._replace(tried=tried))
        found = list(summary(known))[6:8]
        assert found == ["levels: lines 17 and 18 have " + shown, "try: " + advice]
        assert max(map(len, found)) <= 100
        assert as_json(known)["levels"]["tried"] == {
            "lines": 200, "read": 10, "black": 16384, "white": 51200,
            "best": best and dict(zip(("system", "black", "white", "read"), best))}
    for expected, cut, is_other in ((4, None, False), (None, None, False), (3, None, True), (None, Cut(5, 7), True)):
        one = made("Bx4", side, cut=cut)
        one.expected = expected
        found = list(summary(one.analysis.answer))
        assert found[2] == "fields: 4, cut: " + ("field 5, of 7 bytes" if cut else "none")
        assert (found[7] == "try: another system, or this file's own metadata") == is_other


def test_what_metadata_counts():
    """A line, if numberOfSequentialFields isn't the count of its fields, or that of the file."""
    for sequential, fields, text in ((8, 8, None), (None, 9, None), (9, 8, "9, and it has 8"),
                                     (9, 9, "9, and it has 9"), (8, 9, "8, and it has 9"),
                                     (8, None, "8, and it has 0")):
        one = made("1..4", side)
        one.sequential, one.expected = sequential, fields
        assert [line for line in summary(one.analysis.answer) if line.startswith("metadata: ")] == (
            ["metadata: numberOfSequentialFields says %s fields" % text] if text else [])


def test_at_most_27_lines():
    known = made("NTSC t0..8999!400%1001 -101:110 1:17972/2.17=@2:20*", typed)  # a second row of numbers on line 17
    known = known._replace(levels=FewWords("bad", 1, 9, 1, 1, 17, None), sequential_fields=1, metadata_fields=2,
                            swapped=[Numbered(1, "2:20:00.00")])
    lines = list(summary(known))
    assert (len(lines), MOST_LINES) == (27, 27)
    assert "a second row of numbers, not taken: 2:20:00.00 to 2:20:59.29 in fields 1 to 17971" in lines


# What the JSON has of a side with two worn words, a bad line, and some codes
JSON = {
    "cutField": {"seqNo": 18, "bytes": 7}, "numbers": {"count": 8, "least": 1, "greatest": 8},
    "showings": [[1, 2, 2], [2, 4, 4], [3, 5, 6], [4, 7, 8], [5, 10, 10], [6, 11, 12], [7, 14, 14], [8, 15, 15]],
    "doubtful": [{"field": 7, "line": 17, "word": "F70000", "kind": "picture", "pass": 2, "why": "lines",
                  "number": 70000, "before": {"field": 6, "number": 3}, "after": {"field": 8, "number": 4}}],
    "conflicts": [{"field": 7, "line17": 70000, "line18": 4, "taken": 4}],
    "chapters": [{"chapter": 0, "field": 3, "last": 16, "after": None, "number": 1, "frame": 2}],
    "stops": [{"field": 5, "frame": 3, "number": 3, "lines": [16]}],
    "unsureStops": [{"field": 7, "frame": 4, "number": 4, "lines": [16]}],
    "leadIn": [{"first": 1, "last": 1, "count": 1}],
    "stray": [{"field": 13, "line": 17, "word": "8DC000", "kind": "cx on", "pass": 1, "why": "line"}],
    "unknown": [{"field": 9, "line": 17, "word": "88FFFB", "pass": 1}],
    "programmeStatus": [{"cx": True, "digits": "0A1", "count": 1, "first": 9, "last": 9}],
    "users": [{"digit": 3, "digits": "00F", "count": 1, "first": 14, "last": 14}],
    "badLines": [{"field": field, "line": line, "cause": "change 170", "column": 170, "bytes": 2270,
                  "offset": ((field - 1) * 313 + line - 1) * 2270} for field, line in ((7, 16), (11, 17))],
    "lines": {line: dict(zip(("pass1", "pass2", "near", "blank", "unfinished", "change", "hold"), counts))
              for line, counts in (("16", (3, 0, 1, 12, 0, 0, 0)), ("17", (13, 1, 0, 1, 0, 1, 0)),
                                   ("18", (14, 0, 0, 2, 0, 0, 0)))},
    "reasons": [{"why": "cut", "whole": "no", "text": "field 18 is cut"}]}


def test_json():
    """Each member under its name; those of lists without items are empty."""
    found = made("L 1..8 5=S/-/#3 7=S^/#70000*/#4 9=8DC0A1/88FFFB/- 11=-/?/#6 13=-/8DC000/- 14=83D00F/#7/#7 -15", side,
                 cut=Cut(18, 7)).answer
    assert {name: found[name] for name in JSON} == JSON
    assert [name for name, value in found.items() if value not in ([], None) and name not in JSON] == [
        "version", "system", "format", "unit", "fields", "frameBegin", "pace", "openEnd", "whole"]


def test_sides():
    """What their methods answer. Codes are judged by nothing. The collector runs after an analysis as before it."""
    cav, clv = made("5..24 11..40 5=S/-/#7", side), made("t0..19", side)
    assert [cav.pictures()[5], cav.pictures()[11], cav.pictures()[40]] == [1, 13, 99]
    assert [cav.times(), cav.chapters(), cav.stops(), cav.format()] == [{}, {0: 2}, [5], "cav"]
    assert [clv.pictures(), clv.times()["0:00:00.07"], clv.format()] == [{}, 15, "clv"]
    assert cav.seek("8") == {"field": 7, "frame": 4, "read": True, "other": None}
    assert cav.seek("41") is None
    first, other = {"kind": "picture", "number": 1}, {"kind": "picture", "number": 79999}
    assert list(made("-/#1/#79999", side).codes()) == [{
        "seqNo": 1, "format": "cav", "codes": [None, first, other],
        "byKind": [dict(first, lines=[17]), dict(other, lines=[18])]}]
    assert made("1", side, cut=Cut(3, 99)).answer["cutField"] == {"seqNo": 3, "bytes": 99}
    assert cav.answer is cav.answer
    assert SIZES == {"NTSC": (910 * 2, 263), "PAL": (1135 * 2, 313)}
    for is_enabled, set_so in ((False, gc.disable), (True, gc.enable)):
        set_so()
        made("1 2")
        assert gc.isenabled() == is_enabled
