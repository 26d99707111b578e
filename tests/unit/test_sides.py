"""Sides made by hand, each with its truth: rows of sides.txt, and those that take more than a row. All reasons why a
side isn't whole, or why that can't be told, in order of weight. And how many calls the analysis of noise takes."""

import cProfile
import os
import random

from compact import cells_of, check_row, made, rows, table_in
from discs import answer, minutes, picture, plain, second, side, times, typed
import ldvbi
from ldvbi import Kind, Reason
from ldvbi.readings import Cut
from ldvbi_side.answer.analysis import analyse
from ldvbi_side.answer.ends import begin_of
from ldvbi_side.answer.entries import Doubt, Lost, Missing, Numbered, Speed, Stretch
from ldvbi_side.answer.gaps import Gaps
from ldvbi_side.answer.whole import reasons_of
from ldvbi_side.command.map import COLUMNS, map_rows
from ldvbi_side.join.captures import aside_in
from ldvbi_side.judge.paces import Unit
from ldvbi_side.judge.places import Break
from ldvbi_side.judge.readings import Fields, Stray
from ldvbi_side.texts import counted_by
import pytest
from streams import TOP

MOST = 16  # fields whose calls a field of noise may take
ROWS = list(table_in(os.path.join(os.path.dirname(__file__), "sides.txt")))


@pytest.mark.parametrize("cells, more", ROWS, ids=["%d %s" % (place, row[0][0]) for place, row in enumerate(ROWS, 1)])
def test_row(cells, more):
    check_row(*cells, **more)


# Pairs of gaps over which the numbers around go on: the kinds, sides, and members of their answers. The player plays 20
# pictures elsewhere, and comes back; ten pictures show others, on both lines or as one worn line has them, which were
# misread, or of which it isn't known whether they or those around were. Minutes are misread, or the seconds, too. Two
# pictures are skipped, and shown again later: all that is between was played. Of ten that are ten off none is due.
DETOURS = """
    inserted | 1..200 381..400 201..600 | said no: 1 detour (fields 401 to 440 show pictures 381 to 400)
        | no lost breaks missing unread doubtful | repeated 381-400@801-839 after 401
    inserted inserted | 1..200 41..60 201..220 381..400 221..500 | no lost breaks missing unread doubtful
        | said no: 2 detours (the first: fields 401 to 440 show pictures 41 to 60)
        | detours inserted 401-440 41-60, inserted 481-520 381-400
    inserted | t0..299 t400..599 t300..699 | no lost breaks missing unread
        | said no: 1 detour (fields 601 to 1000 show times 0:00:16.00 to 0:00:23.24)
    inserted | NTSC f1..100 f41..60 f101..200 | said no: 1 detour (fields 251 to 300 show pictures 41 to 60) | no lost
    inserted | NTSC f1..100 f41..60 f101..112 B e113..135 f135x3 f136..144 B | no breaks lost
        | said no: 1 detour (fields 251 to 300 show pictures 41 to 60); fields 1 to 418 are 2 fields more than their..
    inserted | NTSC f1..100 f41..60 f101..200 -302 +339=B
        | said no: at least 1 field lost; 1 jump (with fields too many); 1 detour (fields 251 to 300 show..
    inserted | b1..200 b41..60 b201..219 b220 -/#220/#220 b221..400 | no breaks lost | reasons detours, off
    replaced | 1..60 40061..40070 71..140 | no lost breaks unread | missing 61-70 undecided | doubtful x20 | count 130
        | said can't tell: fields 121 to 140 show pictures 40061 to 40070, misread or played in the place of others; 1..
    replaced | 1..60 <61..70 -/-/#N+40000^ B> 71..140 | no lost breaks | missing 61-70 unread | doubtful x10
        | said can't tell: fields 121 to 140 show pictures 40061 to 40070, misread or played in the place of others
    replaced | 1..60 40061..40070 71..140 124=62 | count 130 | doubtful x22
    replaced | 1..100 61=-/#71/? 63=-/#72/? 65=-/#73/? 67=-/#74/? 69=-/#75/? | no lost breaks repeated
        | missing 31-35 unread | aside 61, 63, 65, 67, 69 | detours replaced 61-70 71-75
    replaced | 1..10 40011..40040 41..50 | no lost breaks doubtful | count 50 | whys undecided
        | detours replaced 21-80 40011-40040
    replaced replaced | 1..60 40061..40070 71..90 50091..50099 100..140 | no lost breaks | doubtful x38
        | said ..40070, misread or played in the place of others (and 1 more place); 19 pictures undecided; numbers set
        aside in 19 of 140 fields
    replaced | t0..199 t12200..12209 t210..399 | no lost breaks unread missing | count 400 | doubtful x10
        | completed x10
    replaced | 1..100 103..140 139..200 | no lost breaks doubtful | missing 101-102 undecided | count 198
        | repeated 139-140@277-279 after 273 | detours replaced 201-276 103-140
    replaced | 1..100 98..130 134..200 | no lost breaks doubtful | missing 131-133 undecided | count 197
    replaced | 1..100 111..120 111..200 | no lost breaks repeated | missing 101-110 undecided | doubtful x20
        | reasons replaced, undecided
    replaced | 1..100 110..119 111..200 | no lost breaks doubtful | missing 101-109 undecided
    replaced | 1..100 91..100 111..200 | no lost breaks repeated | missing 101-110 undecided | doubtful x20
    replaced | 1..100 92..101 111..200 | no lost breaks doubtful | missing 102-110 undecided
    replaced | NTSC f1..100 f103..120 f119..200 | no lost breaks doubtful | missing 101-102 undecided
    replaced | b1..100 b111..120 b111..200 | no lost breaks repeated | missing 101-110 undecided | doubtful x40
    replaced | b1..100 <111..120 -/#N/#N -/#N/#N+1> b111..200 | no own lost repeated | doubtful x40
    replaced | b1..100 b103..140 b139..200 | no lost breaks doubtful | missing 101-102 undecided
    replaced | 1..59 -/#60/#60x60 B 61..99 | no detours doubtful missing | stills 60@119-178
    replaced | 1..60 -/#60/#60x60 61..99 | no detours doubtful missing | stills 60@119-180
    replaced | 1..60 40061..40080 81..140 141=-/#71*/#40071 | count 121 | conflicts 141 71|40071 71
    replaced replaced replaced replaced | b1..19 b23..24 b22..26 b30..31 b29..33 b37..38 b36..40 b44..45 b43..90
        | no own lost repeated | doubtful x32
    replaced | t0..199 t12205..12214 t210..399 | no lost breaks | missing 0:00:08.00-0:00:08.09 unread | count 390
"""


@pytest.mark.parametrize("kinds, cells", [(kinds, cells) for kinds, *cells in cells_of(DETOURS)])
def test_detours(kinds, cells):
    check_row(kinds, *cells)


# Sides whose last number is given: 90 of 100 pictures; one whose last picture lacks a field; greater ones; other
# notations. Part of a time is any of its numbers: the least one is lost. Fields behind the last number may have others,
# and lead-out may begin with its second field. Of two times less an unknown clock may leave out one. Minute 2 is lost
# as a whole, and of minute 3 a field at least. A player that went back lost what comes after the greatest number.
LASTS = """
    100 | 1..90 | said no: 20 fields lost; 10 pictures lost | missing 91-100 lost | lost 180-181 20 number
    100 | Lx4 1..90 Ox4 | said no: 20 fields lost; 10 pictures lost | lost 184-185 20 number
    90 | 1..90 Bx300 | said yes || 90 | 1..90 | said yes | givenLast 90 || 90 | 1..89 90x10 Ox4 | said yes
    90 | 1..90 -180 | said no: 1 field lost | lost 179-180 1 number | no missing || 90 | 1..90 180=O Ox3 | said yes
    90 | 1..90 180=O | said yes || 0:00:60 | t0..59 | reasons last || 0:60:00 | t0..59 | reasons last
    0:59:59 | t0..59 | missing 0:00:02.10-0:59:59.00 lost || 1:01 | t0..59 | missing 0:00:02.10-1:01:00.00 lost
    1:01:01 | t0..59 | missing 0:00:02.10-1:01:01.00 lost || 1:00 | m0..1x9 | missing 0:02-1:00 lost
    100 | 1..90 51..60 -193:194 | lost 180-181 20 number, 191-193 2 number
    90 | 1..93 | said can't tell: it ends at 93, after 90 that was given as the last | no missing lost
    90 | 1..93 Bx120 | reasons ends, last || 100 | 1..90 Bx120 | reasons undecided, ends
    0:03 | 1..93 | said can't tell: 0:03, given as the last, is none of its numbers || 93 | t0..59 | reasons last
    0:00:00.25 | t0..59 | reasons last || 7 | Bx9 | reasons numbers || 0:07 | Bx9 | reasons numbers
    0:00:02 | t0..59 | said yes || 0:00 | t0..59 | said yes || 0:00:01 | t0..59 | reasons last
    0:00:02 | t0..59 -120 | said no: at least 1 field lost
    0:00:03 | t0..59 | said no: at least 32 fields lost; 16 times lost | missing 0:00:02.10-0:00:03.00 lost
    100 | 1..90 Bx20 | said can't tell: 10 pictures undecided | no lost || 100 | 1..90 ?x20 | said yes
        | missing 91-100 unread || 100 | 1..90 Bx6 | said no: 14 fields lost; 10 pictures undecided
    20 | NTSC f1..10 | said no: at least 25 fields lost; 10 pictures lost | lost 25-26 25 number
    20 | b1..10 | lost 20-21 20 number || 20 | b1..20 | said yes || 20 | b1..20 -40 | said yes
    0:01:00.02 | NTSC t1..1799 | lost 3598-3599 2 number | missing 0:01:00.00-0:01:00.02 undecided
    0:01:00.05 | NTSC t1..1800 | lost 3600-3601 8 number || 0:01:00.01 | NTSC t1..1790 | lost 3580-3581 20 number
    0:00:02.02 | NTSC t0..59 | lost 120-121 4 number | missing 0:00:02.00-0:00:02.02 lost | orMore 120
    0:00:35.10 | NTSC t0..59 | lost 120-121 2000 number || 0:00:35.11 | NTSC t0..59 | lost 120-121 2000 number
    0:03:00.02 | NTSC t2..5399!0,1%1800 | lost 0-1 2 number, 10788-10789 2 number | missing .., 0:03:00.02 lost
    0:03 | NTSC t2..5399!0,1%1800 | lost 0-1 2 number, 10788-10789 2 number | orMore 10788
    0:03 | m0..1x9 | missing 0:02-0:03 lost | lost 18-19 3001 number | orMore 18 || 0:01:30 | m0..1x9 | no lost missing
    100 | 1..90 51..60 | said no: 20 fields lost; 1 jump (back); 10 pictures lost | lost 180-181 20 number
    90 | 1..50 61..90 -/#55/#55 B | missing 51-60 lost | aside 161, 161
    100 | 1..97 | lost 194-195 6 number || 99 | Lx2 1..97 Ox2 | is_strict | said no: 4 fields lost; 2 pictures lost
    97 | Lx2 1..97 | is_strict | said yes
    0:02:00.00 | NTSC t0..3403!400,1401,2402 | said no: 394 fields lost; 197 times lost
"""


@pytest.mark.parametrize("last, row, cells", [(last, row, cells) for last, row, *cells in cells_of(LASTS)])
def test_last(last, row, cells):
    is_strict = cells[0] == "is_strict"
    check_row(last, row, *cells[is_strict:], given_last=last, is_strict=is_strict)


def test_seconds_alone():
    """Of a disc whose clock leaves out numbers just one time a second is read: too few for the library. So each place
    may be a loss, or the clock's."""
    numbers = [number for number in range(1500) if number % 1001 != 400]
    fields = [row if place % 2 or numbers[place // 2] % 30 == 0 else "- " + row.partition(" ")[2]
              for place, row in enumerate(times(numbers, 30))]
    found = answer(fields, "NTSC")
    assert (found["whole"], [one["by"] for one in found["lost"]]) == ("can't tell", ["undecided"] * 2)


def test_what_stands_beside_entries():
    assert [(one["before"], one["after"]) for one in made("1..30 1.18=#7 9.18=#7 59.18=#7")["doubtful"]] == [
        (None, {"number": 2, "field": 3}), ({"number": 4, "field": 7}, {"number": 6, "field": 11}),
        ({"number": 29, "field": 57}, None)]
    # the metadata has two fields more than were read
    for more in ([True, True], [False, True]):
        assert answer(rows("1..30"), first=[True, False] * 30 + more)["lost"] == []
    assert made("1..30 22:40/2=-/c1/c1 42:60/2=-/c2/c2")["chapters"] == [
        {"chapter": 0, "field": 2, "last": 20, "after": None, "number": 1, "frame": 1},
        {"chapter": 1, "field": 22, "last": 40, "after": 20, "number": 11, "frame": 11},
        {"chapter": 2, "field": 42, "last": 60, "after": 40, "number": 21, "frame": 21}]
    assert made("t0..29")["chapters"][0]["number"] == "0:00:00.00"
    found = made("PAL/1 1..10 5=S/S/#3 16=S^/S*/S 2=S*/-/- 4=-/S^/- -1 S/-/-")
    assert found["stops"] == [{"field": 4, "frame": 2, "number": 3, "lines": [16, 17]},
                              {"field": 15, "frame": 7, "number": 8, "lines": [16, 17, 18]},
                              {"field": 20, "frame": 10, "number": None, "lines": [16]}]
    assert found["unsureStops"] == [{"field": 1, "frame": 0, "number": 2, "lines": [16]},
                                    {"field": 3, "frame": 1, "number": 2, "lines": [17]}]


def test_an_unknown_clock_of_numbers_on_both_fields():
    """What a clock leaves out that isn't found is open, as with numbers on one field. Another loss isn't."""
    def on_both(text):
        return made(text, lambda rows, system, first: answer(
            [rows[place - place % 2] for place in range(len(rows))], system))

    for text, lost, why in (("NTSC t0..499!400", (800, 801, 2), "undecided"),
                            ("NTSC t0..1799 t1802..3700", (3600, 3601, 4), "undecided"),
                            ("NTSC t0..499!400,401", (800, 801, 4), "number")):
        found = on_both(text)
        assert (found["pace"], found["whole"]) == ("both", "no" if why == "number" else "can't tell")
        assert [tuple(one.values()) for one in found["lost"]] == [(*lost, why, True)]


def test_a_library_without_a_clock(monkeypatch):
    """An older library judges as if the disc left out no number: then each place may be a loss, or the clock's."""
    def older(name, later_call=ldvbi.sides.later_call):
        if "clock" in name:
            raise OSError(name)
        return later_call(name)

    monkeypatch.setattr("ldvbi.sides.later_call", older)
    found = made("NTSC t0..2500!400%1001")
    assert (found["whole"], found["leftOut"]) == ("can't tell", [])
    assert [(one["by"], one["fields"]) for one in found["lost"]] == [("undecided", 2)] * 3


def test_what_schema_and_map_say():
    """With which field frame 1 begins, and that columns count from 1: the first field shows picture 1 and begins the
    first frame."""
    with open(os.path.join(TOP, "share/schema/ldvbi-side.schema.json"), encoding="utf-8") as file:
        assert "frame 1 begins: 2 if `isFirstField` of field 1 is false, else 1." in file.read()
    row = dict(zip(COLUMNS, next(iter(map_rows(made("1..30", typed))))))
    assert (row["kind"], row["number"]) == ("picture", 1)
    assert all(COLUMNS[column].endswith("from %d" % row[column]) for column in ("field", "frame"))


def test_no_number_is_due_where_both_lines_say_another():
    """The numbers of a stretch that fit the ones around it by chance say nothing of the others. In the last side 42
    stands twice and 44 is passed over, so that 45 comes in the field in which it is due."""
    wheel = "40 40 41 42 42 43 45 46 47 47 48 49 49 48 47 48 49 50".split()  # 44 is passed over
    sides = ["1..40 %s 51..90" % " ".join(wheel[:begin] + wheel[begin - 2:]) for begin in range(2, 13)]
    for text in sides + ["1..42 42 42 43 43 45 48..79"]:
        found = made(text)
        assert [one for one in found["unread"] if "F" in rows(text)[one["field"] - 1]] == []
    assert {one["why"] for one in found["missing"]} - {"lost", "undecided"} == set()


@pytest.mark.unrecorded
def test_the_worst_sides():
    def calls(fields):
        profile = cProfile.Profile()
        profile.runcall(analyse, plain(fields))
        return sum(one.callcount for one in profile.getstats()) / len(fields)

    dice, count = random.Random(7), 1000
    times = ["%s %s %s" % (second(dice.randrange(60), dice.randrange(20)), *(
        minutes(dice.randrange(10), dice.randrange(60)) for _ in (17, 18))) for _ in range(count)]
    most = MOST * calls(rows("0..%d" % (count // 2 - 1)))
    for fields in ([chance(dice, 80000, 80000) for _ in range(count)], [chance(dice, 80000) for _ in range(count)],
                   times, rows("-/#100/#20000x%d" % count), rows("5x%d" % (count // 2)),
                   rows(" ".join(str(40000 * (place // 5 % 2) + place) for place in range(count // 2)))):
        assert calls(fields) < most


def chance(dice, *most):
    """A field with a number on both lines, or with one on either."""
    return "- %s %s" % (tuple(picture(dice.randrange(one)) for one in most) * 2)[:2]


def test_counts_of_lines():
    """In pass 1, in pass 2, recovered, blank, unfinished, change and hold."""
    assert " ".join(made("B")["lines"]["16"]) == "pass1 pass2 near blank unfinished change hold"
    for text, wanted in (("-/#1/#1* ?/!/~ S/S*/?", "16 1001010 17 1100001 18 0100110"),
                         ("-/#1^/#1 ?/!/#2^ -/S*/#3^", "16 0002010 17 0110001 18 1020000")):
        found = ("%s %d%d%d%d%d%d%d" % (line, *one.values()) for line, one in made(text)["lines"].items())
        assert " ".join(found) == wanted


def test_bad_lines():
    """Field 2 begins at byte 263 * 1820, line 16 of it 15 lines of 1,820 bytes later; PAL has 313 lines of 2,270."""
    ntsc, pal = (made(system + " -/#1/#1 ?/!/~")["badLines"] for system in ("NTSC", "PAL"))
    assert ntsc == [{"field": 2, "line": 16, "cause": "change 170", "column": 170, "offset": 505960, "bytes": 1820},
                    {"field": 2, "line": 17, "cause": "hold 200", "column": 200, "offset": 507780, "bytes": 1820},
                    {"field": 2, "line": 18, "cause": "unfinished", "column": None, "offset": 509600, "bytes": 1820}]
    assert [(one["offset"], one["bytes"]) for one in pal] == [(744560, 2270), (746830, 2270), (749100, 2270)]


def test_what_else_is_known():
    for more, said in (({"expected": 68}, "yes"), ({"expected": 67}, "yes"),
                       ({"expected": 69}, "no: 68 fields of 69 that the metadata has"),
                       ({"cut": Cut(69, 5)}, "yes")):
        check_row("known", "Lx4 1..30 Ox4", "said " + said, **more)
    for text, said in (("Lx4 1..30", "no: field 65 is cut"), ("1..9 Ox5 10..28", "..sides joined); field 65 is cut")):
        check_row("cut before lead-out", text, "said " + said, cut=Cut(65, 5))
    for text, pad, said in (("B 1..30", [1], "yes"), ("Bx2 1..30", [1, 2], "no: 2 fields are padding"),
                            ("1..30 5:6=B", [5, 6], "no: 1 picture is padding"),
                            ("1..30", [6], "no: 1 field is padding"),
                            ("1..30 5=B 9=B", [5, 6, 9], "no: 2 pictures are padding")):
        check_row("padding", text, "said " + said, pad=[field in pad for field in range(1, 63)])
    assert not any(Fields("PAL", [], [], [], b"")[5:])  # nothing else is known of a side
    check_row("worn, and whole", "<1..200 -/#N^/#N^ -/?/!>", "said yes", "levels")
    check_row("a cut field alone", "B", "said no: field 2 is cut; no picture number and no time", cut=Cut(2, 5))
    check_row("after lead-out", "Ox4", "said can't tell: no picture number and no time", cut=Cut(5, 5))
    known = made("NTSC t0..20 t22..40", typed)
    assert [counted_by(known, why) for why in ("undecided", "lost")] == [1, 0]


def test_stops_of_a_map():
    """One that is worn may be one; what is no number's has none."""
    known = made("1..9 5=S^/#3/#3 7=S/#4/#4", typed)
    assert [row for row in map_rows(known) if row[0] == "stop"] == [
        ("stop", 3, 5, 3, "unsure"), ("stop", 4, 7, 4, "read")]
    assert (5, 16) in aside_in(known)


def test_the_order_of_all_reasons():
    known = made("NTSC e1..40 ~48", typed)  # the first fields of picture 20
    assert [one.why for one in known.reasons] == ["order"]
    known = known._replace(
        numbers=known.numbers._replace(least=11), lost=[Lost(9, 10, 2, "number")], lead_in=[Stretch(40, 40, 1)],
        open_end=False,
        breaks=[Break("back", 9, 10, 5, 4, 1)],
        swapped=[Numbered(9, None)], speeds=[Speed(9, 49, "2")], metadata_fields=999, fields=500, cut_field=Cut(501, 1),
        missing=[Missing(9, 9, 1, why, 9, 10) for why in ("undecided", "unread", "lost")],
        stray=[Stray(field, 17, 0x87FFFF, Kind.clv_mark, 1, "format") for field in (9, 10)], doubtful=[
            Doubt(field, 17, 0xF79999, Kind.picture, 1, "alone", 79999, None, None) for field in range(9, 50, 3)])
    judged = ldvbi.judge_side(made("5..30", side).readings, "PAL")
    gaps = Gaps(judged._replace(reasons=judged.reasons | Reason.no_numbers), [], 4, [Break("lost", 30, 32, 15, 17, 2)],
                [Break("lost", 9, 10, 5, 6, 2), Break("lost", 29, 30, 15, 17, 2)])

    def reasons(known, gaps, is_strict=False):
        return reasons_of(known, gaps, begin_of(known, gaps.judged, Unit("picture", 30), is_strict), is_strict)

    def whys(*words, known=known, kinds=("no", "can't tell")):
        return [one.why for one in reasons(known, *words) if one.whole in kinds]

    others = ["open", "off", "undecided", "ends", "order", "doubtful"]
    no = ["lost", "jumps", "speed", "missing", "swapped", "begins", "unread", "lead-out", "joined", "format",
          "metadata", "cut"]
    assert (whys(gaps, True), whys(gaps, True, kinds=["no"])) == (no + ["numbers"] + others, no)
    known = known._replace(lead_in=[])
    assert whys(gaps, True, known=known)[7:9] == ["lead-in", "lead-out"]
    assert "another side begins after field 9" in [one.text for one in reasons(known, gaps, True)]
    assert whys(gaps._replace(judged=judged), known=known, kinds=["can't tell"]) == [
        *others[:4], "lead-out", *others[4:]]
    assert "a field may be lost or too many in fields 1 to 51" in [
        one.text for one in reasons(known, gaps._replace(more=0))]
