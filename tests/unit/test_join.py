"""Several captures of one side: what they have together, which one each number is taken from, which one shows it
better, and where they disagree about a number, by rows of joins.txt; the same of random sets of captures; and the
command `join`."""

import functools
import json
import os
import re
from collections import Counter

from compact import cells_of, made, span, table_in, words_of
from discs import side
from ldvbi_side.command.chapters import chapters_text, joined_spans
from ldvbi_side.command.join import joined_text, NOTHING_SHOWS
from ldvbi_side.command.map import joined_rows
from ldvbi_side.join.captures import capture_of
from ldvbi_side.join.marks import Marks, marks_in, plain_marks, Said
from ldvbi_side.join.plain import as_json
from ldvbi_side.judge.places import Showing
from ldvbi_side.side import side_of_document
from ldvbi_side.write.joined import join
import pytest
from room import reason
from simulate import captures
from streams import NTSC, pictures, worn_line, write_stream
from truth import number_of, Truth

# What stands for sides, or their ends, in the tables
NAMES = {
    # of 4 numbers ONE has 3, 2, none that is read, and 2 of another pass; OTHER has 2, and a line that is doubtful.
    # What line 16 of 13 says isn't the number's. ONE lost 21 to 23, OTHER 31, and each perhaps a field before it
    "ONE": "1..40 3=-/#2*/#2 5=-/?/#3 7=? 15=-/#8*/#8* -41:46",
    "OTHER": "1..40 9=-/#5*/#5* 11=-/#6/#70000 15=-/#8/- 25=#13/#13/#13 -61:62",
    # without five times, which the clock leaves out
    "SOME": "NTSC t0..4499!7%1000", "DETOUR": "1..50 151..170 71..100",
    # 38 pictures in the place of others, between 24
    "RUN": "1..10 5..42 49..62",
    # every fifth field of 30 pictures of film is lost, which looks like a stretch of video. Picture 61 is in field 151;
    # 64 is 6 fields on, and in the whole side 8
    "CUT": "NTSC f1..60 61..90 f91..120",
    "CHAPTERS": "1..40 2:30/2=-/c1/c1 32:80/2=-/c2/c2"}

JOINS = list(table_in(os.path.join(os.path.dirname(__file__), "joins.txt")))


@functools.lru_cache(maxsize=None)
def capture(text):
    for name, parts in NAMES.items():
        text = text.replace(name, parts)
    one = made(text, side)
    return one if one.analysis else None


def together(*texts, names="abc"):
    return join([capture_of(capture(text), name) for name, text in zip(names, texts)])


def stretch_text(one):
    if isinstance(one, str):
        return one
    if "source" in one:
        return "%s %s %s" % (span(one), one["source"], span(one, "field", "lastField"))
    words = one.get("capture"), span(one), str(one["count"]), one.get("why"), *one.get("in", ())
    return " ".join(filter(None, words))


def told(known, name):
    """What plain data say: of @2 where number 2 is taken, how many `numbers` are, else a list."""
    if name == "numbers":
        return str(known[name]["count"])
    if name[0] == "@":
        return next("%s %d %d %s" % (*row[1:],) for row in known["taken"] if str(row[0]) == name[1:])
    return ", ".join(map(stretch_text, known[name]))


def check_captures(texts, names, members):
    if members[0].startswith("refused "):
        assert reason(together, *texts) == members[0][8:]
        return
    found = together(*texts, names=names)
    known, lines = as_json(found), list(joined_text(found))
    assert (NOTHING_SHOWS in lines) == (not known["shownBy"])
    for name, _, wanted in (member.partition(" ") for member in members):
        assert wanted in lines if name == "says" else wanted == told(known, name)


@pytest.mark.parametrize("row, more", JOINS, ids=["%d %s" % (at, row[0]) for at, (row, _) in enumerate(JOINS, 1)])
def test_together(row, more):
    texts, members = row[1].split(" ; "), row[2:]
    check_captures(texts, "abc", members)
    if more["either"]:
        check_captures(texts[::-1], "abc"[:len(texts)][::-1], members)


# Captures, and some of their places: a number with its first and last field, whether one of its fields may be lost or
# another's, on how many lines it was read, and on how many of these in pass 1. Fields are lost, numbers shown twice,
# and of the pictures of a side with numbers on both fields a first or a second one isn't read. Lines with words that
# are set aside count for none, and a number that is due has none.
PLACES = """
    1..10 3=-/#2/c1 5=-/#3*/? 7=B 9=-/#5*/#5 11=-/#6/#70000 -12 -19
        | 1 1-2 2/2, 2 3-4 1/1, 3 5-6 1/0, 4 7-8 -1/0, 5 9-10 2/1, 6 11-11? 1/1, 7 12-13 2/2, 10 18-18? 2/2
    NTSC f1..20 -4 -13:17 | 1 1-2 2/2, 3 5-7 2/2, 4 8-9 2/2, 5 10-11? 2/2, 8 13-14 2/2, 20 43-44 2/2
    1..9 10x2 11..20 | 10 19-20? 2/2, 10 21-22 2/2 || NTSC f1 2x2 f3..9 | 2 4-5? 2/2, 2 6-7 2/2, 3 8-10 2/2
    NTSC t0..9 5=-/M/@0:00 | 1 3-4 2/2, 2 5-6 -1/0 || m0x2999 B m1x2999 B m3x3000 | 0 1-3000 1/1, 1 3001-5999 1/1
    b1..20 5=B 10=B -14 21:22=B 23=B
        | 2 3-5 2/2, 3 6-6 2/2, 5 9-10 2/2, 7 13-13? 2/2, 8 14-15 2/2, 11 20-21 2/2, 12 22-23 -1/0, 20 38-39 2/2
"""


@pytest.mark.parametrize("text, wanted", cells_of(PLACES))
def test_places(text, wanted):
    found = ["%d %d-%d%s %d/%d" % (one.number, one.field, one.last, "?" * (not one.is_whole), one.lines, one.sure)
             for one in capture_of(made(text, side), "a").places]
    assert not set(wanted.split(", ")) - set(found)


# What may show of which disc a side is: chapters and programme statuses beside numbers; which numbers last two fields,
# or three; users' codes; and between which numbers its first one is after lead-in, and its last one before lead-out.
# Field 2n - 1 has picture n, but after lead-in.
@pytest.mark.parametrize("text, chapters, statuses, lasting, users, begins, ends", (
    ("1..40 2:46/2=-/c1/c1 48:80/2=-/c2/c2", [[1, 23, 1], [24, 40, 2]], [], [[1, 40, 1]], [], None, None),
    ("1..40 2:30/2=-/c1/c1 31=-/#16/c1 32:80/2=B", [[1, 16, 1]], [], [[1, 40, 1]], [], None, None),
    ("1..40 2:20/2=B 22:80/2=-/c1/c1", [[11, 40, 1]], [], [[1, 40, 1]], [], None, None),
    ("Lx2 Bx6 3..40 1:8.16=83D0A1 B O", [[3, 40, 0]], [], [[3, 40, 1]], [[3, "0A1"]], (0, 3), (40, 41)),
    ("Lx3 1..40 10=8DC000/#4/#4 11=8BA000/-/- 14=8DC000/#6/#6 Bx3 Ox2", [[1, 40, 0]],
     [[4, 4, "8BA000"], [6, 6, "8DC000"]], [[1, 40, 1]], [], (1, 1), (40, 42)),
    ("NTSC f1..12", [[1, 12, 0]], [], [[1, 12, 2]], [], None, None),
    ("1..9 -6 12..20", [[1, 9, 0], [12, 20, 0]], [], [[1, 3, 1], [4, 9, 1], [12, 20, 1]], [], None, None),
    ("1..10 11x3 12..20", [[1, 20, 0]], [], [[1, 11, 1], [12, 20, 1]], [], None, None),
    ("NTSC t0..39", [[0, 39, 0]], [[0, 39, "8BA000"]], [[0, 39, 1]], [], None, None),
    ("NTSC L Bx3590 m1x3590 O", [], [], [], [], (0, 1), (1, 1)),
    ("O 1..9 L", [[1, 9, 0]], [], [[1, 9, 1]], [], None, None)))
def test_marks(text, chapters, statuses, lasting, users, begins, ends):
    one = capture_of(made(text, side), "a")
    plain = plain_marks(one.marks)
    assert plain == {"pace": one.answer.pace, "said": {"chapter": chapters, "programme status": statuses},
                     "lasting": lasting, "users": users, "begins": begins, "ends": ends}
    assert marks_in({"marks": plain, "system": one.answer.system, "unit": one.answer.unit}, "a") == one.marks


def test_marks_of_a_page():
    """A page has as many stretches as are believed of a side that isn't too worn. One of another form has no marks:
    numbers are whole, and those of discs; all else is text."""
    for count, is_there in ((2000, True), (2001, False)):
        said = {"chapter": [Said(one, one, 1) for one in range(1200)], "programme status": [Said(1, 1, "8BA000")] * 300}
        known = Marks("a", "PAL", "picture", "video", said, [range(2)] * (count - 1500), [], None, None)
        assert (plain_marks(known) is not None) == is_there
    plain = {"pace": "video", "said": {"chapter": [[1, 2, 3]], "programme status": [[4, 5, "8BA000"]]},
             "lasting": [[6, 8, 1]], "users": [[7, "0A1"]], "begins": [0, 1], "ends": [9, 10]}
    texts = json.dumps(plain)
    for number in range(11):  # that of lasting's step aside, each is there once
        for other, is_good in (("2097151", True), ("-2097151", True), ("2097152", False), ("-2097152", False),
                               ("true", False), ("1.0", False), ('"1"', False), ("null", False), ("[]", False)):
            text = re.sub(r"(?<![\dA-Z])%d(?![\dA-Z])" % number, other, texts, count=1)
            said = {"marks": json.loads(text), "system": "PAL", "unit": "picture"}
            assert (reason(marks_in, said, "a", kind=(TypeError, ValueError, KeyError)) is None) == is_good, text
    for part, other in (('"8BA000"', "1"), ('"0A1"', "1"), ('"chapter"', '"ch"'), ("[0, 1]", "[0]"), ("[0, 1]", "0")):
        said = {"marks": json.loads(texts.replace(part, other)), "system": "PAL", "unit": "picture"}
        assert reason(marks_in, said, "a", kind=(TypeError, ValueError, KeyError)) is not None, part


def test_a_confirmed_number_is_between_those_that_are_read_and_due():
    near = made("1..40 7=B", side)
    known = near.analysis.answer
    near.analysis = near.analysis._replace(answer=known._replace(
        confirmed=[7], unread=[], showings=[*known.showings, Showing(4, 7, 7)]))
    ones = [capture_of(one, name) for one, name in zip((capture("1..40 7=B"), near, capture("1..40 7=-/-/#4*")), "abc")]
    assert [told(as_json(join(ones[:count])), "better") for count in (2, 3)] == ["b 4 1", "c 4 1"]
    assert [(one.lines, one.sure) for one in ones[1].places if one.number == 4] == [(0, 0)]


def test_texts():
    assert list(joined_text(together("1..40 -41:46", "1..40 -61:62", "1..30 -9:10"))) == [
        "together: whole: yes", "together: pictures 1 to 40, none lost", NOTHING_SHOWS,
        "a: has 37, 1 of them alone, lacks 3 (pictures 21 to 23 in b and c), whole: no", "better in a: none",
        "b: has 39, none of them alone, lacks 1 (picture 31 in a), whole: no", "better in b: none",
        "c: has 29, none of them alone, lacks 11 (picture 5 in a and b, picture 31 in a, pictures 32 to 40 in a "
        "and b), whole: no", "better in c: none", "alike: 39 (pictures 1 to 30, pictures 32 to 40)",
        "lacking in all: none", "disagreements: none", "as one file: yes"]


# What is asked, captures, and whether they are whole together, whichever comes first, with the words of the reasons: at
# an open end, if lead-out has to be seen, by a strict judge, or with a given last number. Each may fill what the other
# lost. A picture of which both lost another field isn't whole. One that is whole alone says it all. A time that the
# clock may have left out is so in both.
WHOLE = """
    open | 1..40 -41:46 ; 1..40 -61:62 | - | yes
    open | 1..40 -42 ; 1..40 -42 | lost | no: 1 picture lacks fields (21)
    open | 1..10 21..40 ; 1..10 21..40 | missing, unsure | no: 10 pictures lost; 1 picture may have another's field (10)
    open | 1..40 ; 1..20 Lx5 1..20 | - | yes || open | 5..40 ; 1..9 | - | yes
    open | 5..40 ; 7..44 | begins | no: begins at picture 5
    open | 1..15 ; 1..20 Lx5 1..20 | joined | no: b: lead-in again in field 41 (two sides joined)
    open | 1..20 Lx5 1..20 ; 1..20 Lx5 1..20 | joined | no: ..
    open | 1..10 Bx20 ; 21..40 | unsure | can't tell: 10 pictures may have another's field (11 to 20)
    open | NTSC t0..59!31 ; NTSC t0..59!31 | open | can't tell: in all of them fields may be lost at the same place
    open | PAL/41 1..40 ; PAL/41 1..40 | open | can't tell: in all of them fields may be lost at the same place
    open | PAL/42 1..40 ; PAL/40 1..40 | - | yes
    open | NTSC t0..59!31 ; NTSC t0..59!41 | - | yes || open | 1 ; 1 | numbers | can't tell: too few numbers to judge by
    open | m0..1x3000 ; m0..1x3000 | minutes | can't tell: no minute is between two others
    open | b1..30 +38=B ; b1..30 +38=B | off | can't tell: a field may be lost or too many in fields 1 to 61
    open | NTSC f1..40 ~48 ; NTSC f1..40 ~48 | order | can't tell: fields 48 and 49 may be swapped
    open | t0..19 5.16=s0.25 7.18=@0:60 ; t0..19 5.16=s0.25 7.18=@0:60 | doubtful
        | can't tell: numbers set aside in 2 of 20 fields
    open | NTSC t3..39 ; NTSC t3..39 | ends | can't tell: numbers before time 0:00:00.03 may be lost
    open | 1..40 -41:46 Bx150 ; 1..40 -71:72 Bx150 | ends | can't tell: numbers after picture 40 may be lost
    40 | 1..40 -41:46 Bx150 ; 1..40 -71:72 Bx150 | - | yes
    open | 1..20 Bx120 81..100 ; 1..20 Bx120 81..100 | unseen | can't tell: no number in fields 40 to 160
    open | 1..20 Bx120 81..100 -5:6 ; 1..100 -11:12 | - | yes
    open | 1..40 t0..4 -9:12 ; 1..40 -41:44 | format | no: a: codes of CLV in 10 fields, from field 77 on
    open | 0..40 t0..4 -9:12 ; 1..40 | format | no: a: codes of CLV in 10 fields, from field 79 on
    end | 1..40 -41:46 O ; 1..40 -61:62 | - | yes
    end | 1..40 -41:46 ; 1..40 -61:62 | lead-out | can't tell: no lead-out after picture 40
    end | 1..40 -41:46 ; 1..38 -5:6 O | unsure, lead-out
        | can't tell: 1 picture may have another's field (40); no lead-out after picture 40
    strict | L 1..40 -42:47 ; 1..40 -61:62 O | - | yes || strict | L 1..40 42=? O ; 1..40 | - | yes
    strict | L 1..40 42=? O ; 1..40 41=? | unread | no: 1 picture unread
    strict | L 1..20 12=? 31..40 O ; 1..20 11=? 31..40 | missing, unread, unsure
        | no: 10 pictures lost; 1 picture unread; 1 picture may have another's field (20)
    strict | L 1..40 42=? O ; 1..40 11=? 13=? | - | yes || strict | L Bx4 3..40 O ; 1..40 O | - | yes
    strict | L m57x3000 Bx3000 m59x3000 O ; m57x3000 m59x3000 | unread, begins, minutes | no: 1 minute unread; ..
    strict | 1..40 -41:46 ; 1..40 -61:62 | lead-in, lead-out | no: no lead-in; no lead-out after picture 40
    42 | 1..40 ; 1..38 | missing | no: 2 pictures lost || 40 | 1..40 -41:46 ; 1..40 -61:62 | - | yes
    42 | 1..40 Bx4 ; 1..38 | undecided | can't tell: 2 pictures undecided
    38 | 1..40 ; 1..38 | last | can't tell: a: it ends at 40, after 38 that was given as the last
    0:00:34 | NTSC t0..1019!31%100 ; NTSC t0..99 | missing, unsure
        | no: 1 time lost; 1 time may have another's field (0:00:33.29)
    0:00:01.12 | NTSC/0 t0..39 Bx4 ; NTSC t44..59 | missing, undecided, last | no: 1 time lost; 1 time undecided; ..
    0:01:40.08 | NTSC t0..3006!7%1000 ; NTSC t0..99 | missing, unsure
        | no: 1 time lost; 1 time may have another's field (0:01:40.06)
    5 | t0..39 ; t0..9 | lead-out, last | can't tell: no lead-out after time 0:00:01.14; ..
"""


@pytest.mark.parametrize("asked, texts, words, wanted", cells_of(WHOLE))
def test_whole_together(asked, texts, words, wanted):
    ones = []
    for text in texts.split(" ; "):
        ones.append(made(text, side))
        ones[-1].may_end, ones[-1].is_strict = asked == "open", asked == "strict"
        ones[-1].given_last = asked if asked[0].isdigit() else None
    captures_of = [capture_of(one, name) for one, name in zip(ones, "ab")]
    for found in (join(captures_of), join(captures_of[::-1])):
        said = next(joined_text(found))[len("together: whole: "):]
        assert said.startswith(wanted[:-2]) if wanted.endswith("..") else said == wanted
        assert ", ".join(one.why for one in found.reasons) == words.strip("-")
        assert found.whole == wanted.split(":")[0]


def test_chapters_and_stops_together():
    """Picture 16 is in field 31 of either, and its chapter 2 begins in the field after it. A lost 3 pictures before it,
    which move it, and has the chapter from its fifth picture on. Of two stops in the fields of 11 each has one."""
    found = together("1..40 2:46/2=-/c1/c1 48:80/2=-/c2/c2 22=S/-/- -51:52 -3:8",
                     "1..40 2:30/2=-/c1/c1 32:80/2=-/c2/c2 21=S/#11/#11")
    assert found.chapters == [(1, 1, "b", 2, 1, 2), (2, 16, "b", 32, 16, 32)]
    assert [one[:3] for one in found.stops] == [(11, "b", 21), (11, "b", 22)]
    assert list(joined_rows(found, ()))[-4:] == [
        ("chapter", 1, 2, 1, "read", "b"), ("chapter", 2, 32, 16, "read", "b"), ("stop", 11, 21, 11, "read", "b"),
        ("stop", 11, 22, 11, "read", "b")]
    assert chapters_text("PAL", joined_spans(found), "x.txt") == (
        "0.020000\t0.620000\tChapter 1\n0.620000\t1.600000\tChapter 2\n")
    # it begins beside a picture of film that isn't read
    assert together("NTSC f1..20 11=B 12:13=-/c1/c1 15=-/c1/c1").chapters == [
        (0, 1, "a", 2, 1, 2), (1, 5, "a", 12, 6, 12), (0, 7, "a", 17, 9, 17)]
    # what stands before the first field of 1 in a is in that of b
    assert together("-/c1/c1 1..40 3:81/2=-/c1/c1 62=?/#31/#31", "1..40 2:80/2=-/c1/c1").chapters == [
        (1, 1, "b", 1, 1, 1)]
    assert together("S/-/- 1x2 2..40 64=?/#31/#31", "1..40").stops == [(1, "b", 1, 1, "read")]
    assert together("1..9", "B 1..9 1:9=B").stops == []
    assert together("S/-/- B 1..40", "1..40").stops == []  # near no number
    away = together("1..10 105..142 49..62 31=S/#110/#110 22:96/2=-/c5/c5", "1..62")
    assert (away.stops, [one.chapter for one in away.chapters]) == ([], [0])
    worn = together("1..9 3=S^/#2/#2 5=S^/#3/#3 7=S/#4/#4 -11:14", "1..9 3=S^/#2/#2 5=S/#3/#3 7=S^/#4/#4")
    assert [row for row in joined_rows(worn, ()) if row[0] == "stop"] == [
        ("stop", 2, 3, 2, "unsure", "b"), ("stop", 3, 5, 3, "read", "b"), ("stop", 4, 7, 4, "read", "b")]
    assert [one["how"] for one in as_json(worn)["stops"]] == ["unsure", "read", "read"]
    assert not list(joined_spans(together("m0..1x3000", "m0..1x3000")))


def test_what_is_printed_and_written(drawn):
    """Of pictures 0 to 11, and of 4 to 7 and 10 to 15. With one field each has its own stretch."""
    write_stream(drawn.named("other.tbc"), NTSC, pictures(16)[4:8] + pictures(16)[10:])
    drawn.metadata("other.tbc.json")
    words, head = "join side.vbi.json other.tbc ", (
        "together: whole: no: 16 pictures lack fields (0 to 15); too few numbers to judge by")
    lines = drawn.run_words(words)[1].split("\n")
    assert lines[:3] == [head, "together: pictures 0 to 15, none lost", NOTHING_SHOWS]
    assert [line.split(":")[0] for line in lines[3:]] == [
        "side.vbi.json", "better in side.vbi.json", "other.tbc", "better in other.tbc", "alike", "lacking in all",
        "disagreements", "as one file", ""]
    for option, *wanted in (
            ("--csv", "number,source,field,frame,how", "0,side.vbi.json,1,1,read", "11,side.vbi.json,12,6,read",
             "12,other.tbc,7,4,read", "15,other.tbc,10,5,read", ""),
            ("--ranges", "first,last,source,first field,last field,how", "0,0,side.vbi.json,1,1,whole",
             "11,11,side.vbi.json,12,12,whole", "12,12,other.tbc,7,7,whole", "15,15,other.tbc,10,10,whole", "")):
        rows = drawn.printed(words + option, said="ldvbi-side: %s\n" % NOTHING_SHOWS).decode().split("\n")
        assert [*rows[:2], *rows[12:14], *rows[16:]] == wanted
    assert drawn.printed(words + "--chapters side.txt", said="ldvbi-side: no chapter of the side is believed: side.txt "
                         "isn't written\n") + drawn.printed(words + "--map side.map") == b""
    head_rows = ["%s,%d,1,1,side,%s" % (kind, value, name)
                 for name, fields in (("side.vbi.json", 12), ("other.tbc", 10))
                 for kind, value in (("black", 16384), ("white", 51200), ("fields", fields))]
    rows = drawn.text("side.map").split("\n")
    assert [row for row in rows if row.split(",")[0] in ("black", "white", "fields")] == head_rows
    assert [rows[0], rows[1], rows[9], rows[24], rows[25]] == [
        "kind,number,field,frame,how,source", "system,NTSC,1,1,side,side.vbi.json", "picture,0,1,1,read,side.vbi.json",
        "picture,15,10,5,read,other.tbc", ""]
    for page, option, printed in (("one", "", b""), ("two", "--json ", drawn.printed(words + "--json"))):
        assert drawn.printed(words + option + "--html " + page) == printed
        assert ('<h1>side.vbi.json, other.tbc</h1>\n<div class="no">together: whole: no<ul><li>16 pictures lack fields '
                "(0 to 15)</li><li>too few") in drawn.text(page).replace("<wbr/>", "")
    for option in ("--csv --map -", "--html - --map -"):
        assert drawn.run_words(words + option)[2].endswith("error: standard output takes one thing\n")
    assert drawn.printed(words + "--map -").decode() == drawn.text("side.map")


def test_links_to_pages_of_the_same_folder(room):
    """From a page beside those of a scan, which have one to the index; a capture without a page has no link, nor has a
    page elsewhere."""
    for name in ("a/1.tbc", "b/1.tbc", "c.tbc"):
        room.add(name, "1..30 O")
    room.scan("--html pages a b")
    room.write("pages/other.html", "<p>")
    for page, wanted in (("pages/both.html", ["index.html", "1.html", "1-2.html"]), ("both.html", [])):
        room.printed("join --html %s a/1.tbc b/1.tbc c.tbc" % page)
        assert re.findall('href="(.*?)"', room.text(page)) == wanted
    assert '<td><a href="1-2.html">b/<wbr/>1.<wbr/>tbc</a></td>' in room.text("pages/both.html")
    assert '<body>\n<p><a href="index.html">all sides</a></p>\n<h1>' in room.text("pages/1.html")
    room.refused("absent/both.html: No such file or directory", "join --html absent/both.html a/1.tbc b/1.tbc")


def test_sides_are_read_as_the_options_say(drawn):
    """Both end without lead-out, and field 5 is worn. By the metadata the second fields begin frames."""
    fields = words_of("1..8")
    fields[4] = [0, *2 * [worn_line(0xF00003, NTSC, 9, 11)]]
    for name in ("one.tbc", "two.tbc"):
        write_stream(drawn.named(name), NTSC, fields)
    drawn.metadata("meta.json", count=16)
    for words, whole, frame, how in (
            ("LEVELS", "can't tell", 3, "read"), ("--meta meta.json --open-end", "yes", 2, "read"),
            ("LEVELS --no-recover", "can't tell", 3, "neighbours"), ("LEVELS --strict", "no", 3, "read")):
        found = json.loads(drawn.printed("join --json one.tbc two.tbc " + words))
        assert ([one["whole"] for one in found["captures"]], found["taken"][2]) == (
            [whole, whole], [3, "one.tbc", 5, frame, how])


def random_set(seed):
    """What two to four captures of one drawn disc have together, beside the truth: each number that isn't unsure is
    taken from a field that has it on the disc. None that can be read in a capture is missing. What is lost is in no
    capture, and what one lacks another has. No two disagree. Returns how many numbers are taken and lacking."""
    ones = captures(seed, 2 + seed % 3)
    joined = as_json(join([capture_of(side_of_document(json.dumps(one.document).encode()), str(place))
                           for place, one in enumerate(ones)]))
    truths, having, on_disc = [Truth(one) for one in ones], [set(one.numbers) for one in ones], set(ones[0].on_disc)

    def number(text):
        return number_of(text, truths[0].rate, joined["unit"])

    def numbers_in(name, **asked):
        return {one for stretch in joined[name] if asked.items() <= stretch.items()
                for one in range(number(stretch["first"]), number(stretch["last"]) + 1)}

    taken, unsure = {number(row[0]) for row in joined["taken"]}, numbers_in("ranges", how="unsure")
    for text, source, field, frame, _ in joined["taken"]:
        assert (field + 1) // 2 == frame
        assert ones[int(source)].numbers[field - 1] == number(text) or number(text) in unsure
    assert set().union(*(truth.read for truth in truths)) <= taken
    assert numbers_in("missing", why="lost") <= on_disc - set().union(*having)
    assert joined["disagreements"] == [] and not numbers_in("leftOut") & on_disc
    for stretch in joined["lacks"]:
        numbers = numbers_in("lacks", **stretch) & taken
        assert len(numbers) == stretch["count"]
        assert all(numbers <= having[int(name)] for name in stretch["in"])
    assert joined["whole"] != "yes" or on_disc == taken
    return Counter(taken=len(taken), lacking=sum(stretch["count"] for stretch in joined["lacks"]))


@pytest.mark.unrecorded
def test_random_sets():
    assert sum(map(random_set, range(30)), Counter()) > Counter(taken=6000, lacking=500)
