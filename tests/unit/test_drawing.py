"""What a drawing marks and says, of answers by hand and of sides whose words are known; and where it has what it shows:
a side of 64 fields on 960 pixels from 150 on has 15 for each."""

import re
import xml.etree.ElementTree as xml
from unittest import mock

from compact import cells_of, made
from discs import side, typed
import ldvbi
from ldvbi import Kind
from ldvbi.readings import Cut
from ldvbi_side.answer.entries import Doubt, Extent, Lost, Missing, Numbered, Repeated, Speed
from ldvbi_side.draw import bands, bars, colours, curve, drawing, finding, folds, sorting, style
from ldvbi_side.draw.axis import Axis, BROAD, NARROW
from ldvbi_side.draw.curve import Scale, ticks
from ldvbi_side.draw.drawing import drawing_of
from ldvbi_side.draw.marks import Mark, marks_of
from ldvbi_side.draw.svg import shortened, Svg
from ldvbi_side.judge.places import Break, Showing
from ldvbi_side.judge.readings import Stray
import pytest

SPACE = "{http://www.w3.org/2000/svg}"
EMPTY = made("", typed)
# Entries of an answer's lists, of which each row below changes a part
ENTRIES = {
    "missing": Missing(5, 5, 1, "lost", 9, 13), "lost": Lost(9, 10, 1, "number"),
    "breaks": Break("held", 9, 12, 5, 6, 4),
    "doubtful": Doubt(7, 18, 0xF79999, Kind.picture, 2, "lines", 79999, None, None),
    "stray": Stray(7, 16, 0x87FFFF, Kind.clv_mark, 1, "line"), "swapped": Numbered(9, 5),
    "speeds": Speed(9, 49, "1/3"), "stills": Showing(5, 9, 15), "repeated": Repeated(5, 6, 21, 23, 9)}
PLACE, LOST = ", after field 9, before field 13: ", " between fields 9 and 10, "
DOUBT, PASS_2 = "doubtful 7: doubtful: picture 79999 in field 7, line 18", ", read only after smoothing: "
# The list, what is other there, and the lane, its fields, and what it says
MARKS = (
    ("missing", {"why": "unread"}, "unread 10-12: unread: 5" + PLACE + "fields are there for it, and none shows it"),
    ("missing", {"why": "undecided"},
     "undecided 13: undecided: 5" + PLACE + "lost or unread, or skipped by the disc itself"),
    ("missing", {"after": 0}, "lost 13: lost: 5, before field 13: no field is there for it"),
    ("missing", {"last": 7, "count_": 3}, "lost 13: lost: 5 to 7" + PLACE + "no field is there for it"),
    ("lost", {"after": 0}, "lost fields 10: lost: 1 field before field 10, by the numbers"),
    ("lost", {"fields": 3, "or_more": True}, "lost fields 10: lost: at least 3 fields" + LOST + "by the numbers"),
    ("lost", {"by": "both", "fields": 3},
     "lost fields 10: lost: 3 fields" + LOST + "by the numbers and by isFirstField"),
    ("lost", {"by": "parity", "fields": None}, "lost fields 10: lost: 1 or more fields" + LOST + "by isFirstField"),
    ("lost", {"by": "undecided", "fields": None},
     "lost fields 10: lost or shown again: a field" + LOST + "by isFirstField"),
    ("lost", {"by": "undecided", "fields": 2},
     "lost fields 10: lost: 2 fields" + LOST + "or a number was skipped by the disc itself"),
    ("lost", {"unit": "minute", "after": 3610, "before": 7111, "fields": 90, "or_more": True},
     "lost fields 3611-7110: lost: at least 90 fields between fields 3611 and 7110, by the minute's length"),
    ("lost", {"unit": "minute", "before": 11},  # of which one field is there
     "lost fields 10: lost: 1 field between fields 10 and 10, by the minute's length"),
    ("breaks", {}, "jumps 12: 4 fields too many, from 5 in field 9 to 6 in field 12"),
    ("breaks", {"kind": "back", "to": 2}, "jumps 12: back from 5 in field 9 to 2 in field 12"),
    *(("doubtful", {"why": why}, DOUBT + PASS_2 + text) for why, text in (
        ("neighbours", "the numbers around it fit each other"), ("minute", "no minutes are there to join it"),
        ("alone", "there is a break, or the end of the side, here too"),
        ("chapter", "it doesn't fit the chapters around it"))),
    ("doubtful", {"why": "clock", "number": None, "kind": Kind.time, "word": 0xF0DD75},
     "doubtful 7: doubtful: time F0DD75 in field 7, line 18" + PASS_2 + "no clock shows it"),
    ("doubtful", {"pass_": 1}, DOUBT + ": lines 17 and 18 differ"),
    ("doubtful", {"pass_": 3}, DOUBT + ", recovered: lines 17 and 18 differ"),
    ("doubtful", {"before": Numbered(5, 3)}, DOUBT + PASS_2 + "lines 17 and 18 differ (3 in field 5)"),
    *(("stray", {"why": why}, "out of place 7: out of place: clv in field 7, line 16: " + text) for why, text in (
        ("line", "no disc has it on this line"), ("format", "a code of the other format"),
        ("place", "it stands between two numbers that fit each other"),
        ("unsure", "line 16 or 17 has to show it without smoothing, or both"))),
    ("swapped", {}, "swapped fields 9-10: fields 9 and 10 are swapped: 5"),
    ("speeds", {}, "other speeds 9-49: 1/3 numbers a picture in fields 9 to 49"),
    ("stills", {}, "stills 9-15: 5 stands still in fields 9 to 15"),
    ("repeated", {}, "shown again 21-23: 5 to 6 again in fields 21 to 23; first shown in field 9"))


def marks_with(name, unit="picture", **other):
    """The marks of an answer whose list has one entry."""
    marks = marks_of(EMPTY._replace(unit=unit, **{name: [ENTRIES[name]._replace(**other)]}))
    return ["%s %s: %s" % (lane, first if first == last else "%d-%d" % (first, last), text)
            for lane, ones in marks.items() for first, last, text in ones]


def test_each():
    for name, other, wanted in MARKS:
        assert marks_with(name, **other) == [wanted]
    assert marks_with("breaks", kind="lost") == []


def test_texts_and_ticks_that_fit():
    """Characters are 6.5 pixels wide at a font size of 10."""
    for width, text, wanted in (
            (46, "0123456789", "012\u2026789"), (65.1, "0123456789", "0123456789"),
            (64.9, "0123456789", "0123\u20266789"), (58.6, "ab/cd_ef.tbc", "ab/\u2026tbc"),
            (65.1, "ab/cd_ef.tbc", "ab/cd_\u2026tbc"), (65, "abc-defghijklmno", "abc-\u2026"),
            (39.1, "ab/cd_ef.tbc", "ab/\u2026")):
        assert shortened(text, width, 10) == wanted
    svg = Svg(20, 10, "<a>")
    svg.text(1, 2.5, "a < b", "\"&\"", font_size=None, class_="x")
    assert 'role="img" aria-label="&lt;a&gt;">' in svg.render()
    assert '<text x="1" y="2.5" class="x"><title>"&amp;"</title>a &lt; b</text>' in svg.render()
    for least, greatest, steps, wanted in (
            (1, 52, [1, 2, 5, 10, 20], [1, 20, 40]), (1, 0, [1], []),
            (7, 100, [1, 2], [7, *range(8, 101, 2)])):  # where no step is large enough
        assert ticks(least, greatest, 5, steps) == wanted


@pytest.mark.parametrize("unit, steps", (
    ("picture", (1, 2, 5, 10, 20, 50, 100, 200, 500)), ("minute", (1, 5, 10, 15, 30, 60)),
    ("time", (1, 5, 25, 125, 375, 1500, 7500, 15000, 22500, 45000, 90000))))
def test_each_step(unit, steps):
    """About five labels: a step is enough for five times itself, and not for one more."""
    def text(count):
        return {"picture": count, "minute": "%d:%02d" % divmod(count, 60), "time": "%d:%02d:%02d.%02d" % (
            count // 90000, count // 1500 % 60, count // 25 % 60, count % 25)}[unit]
    for step, after in zip(steps, steps[1:]):
        for greatest, wanted in ((5 * step, step), (5 * step + 1, after)):
            found = Scale(unit, "PAL", Extent(9, text(0), text(greatest)))
            assert found.ticks() == list(range(0, greatest + 1, wanted))
            assert [found.text_of(one).removesuffix(".00") for one in found.ticks()] == [
                str(text(one)).removesuffix(".00") for one in found.ticks()]


def text_in(part):
    return part[0].tail if len(part) else part.text


# The attributes of a part that say its place
PLACES = {"text": ("x", "y"), "line": ("x1", "y1", "y2"), "circle": ("cx", "cy")}


def place_of(part):
    """The fields of a part of a drawing, and its place."""
    known, kind = part.attrib, part.tag[len(SPACE):]
    fields = [known[name] for name in ("data-fields", "data-field") if name in known]
    if kind == "rect":
        top, height = float(known["y"]), float(known["height"])
        shown = [known["data-shown"], "%.0f-%.0f" % (top, top + height)] if "data-shown" in known else []
        return [*fields, "%.0f-%.0f" % (float(known["x"]), float(known["x"]) + float(known["width"])), *shown]
    if kind == "path":
        points = re.findall("[0-9.]+ [0-9.]+", known["d"])
        ends = ["%.0f" % float(end) for point in (points[0], points[-1]) for end in point.split(" ")]
        return [*fields, str(len(points)), *ends] if known["class"] == "run" else [*fields, known["d"]]
    place = ["%.0f" % float(known[name]) for name in PLACES[kind]]
    return {"text": [*place, text_in(part)], "line": place, "circle": [*fields, "ring", *place]}[kind]


# Sides, and what the drawing has of some classes, in this order and no more of it: the words, or with @ the places;
# with + one that has these words, with - none, after # how many, and after = a limit. In the first side pictures 7
# and 8 are skipped, 11 comes three times, 14 has no codes, three are read wrong, and 24 to 27 come after 26. In the
# second one times begin at 0:59:59.15; the minutes of two fields are wrong, no clock shows those of a third, nor the
# picture of a fourth. Of the third one 20 fields share a pixel, and where there are too many boxes twice as many do.
DRAWN = """
    t89990..90005 t90009..90012 2:40/2=-/M/c3 9.18=@0:58 13.18=@9:59 17.18=@0:61 25.16=s0.25
      | @number-label 140 487 0:59:59.15; 140 435 0:59:59.20; 140 382 1:00:00; 140 330 1:00:00.05; 140 278 1:00:00.10
      | @axis 36 368 time; 630 710 field | @undecided 33-33 918-942 | @unread 24-26 702-774
      | @doubtful 9-9 342-366; 13-13 438-462; 17-17 534-558; 25-25 726-750
      | @doubt 9 M354.0 493.0l-5 -9h10z; 13 M450.0 243.0l-5 9h10z
      | @run 1-23 12 162 483 690 368; 27-31 3 786 347 882 326; 33-39 4 930 284 1074 253
    MANY 2401=-/?/#1201 | @line-16 1-4840 124-366 blank 94-122 | @run 1-4839 243 124 488 366 248
      | @line-17 1-2400 124-244 word 128-142; 1-2400 124-244 blank 142-156; 2401-2420 244-245 change 128-132;
      2401-2420 244-245 word 132-143; 2401-2420 244-245 blank 143-156; 2421-4840 245-366 word 128-142;
      2421-4840 245-366 blank 142-156
    NTSC S/S*/- ~/?/! | @line-16 1-1 150-630 word 94-122; 2-2 630-1110 unfinished 94-122
      | @line-17 1-1 150-630 read only after smoothing 128-156; 2-2 630-1110 change 128-156
      | @line-18 1-1 150-630 blank 162-190; 2-2 630-1110 hold 162-190 | @stop 1 M390.0 224l4 6l-4 6l-4 -6z
    NTSC m59x45 m60x3 | axis time; field | run 0:59 to 1:00 in fields 1 to 48
      | @number-label 140 432 0:59; 140 312 1:00 | @run 1-48 4 160 428 1100 308 | doubt
    MANY 2401.16=? | @line-16 1-2400 124-244 blank 94-122; 2401-2420 244-245 noise 94-95;
      2401-2420 244-245 blank 95-122; 2421-4840 245-366 blank 94-122
      | +line-16 line 16, fields 2401 to 2420: noise in 5 % of these fields
      | +line-16 line 16, fields 2401 to 2420: blank in 95 % of these fields
    MANY 95:4840/192=B 2403=B | #unread 25 | +@unread 2398-2404 244-246
    MANY 2403=B 2407=B 2411=B
      | @run 1-2401 121 124 488 244 369; 2405-2405 1 244 369 244 369; 2413-4839 123 245 368 366 248
    MANY 2401=-/?/#1201 | =MOST_BOXES 6 | +line-17 fields 1 to 2560: change in less than 1 % of these fields
      | @line-17 1-2560 124-252 change 128-132; 1-2560 124-252 word 132-144; 1-2560 124-252 blank 144-156;
      2561-4840 252-366 word 128-142; 2561-4840 252-366 blank 142-156
    MANY 2461=-/#100/- 2463=-/#101/- 2601=-/#100/- | =MOST_RINGS 2 | @doubt 2461 ring 247 478
      | +doubt and 2 more near it
    NTSC t1740..1829!1800,1801,1802,1803,1804 | system NTSC, CLV, 170 fields, 85 times, 0:00:58.00 to 0:01:00.29
      | number-label 0:00:58; 0:00:59; 0:01:00
      | run 0:00:58.00 to 0:00:59.29 in fields 1 to 119; 0:01:00.05 to 0:01:00.29 in fields 121 to 169
    | empty no picture number and no time
    Bx40 | @empty 630 368 no picture number and no time; 630 392 lines 17 and 18 have 0 words, 0 are bad, 80 blank: ..
    -/#9/#9 | run 9 in field 1 | @run 1-1 1 630 368 630 368
    NTSC f1..39 | system NTSC, CAV, film (2 and 3 fields a picture), 98 ..
    NTSC 8AE001/@0:01/@0:02 | +count doubtful: 3 | empty no picture number and no time is believed | #run 0 | #doubt 0
    10..19 1 21..29 | number-label 10; 15; 20; 25 | doubt doubtful: picture 1 in .. | +count doubtful: 2
    m59x20 m60x28 9=-/M/@2:10 | doubt doubtful: time 2:10 in .. || t0..57 9=s7.12/M/- | doubt
    1..1500 1001:1003/2.16=S 2001.16=S | +count stops: 3
      | stop picture stop of 501 in field 1001, line 16; picture stop of 1001 in field 2001, line 16
    NTSC Lx8 1..19 25 2 28..49 Ox8 9=S/S/#1 61=?/!/~ | system NTSC, CAV, 102 fields, 41 pictures, 1 to 49 | #doubt 1
      | stop picture stop of 1 in field 9, lines 16 and 17 | lead-in lead-in: fields 1 to 8
      | +line-17 line 17, field 61: hold 200
    t0..57/3 | +count other speeds: 1 | -count swapped || 1 | +count lost: 0 | -count undecided
    1..9 ?x4 14..30 | +count undecided: 4 || PAL/8 1..3 6..9 | +count lost fields: 4 || 1..30 21=? | +count unread: 1
    1..495!0%8 | +count lost: 61 | #lost 61 | #lost-fields 61 | #upright 0 || 1..487!0%8 | #upright 120
    <1..60 -/#N/#N -/cN/cN> | #chapter 60 | #chapter-line 60 || <1..61 -/#N/#N -/cN/cN> | #chapter 61 | #chapter-line 0
    <1..30 -/#N/#N -/cN/cN> | disc-label 1; 2; 3; 4; 5; 6; 7; 8; 9 || Lx6 1..45 | disc-label lead-in; chapter 0
    <1..35 -/#N/#N -/cN/cN> | disc-label 2; 4; 5; 6; 7; 9 || 1..480 102.16=S 104.16=S | #stop 2
    1..10 1.16=S 3.16=? | +line-16 line 16, field 3: change || 1..10 B 1.16=S 3.16=? | +line-16 field 3: noise
    NTSC m59x45 m60x3 9.16=? | +line-16 field 9: change || -/c3/- -/c3/- | chapter chapter 3: fields 1 to 2
    1..50 151..170 71..100 | @jumps 101-140 630-822
      | jumps fields 101 to 140 show pictures 151 to 170, misread or played in the place of others
    PAL/60 1..30 -60 21..60 | +count lost fields: 1 | +lost-fields lost: 1 or more fields between fields 59 and 60
    1..31 1.16=S 3.16=? 5.16=S* 7.16=S^ | +line-16 field 1: word | +line-16 fields 8 to 62: blank
      | +line-16 field 3: noise, change | +line-16 field 5: read only after | +line-16 field 7: recovered
    MANY B | @line-18 1-4840 124-366 blank 162-190; 4841-4841 366-367 blank 162-190
    NARROW Bx40 | @empty 245 368 no picture number and no time || NARROW 1 | @axis 12 368 picture number; 245 692 field
"""
MANY = "NARROW NTSC 1..2420 1:4840/2.18=- 2:4840/2=B"  # 20 fields to a pixel of the narrow drawing


def parts_of(text, **more):
    """The parts of a drawing, each with its class."""
    form = NARROW if text.startswith("NARROW ") else BROAD
    picture = xml.fromstring(drawing_of(made(text.removeprefix("NARROW "), side, **more), "side.tbc", form))
    return [(part.get("class"), part) for part in picture.iter()]


@pytest.mark.parametrize("text, asked", (
    (text, asked) for text, *asked in cells_of(DRAWN.replace("MANY", MANY))))
def test_drawn(text, asked):
    """Marks that fall together are one. Doubtful numbers beyond the scale stand on both lines, which is one mark on the
    curve. A strip of 14 pixels has room for one digit, but not one of 13, and one of 16 neither for `chapter 5` nor
    for two; one of 60 has it for `lead-in`. A last column that has less than a pixel has one."""
    limits = dict(one[1:].split() for one in asked if one[0] == "=")
    with mock.patch.object(bands, "MOST_BOXES", int(limits.get("MOST_BOXES", bands.MOST_BOXES))), \
            mock.patch.object(curve, "MOST_RINGS", int(limits.get("MOST_RINGS", curve.MOST_RINGS))):
        parts = parts_of(text)
    for one in asked[len(limits):]:
        kind, is_place, name, wanted = re.fullmatch("([+#-]?)(@?)([a-z0-9-]+) ?(.*)", one).groups()
        found = [" ".join(place_of(part)) if is_place else "".join(part.itertext())
                 for other, part in parts if other == name]
        said = "; ".join(found)
        if kind == "#":
            assert len(found) == int(wanted), one
        elif kind:
            assert any(re.search(re.escape(wanted) + r"\b", each) for each in found) == (kind == "+"), one
        else:
            assert (said[:len(wanted) - 2] + ".." if wanted.endswith("..") else said) == wanted, one


def test_padding():
    """Of 64 fields the 11th and the 12th are padding, whatever their lines show."""
    one = made("1..32 12=B", side)
    assert "padding" not in drawing_of(one, "")
    one = made("1..32 12=B", side)
    one.pad = [field in (11, 12) for field in range(1, 65)]
    assert re.findall('fill="#1e293b" class="(.*?)" data-shown="padding" data-fields="(.*?)" .*<title>(.*)</title>',
                      drawing_of(one, "")) == [
        ("line-%d" % line, "11-12", "line %d, fields 11 to 12: padding" % line) for line in (16, 17, 18)]


def test_how_much_is_drawn():
    """Of a band 2000 boxes, each by itself; 1000 rings by three pixels, and more by twelve; of a field's axis 11 labels
    in the broad form, and 5 in the narrow one; of a title what has room at 11.05 pixels to a letter."""
    for count, wanted in ((2000, 2000), (2001, 2)):
        assert len(bands._few_columns((["word", "blank"] * 1001)[:count], 1)) == wanted
    for count, wanted in ((1000, 321), (1001, 80)):
        svg, fields = Svg(20, 10, ""), range(961 - count, 961)
        doubts = [ENTRIES["doubtful"]._replace(field=max(field, 1)) for field in fields]
        curve.draw_doubts(svg, Axis(960), Scale("picture", "PAL", Extent(9, 1, 240)),
                          EMPTY._replace(doubtful=doubts))
        assert len(svg.parts) == wanted
    heights = bands._heights({"change": 19, "hold": 1})
    assert heights == pytest.approx({"change": 26.6 / 30.6 * 28, "hold": 4 / 30.6 * 28})
    for others, wanted in ((1, "50 %"), (99, "1 %"), (100, "less than 1 %")):
        assert bands._share_text("hold", {"hold": 1, "word": others}) == "hold in %s of these fields" % wanted
    for form, count, labels in ((BROAD, 21, "1 2 4 6 8 10 12 14 16 18 20"), (BROAD, 22, "1 5 10 15 20"),
                                (NARROW, 21, "1 5 10 15 20"), (NARROW, 22, "1 10 20")):
        text = drawing_of(made("Bx%d" % count, side), "", form)
        assert re.findall(r'text-anchor="middle">(\d+)<', text) == labels.split(" ")
    for form, looks in ((BROAD, ("1140", "13")), (NARROW, ("388", "11"))):
        text = drawing_of(made("B", side), "", form)
        assert re.search('width="([0-9]+)" .*font-size="([0-9]+)"', text).groups() == looks
    assert [count for count in (86, 87) if "\u2026" in drawing_of(made("B", side), count * "x")] == [87]


def test_heads():
    """Of groups of rows, which may have no place, and of a side that ends inside a field."""
    assert folds._alike([{"by": "x"}], ["by"]) == (["by", "count", "first row", "last row"], [["x", 1, None, None]])
    row = {"first": 5, "after": 4, "field": 3, "by": "b", "pass": 1, "why": "w", "kind": "k", "cause": "a 9", "line": 7}
    for place in ("field", "after", "first"):
        assert folds._alike([row, {**row, "cause": "a b", place: 8}], ["word", *row]) == (
            ["line", "cause", "kind", "why", "pass", "by", "count", "first " + place, "last " + place],
            [[7, "a", "k", "w", 1, "b", 2, row[place], 8]])
        del row[place]
    parts = parts_of("-/#9/#9", cut=Cut(2, 5))
    assert "PAL, CAV, 1 field, field 2 is cut: 5 bytes of it, 1 picture, 9 to 9" in [part.text for _, part in parts]
    run, = [part.attrib for name, part in parts if name == "run"]
    assert (run["d"], run["stroke-width"]) == ("M630.0 368.0h0", "5")


def test_levels_of_another_file():
    """A side without numbers may be read by the metadata of another file: of more fields, or of whole ones."""
    for cut, fields, is_other in ((None, None, False), (None, 40, False), (None, 41, True), (Cut(41, 5), None, True)):
        one = made("Bx40", side, cut=cut)
        answer = one.analysis.answer._replace(metadata_fields=fields)
        one.analysis = one.analysis._replace(answer=answer)
        asked = "is it this system, and this file's metadata?" if is_other else "are black and white right?"
        assert "lines 17 and 18 have 0 words, 0 are bad, 80 blank: %s<" % asked in drawing_of(one, "")


FIRST_PART, LAST_PART = (10, 5, 6, 10), (20, 25, 26, 20)


@pytest.mark.parametrize("run, count", (
    ([FIRST_PART, (15, 9, 9, 15), LAST_PART], 1), ([(10, 5, 7, 10), LAST_PART], 1), ([FIRST_PART, (20, 24, 26, 20)], 1),
    ([(11, 5, 6, 11), LAST_PART], 2), ([(10, 4, 6, 10), LAST_PART], 2), ([FIRST_PART, (21, 25, 26, 21)], 2),
    ([FIRST_PART, (20, 25, 27, 20)], 2)))
def test_runs_in_the_same_pixels_are_one(run, count):
    """By the first field of their first number, and the last one of their last, which have a pixel each, as numbers."""
    svg, drawn = Svg(20, 10, ""), set()
    for one in ([FIRST_PART, LAST_PART], run):
        curve._draw_run(svg, Axis(960), Scale("picture", "PAL", Extent(9, 1, 240)), one, drawn)
    assert len(svg.parts) == count


def luminance(colour):
    """The relative luminance of a colour of sRGB, as WCAG has it."""
    parts = [int(colour[place:place + 2], 16) / 255 for place in (1, 3, 5)]
    return sum(share * (part / 12.92 if part <= 0.04045 else ((part + 0.055) / 1.055) ** 2.4)
               for share, part in zip((0.2126, 0.7152, 0.0722), parts))


def contrast(colour, other):
    low, high = sorted(map(luminance, (colour, other)))
    return (high + 0.05) / (low + 0.05)


def test_contrast():
    """What there is to see has 4.5 to 1 at least, on light and on dark pages: beside all that a page, a lane or a line
    has where there is nothing; in bands and bars beside words, too; in a line's drawing beside cells; and so has paper
    beside what has letters of its colour."""
    shown = [one for one in colours.DARK if one not in colours.GROUNDS]
    pairs = {(one, ground) for one in shown for ground in (colours.PAPER, colours.LANE, colours.BLANK)}
    pairs |= {(one, colours.WORD) for one in {*bands.SHOWN.values(), *bars.COLOURS.values()} - {
        colours.WORD, colours.BLANK, colours.PINK}}
    pairs |= {(one, pale) for one in (colours.AXIS, colours.CURVE, colours.DARK_BLUE, colours.GREEN, colours.RED)
              for pale in (colours.PALE_BLUE, colours.PALE_GREY, colours.PALE_RED)}
    pairs |= {(colours.PAPER, one) for one in (*drawing.ENDS.values(), *drawing.CHAPTER_COLOURS, colours.TEXT)}
    for colour, ground in pairs:
        for scheme in ({one: one for one in colours.DARK}, colours.DARK):
            assert contrast(scheme[colour], scheme[ground]) >= 4.5, (colour, ground)
    assert all(re.fullmatch("#[0-9a-f]{6}", one) for pair in colours.DARK.items() for one in pair)
    assert {one for one in vars(colours).values() if type(one) is str and one[0] == "#"} <= colours.DARK.keys()
    rules = colours.dark_drawings()
    assert rules == "@media(prefers-color-scheme:dark){%s}\n" % "".join(
        '[%s="%s"]{%s:%s}' % (name, *pair[:1], name, pair[1]) for pair in colours.DARK.items()
        for name in ("fill", "stroke"))
    light, dark = re.fullmatch(
        r":root{color-scheme:light dark;(.*)}\n@media\(prefers-color-scheme:dark\){:root{(.*)}}\n",
        colours.named_colours()).groups()
    assert light == ("--paper:#ffffff;--lane:#f8fafc;--grid:#e2e8f0;--text:#1e293b;--axis:#475569;--link:#1d4ed8;"
                     "--yes:#166534;--no:#b91c1c;--open:#b45309;--fault:#7e22ce;--recovered:#164e63")
    assert dark == re.sub("#[0-9a-f]{6}", lambda one: colours.DARK[one[0]], light)
    assert abs(contrast("#000000", "#ffffff") - 21) < 1e-9
    assert abs(contrast("#767676", "#ffffff") - 4.54) < 0.01  # the lightest grey that is enough on white


def test_looks():
    """Styles are rules, and scripts are statements. Pages show drawings by their width."""
    for text in (style.DRAWN, style.STYLE + sorting.looks_of(["a", "b", "c", "d", "e"])):
        flat = re.sub(r"@media\([a-z-]+:\w+\){((?:[^{}]+{[^{}]*}\s*)*)}", r"\1", text)
        *rules, rest = flat.split("}")
        assert rest.strip() == "" and len(rules) > 20
        for rule in rules:
            assert re.fullmatch(r"\s*[a-z:.[][^{}@~]*{\s*[a-z-]+:[^;]+(;\s*[a-z-]+:[^;]+)*", rule), rule
        assert set(re.findall(r"var\((--.*?)\)", text)) <= set(re.findall(r"(--\w+):#[0-9a-f]{6}[;}]", text))
    assert sorting.looks_of(["a", "b", "c", "d", "e"]) == sorting.STYLE + (
        'td:nth-child(4)::before{content:"d: ";color:var(--axis)}'
        'td:nth-child(5)::before{content:"e: ";color:var(--axis)}}\n')
    for script in (finding.SCRIPT, sorting.SCRIPT):
        assert re.search(";\n$", script) and not re.search("[<&]|]]>", script)
    causes = re.search(r"causes = \[(.*?)\]", finding.SCRIPT)[1]
    assert causes == ", ".join('"%s"' % one.name for one in ldvbi.Cause)
    assert [style.DRAWN.count("max-width:700px"), sorting.STYLE.count("max-width:700px")] == [1, 1]


# Marks by their first and last field, of 960 that have a pixel each, of which a mark has two at least: what is drawn of
# them, by the first and the last field, how many more there are in it, and up to which field these go
@pytest.mark.parametrize("marks, wanted", (
    ("1-1 2-2 3-3 4-4 6-6", "1-4 3 4, 6-6"), ("1-1 3-3 5-5", "1-1, 3-3, 5-5"), ("1-9 10-19", "1-9, 10-19"),
    ("1-100 5-90 20-30", "1-100 2 90"), ("1-100 5-6 101-101", "1-100 1 6, 101-101"),
    ("1-10 9-20 19-30 40-50 41-42", "1-30 2 30, 40-50 1 42"), ("959-959 960-960", "959-960 1 960")))
def test_marks_that_fall_together(marks, wanted):
    ones = [tuple(map(int, mark.split("-"))) for mark in marks.split()]
    in_lane = list(drawing._joined(Axis(960), [Mark(*one, "m") for one in ones]))
    in_bar = list(bars._joined(Axis(960), [(*one, "m") for one in ones]))
    for found, said in ((in_lane, wanted), (in_bar, re.sub(r"( \d+) \d+", r"\1", wanted))):
        assert ", ".join("%d-%d%s" % (first, last, re.sub("^m$|^m; and| more| up to field", "", text))
                         for _, _, (first, last, text) in found) == said
    for begin, end, (first, last, _) in in_lane + in_bar:
        ends = [max(150 + b, 151 + min(a, 959)) for a, b in ones if first <= a and b <= last]
        assert (begin, end) == (149 + min(first, 959), max(ends))
