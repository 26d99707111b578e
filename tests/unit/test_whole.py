"""Whole drawings: all that one has, and what it has to have, worked out from the fields and the numbers along it."""

import re
import xml.etree.ElementTree as xml

from compact import cells_of, made
from discs import side
from ldvbi_side.draw.axis import BROAD, NARROW
from ldvbi_side.draw.bars import bars_of
from ldvbi_side.draw.drawing import drawing_of
from ldvbi_side.join.captures import capture_of
from ldvbi_side.write.joined import join

SPACE = "{http://www.w3.org/2000/svg}"
# What says where a part is
PLACES = {"svg": "width height", "rect": "x width y height", "text": "x y", "line": "x1 x2 y1 y2", "circle": "cx cy",
          "path": "d"}
# Attributes, and what stands for them
SHORT = (("shape-rendering=crispEdges", "crisp"), ("font-size=", "size "), ("font-family=", ""), ("font-weight=", ""),
         ("text-anchor=", ""), ("data-fields=", "@"), ("data-field=", "@"), ("data-places=", "@"), ("data-shown=", ""),
         ("stroke-linecap=round stroke-linejoin=round", "round"), ("class=", "."), (" fill=", " "))


def told(part):
    """All that a part has, in short: its place, its other attributes, its words, and in brackets its title."""
    known, kind = dict(part.attrib), part.tag.replace(SPACE, "")
    place = [known.pop(name) for name in PLACES[kind].split(" ") if name in known]
    if kind == "rect" and "%" not in place[0]:
        place[1], place[3] = ("%g" % (float(place[at]) + float(place[at + 1])) for at in (0, 2))
    place = ["-".join(place[:2]), "-".join(place[2:])] if len(place) == 4 else place
    said = " ".join([kind, *place, *map("=".join, known.items())])
    for name, short in SHORT:
        said = said.replace(name, short)
    title = part.find(SPACE + "title")
    words = (part.text if title is None else title.tail) or ""
    return said + (": " + words if words.strip() else "") + ("" if title is None else " (%s)" % title.text)


def parts_in(drawing):
    """All parts of a drawing in short."""
    return [told(part) for part in xml.fromstring(drawing).iter() if part.tag != SPACE + "title"]


def number(value):
    return ("%.1f" % value).removesuffix(".0")


def fields_text(fields):
    first, last = fields.split("-")
    return "field " + first if first == last else "fields %s to %s" % (first, last)


class Sketch:
    """A drawing of so many fields on `width` pixels from `left` on, with the numbers from the least to the greatest on
    240 pixels from 248 on. A row of its table that doesn't begin with the name of a part stands for some of them."""

    def __init__(self, left, width, fields, least=0, greatest=0):
        self.left, self.width, self.fields, self.least, self.greatest = left, width, fields, least, greatest

    def parts(self, table):
        return [part for head, *items in cells_of(table) for part in (
            [head] if head.split(" ")[0] in PLACES else getattr(self, head.split(" ")[0])(items, *head.split(" ")[1:]))]

    def x(self, field):
        """The middle of a field."""
        return self.left + self.width * (float(field) - 0.5) / self.fields

    def y(self, count):
        return 248 + 240 * (self.greatest - int(count) + 0.5) / (self.greatest - self.least + 1)

    def box(self, fields, top, height, more, title):
        first, last = map(int, fields.split("-"))
        return "rect %d-%d %d-%d %s (%s)" % (
            round(self.x(first - 0.5)), round(self.x(last + 0.5)), top, top + height, more, title)

    def label(self, y, more):
        return "text %d %s end%s" % (self.left - 10, number(y), more)

    def across(self, y, colour):
        return "line {0}-{1} {2}-{2} stroke={3}".format(self.left, self.left + self.width, number(y), colour)

    @staticmethod
    def upright(at, top, bottom, more):
        return "line {0}-{0} {1}-{2} stroke={3}".format(number(at), top, bottom, more)

    # ---- Rows of a table: what stands in them between `|`, and the words before that

    @staticmethod
    def legend(items, x, y):
        at, y = int(x), int(y)
        for item in items:
            name, _, colour = item.partition(" #")
            yield ("rect %d-%d %d-%d #%s" % (at, at + 14, y - 11, y + 3, colour) if colour else
                   "circle %d %d r=4 #ffffff stroke=#be185d stroke-width=2" % (at + 7, y - 4))
            yield "text %d %d: %s" % (at + 20, y + 1, name)
            at += 7 * len(name) + 34

    def band(self, items, line, top):
        yield self.label(int(top) + 19, ": line " + line)
        for item in items:
            colour, name, fields, cause = re.fullmatch(r"(\S+) (.*?) @(\S+) ?(.*)", item).groups()
            yield self.box(fields, int(top), 28, "%s .line-%s %s @%s crisp" % (colour, line, name, fields),
                           "line %s, %s: %s" % (line, fields_text(fields), cause or name))

    def numbers(self, items, x, *name):
        for item in items:
            yield self.across(self.y(item), "#e2e8f0")
            yield self.label(self.y(item) + 4, " .number-label: " + item)
        yield "text {0} 368 middle transform=rotate(-90 {0} 368) .axis: {1}".format(x, " ".join(name))

    def lane(self, items, top, colour, *name):
        top, text = int(top), " ".join(name)
        yield self.label(top + 11, " .count %s%s: %s" % (colour, "" if text.endswith(" 0") else " bold", text))
        yield "rect %d-%d %d-%d #f8fafc" % (self.left, self.left + self.width, top, top + 12)
        for item in items:
            is_break, fields, title = re.fullmatch(r"(\^?)@(\S+) (.*)", item).groups()
            if is_break:
                yield self.box(fields, 248, 240, "%s opacity=0.2 .upright @%s" % (colour, fields), title)
            kind = text.split(":")[0].replace(" ", "-")
            yield self.box(fields, top, 12, "%s .%s @%s" % (colour, kind, fields), title)

    def runs(self, items):
        for item in items:
            points = [point.split(":") for point in item.split(" ")]
            yield "path M%s .run @%s-%s none stroke=#0f172a stroke-width=3 round (%s to %s in fields %s to %s)" % (
                " ".join("%.1f %.1f" % (self.x(field), self.y(count)) for field, count in points), points[0][0],
                points[-1][0], points[0][1], points[-1][1], points[0][0], points[-1][0])

    def axis(self, items, top, *name):
        name, top = " ".join(name), int(top)
        yield self.across(top, "#475569")
        for item in items:
            yield self.upright(self.x(item), top, top + 5, "#475569")
            yield "text %s %d middle%s: %s" % (
                number(self.x(item)), top + 20, "" if name == "field" else " .number-label", item)
        yield "text %s %d middle .axis: %s" % (number(self.left + self.width / 2), top + 42, name)


# Whole drawings, part by part (sketches.py). The first side has 48 fields of 20 pixels each, and 24 numbers of 10; the
# second one 22 of 11, and 10 of 24. Captures have 24 numbers of 40 pixels, or 22 of 11.
DOUBT = ("doubtful: picture 79999 in field 27, line 17: the numbers around it fit each other (16 in field 25, "
         "18 in field 29)")
BROAD_SIDE = """
    svg 1140 706 viewBox=0 0 1140 706 sans-serif size 13 #1e293b role=img aria-label=side.tbc: NTSC, CAV, 48 fields,
      18 pictures, 1 to 24, whole: no
    rect 100% 100% #ffffff || text 150 28 .title size 17 bold: side.tbc (side.tbc)
    text 150 46 .system: NTSC, CAV, 48 fields, 18 pictures, 1 to 24
    legend 150 66 | change #991b1b | hold #6b21a8 | unfinished #422006 | read only after smoothing #1e40af
      | word #92d3a1 | blank #f1f5f9 | lead-in #0f766e || legend 150 84 | lead-out #713f12 | doubtful number
    band 16 94 | #f1f5f9 blank @1-4 | #92d3a1 word @5-5 | #f1f5f9 blank @6-48
    band 17 128 | #92d3a1 word @1-20 | #991b1b change @21-21 change 170 | #92d3a1 word @22-48
    band 18 162 | #92d3a1 word @1-48 || text 140 214 end: disc || rect 150-1110 200-218 #f8fafc
    rect 150-190 200-218 #0f766e .lead-in @1-2 (lead-in: fields 1 to 2)
    rect 210-710 200-218 #4f46e5 .chapter @4-28 (chapter 0: fields 4 to 28, from 1)
    text 460 213 middle size 11 .disc-label pointer-events=none #ffffff: chapter 0
    rect 730-1070 200-218 #3730a3 .chapter @30-46 (chapter 1: fields 30 to 46, from 18)
    text 900 213 middle size 11 .disc-label pointer-events=none #ffffff: chapter 1
    rect 1070-1110 200-218 #713f12 .lead-out @47-48 (lead-out: fields 47 to 48) || text 140 235 end .count: stops: 2
    path M240.0 224l4 6l-4 6l-4 -6z .stop @5 #b91c1c (picture stop of 2 in field 5, lines 16 and 17)
    path M260.0 224l4 6l-4 6l-4 -6z .stop @6 #b91c1c (picture stop of 2 in field 6, line 17)
    numbers 36 picture number | 1 | 5 | 10 | 15 | 20
    line 210-210 248-488 stroke=#475569 .chapter-line stroke-dasharray=2 4
    line 730-730 248-488 stroke=#475569 .chapter-line stroke-dasharray=2 4
    lane 502 #b91c1c lost: 5 | ^@15-15 lost: 7 to 11, after field 13, before field 15: no field is there for it
    lane 520 #9f1239 unread: 1
      | @26-28 unread: 17, after field 25, before field 29: fields are there for it, and none shows it
    lane 538 #c2410c lost fields: 10 | ^@15-15 lost: 10 fields between fields 13 and 15, by the numbers
    lane 556 #0f766e jumps: 1 | ^@33-33 back from 19 in field 31 to 18 in field 33
    lane 574 #0369a1 stills: 1 | @19-21 14 stands still in fields 19 to 21
    lane 592 #4f46e5 shown again: 2 | @21-21 14 again in field 21; first shown in field 19
      | @33-35 18 to 19 again in fields 33 to 35; first shown in field 29
    lane 610 #be185d doubtful: 2 | @27-27 DOUBT; and 1 more up to field 27
    lane 628 #475569 out of place: 1 | @8-8 out of place: clv in field 8, line 17: a code of the other format
    runs | 3:1 5:2 7:3 9:4 11:5 13:6 | 15:12 17:13 19:14 21:14 23:15 25:16 | 29:18 31:19
      | 33:18 35:19 37:20 39:21 41:22 43:23 45:24
    path M680.0 243.0l-5 9h10z #be185d .doubt @27 (DOUBT; and 1 more near it)
    axis 650 field | 1 | 5 | 10 | 15 | 20 | 25 | 30 | 35 | 40 | 45
""".replace("DOUBT", DOUBT)
NARROW_SIDE = """
    svg 388 706 viewBox=0 0 388 706 sans-serif size 11 #1e293b role=img aria-label=side.tbc: NTSC, CAV, 22 fields,
      8 pictures, 1 to 10, whole: yes .narrow data-axis=124 242 94 650 || rect 100% 100% #ffffff
    legend 22 14 | change #991b1b | hold #6b21a8 | unfinished #422006 | noise #44403c
    legend 22 32 | read only after smoothing #1e40af | word #92d3a1 | blank #f1f5f9
    legend 22 50 | lead-in #0f766e | lead-out #713f12 | doubtful number
    band 16 94 | #f1f5f9 blank @1-5 | #44403c noise @6-6 noise, change 170 | #f1f5f9 blank @7-22
    band 17 128 | #92d3a1 word @1-5 | #f1f5f9 blank @6-6 | #92d3a1 word @7-7 | #991b1b change @8-8 change 170
      | #92d3a1 word @9-22
    band 18 162 | #92d3a1 word @1-7 | #991b1b change @8-8 change 170 | #92d3a1 word @9-22
    text 114 214 end: disc || rect 124-366 200-218 #f8fafc
    rect 124-135 200-218 #0f766e .lead-in @1-1 (lead-in: field 1)
    rect 146-355 200-218 #4f46e5 .chapter @3-21 (chapter 0: fields 3 to 21, from 1)
    text 250.5 213 middle size 11 .disc-label pointer-events=none #ffffff: chapter 0
    rect 355-366 200-218 #713f12 .lead-out @22-22 (lead-out: field 22) || text 114 235 end .count: stops: 0
    numbers 12 picture number | 1 | 2 | 4 | 6 | 8 | 10
    line 146-146 248-488 stroke=#475569 .chapter-line stroke-dasharray=2 4 || lane 502 #475569 lost: 0
    lane 520 #9f1239 unread: 2
      | @5-9 unread: 3 to 4, after field 4, before field 10: fields are there for it, and none shows it
    lane 538 #475569 lost fields: 0 || lane 556 #475569 jumps: 0 || lane 574 #475569 stills: 0
    lane 592 #475569 shown again: 0 || lane 610 #be185d doubtful: 1
      | @6-6 doubtful: chapter 1 in field 6, line 18: it doesn't fit the chapters around it
    lane 628 #475569 out of place: 0 || runs | 2:1 4:2 | 10:5 12:6 14:7 16:8 18:9 20:10
    axis 650 field | 1 | 10 | 20
"""
BROAD_BARS = """
    svg 1140 248 viewBox=0 0 1140 248 sans-serif size 13 #1e293b role=img aria-label=2 captures together: a.tbc, b.tbc
    rect 100% 100% #ffffff || text 150 28 .title size 17 bold: 2 captures together
    legend 150 54 | taken from here #14532d | taken, unsure #6b21a8 | here #92d3a1 | in another capture alone #1e40af
      | in none #991b1b | disagreement #be185d
    text 140 92 end .capture: a.tbc (a.tbc) || rect 150-1110 76-98 #92d3a1
    rect 150-390 92-98 #14532d .taken-from-here @1-6 (1 to 6: taken from fields 1 to 12 of a.tbc)
    rect 550-590 76-98 #1e40af .in-another-capture-alone @11-11 (11: not in a.tbc, but in b.tbc)
    rect 630-670 76-98 #1e40af .in-another-capture-alone @13-13 (13: not in a.tbc, but in b.tbc)
    rect 590-630 76-98 #991b1b .in-none @12-12 (12: in no capture, lost)
    text 140 120 end .capture: b.tbc (b.tbc) || rect 150-1110 104-126 #92d3a1
    rect 390-550 120-126 #14532d .taken-from-here @7-10 (7 to 10: taken from fields 11 to 18 of b.tbc)
    rect 630-1110 120-126 #14532d .taken-from-here @13-24 (13 to 24: taken from fields 21 to 44 of b.tbc)
    rect 550-590 120-126 #6b21a8 .taken-unsure @11-11 (11: taken from fields 19 to 20 of b.tbc)
    rect 350-390 104-126 #1e40af .in-another-capture-alone @6-6 (6: not in b.tbc, but in a.tbc)
    rect 590-630 104-126 #991b1b .in-none @12-12 (12: in no capture, lost)
    text 140 148 end .count: in none: 1 || rect 150-1110 132-154 #f8fafc
    rect 590-630 132-154 #991b1b .in-none @12-12 (12: in no capture, lost)
    text 140 176 end .count: disagreements: 0 || rect 150-1110 160-182 #f8fafc
    axis 192 picture number | 1 | 5 | 10 | 15 | 20
"""
NARROW_BARS = """
    svg 388 248 viewBox=0 0 388 248 sans-serif size 11 #1e293b role=img aria-label=2 captures together: a.tbc, b.tbc
      .narrow || rect 100% 100% #ffffff || legend 22 14 | taken from here #14532d | taken, unsure #6b21a8 | here #92d3a1
    legend 22 32 | in another capture alone #1e40af | in none #991b1b || legend 22 50 | disagreement #be185d
    text 114 92 end .capture: a.tbc (a.tbc) || rect 124-366 76-98 #92d3a1
    rect 124-366 92-98 #14532d .taken-from-here @1-22 (1 to 22: taken from fields 1 to 44 of a.tbc)
    text 114 120 end .capture: b.tbc (b.tbc) || rect 124-366 104-126 #92d3a1
    rect 223-245 104-126 #1e40af .in-another-capture-alone @10-11 (10 to 11: not in b.tbc, but in a.tbc)
    text 114 148 end .count: in none: 0 || rect 124-366 132-154 #f8fafc
    text 114 176 end .count: disagreements: 0 || rect 124-366 160-182 #f8fafc
    axis 192 picture number | 1 | 5 | 10 | 15 | 20
"""
FIRST = ("NTSC Lx2 1..6 12..14 14 15..16 79999 18..19 18..24 Ox2 30:46/2=-/c1/c1 5=S/S/#2 6=-/S/c0 8=-/M/c0 "
         "21=-/?/#14")


def together(*texts):
    return join([capture_of(made(text, side), name) for name, text in zip(("a.tbc", "b.tbc"), texts)])


def test_whole_drawings():
    for drawn, size, table in (
            (drawing_of(made(FIRST, side), "side.tbc"), (150, 960, 48, 1, 24), BROAD_SIDE),
            (drawing_of(made("NTSC L 1..10 O 6=?/-/c1 8=?", side), "side.tbc", NARROW, "narrow"),
             (124, 242, 22, 1, 10), NARROW_SIDE),
            (bars_of(together("1..24 -21:26", "1..24 -23:24 -11:12")), (150, 960, 24), BROAD_BARS),
            (bars_of(together("1..22", "1..9 30..31 12..22"), NARROW, "narrow"), (124, 242, 22), NARROW_BARS)):
        assert parts_in(drawn) == Sketch(*size).parts(table)
    drawn = parts_in(bars_of(together("1..50 151..170 71..100", "1..100")))  # what is beyond the axis is at its end
    assert [one for one in drawn if ".disagreement" in one] == [
        "rect 630-822 160-182 #be185d .disagreement @51-70 (51 to 70: in fields 101 to 140 of b.tbc, and a.tbc "
        "otherwise)",
        "rect 1108-1110 160-182 #be185d .disagreement @151-170 (151 to 170: in fields 101 to 140 of a.tbc, and b.tbc "
        "otherwise)"]


def test_names_of_captures_that_have_room():
    """Letters have 8.45 of 138 pixels in the broad form, and 7.15 of 112 in the narrow one."""
    for form, most in ((BROAD, 16), (NARROW, 15)):
        for count in (most, most + 1):
            text = bars_of(join([capture_of(made("1..9", side), name * count) for name in "ab"]), form)
            assert text.count("\u2026") == 2 * (count > most)
