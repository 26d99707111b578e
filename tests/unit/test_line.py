"""A line as a drawing: what is marked, and where the cells of its word stand, by what the line is made of; and the
pictures of docs/FORMATS.md."""

import io
import os
import pathlib
import re
import runpy
import sys
from unittest import mock
import xml.etree.ElementTree as xml

import ldvbi
import pytest
from ldvbi_side.draw.colours import RED
from ldvbi_side.draw.line import Row, line_of, plot_of
from streams import NTSC, PAL, TOP

PICTURES = pathlib.Path(TOP, "docs", "pictures")
FORMATS = pathlib.Path(TOP, "docs", "FORMATS.md").read_text("utf-8")


def described(text, setup=NTSC):
    """The line of this description (tests/cli/described.py)."""
    path, out = os.path.join(TOP, "tests", "cli", "described.py"), io.TextIOWrapper(io.BytesIO())
    words = [path, setup[0], "0", *map(str, setup[1:])]
    with mock.patch.multiple(sys, argv=words, stdin=io.StringIO(text), stdout=out):
        runpy.run_path(path)
    return out.buffer.getvalue()


class Drawn:
    """What a drawing has: its title, what is said of the line, digits and bits, the columns at which cells begin and
    end, those that are marked, and what reaches out of the frame."""

    def __init__(self, data, setup=NTSC, row=None, columns=None, title="a title"):
        setup = (ldvbi.System[setup[0]], *setup[1:])
        self.text = plot_of(line_of(data, *setup, ldvbi.read_line(data, *setup)), title, row, columns)
        self.parts = list(xml.fromstring(self.text).iter())
        self.first, last = columns or (0, len(data) // 2 - 1)
        self.step = 1000 / (last + 1 - self.first)
        self.title, self.said, self.digits, self.bits = (
            "".join(part.text for part in self.parts if part.get("class") == name)
            for name in ("title", "said", "digit", "bit"))
        self.cells, self.marked = sorted(set(self.columns("cell", "x1"))), self.columns("marked", "x")
        self.outside = [part for part in self.parts if self.is_outside(part)]
        strips = [part for part in self.parts if part.tag.endswith("rect") and part.get("fill") == RED]
        assert len(strips) == len(self.marked)  # below the samples

    def columns(self, name, key):
        return [round(self.first + (float(part.get(key)) - 70) / self.step) for part in self.parts
                if part.get("class") == name]

    @staticmethod
    def is_outside(part):
        """Whether a place of the part, of a text its anchor, is out of the frame. A part of a pixel is rounded."""
        known, steps = part.attrib, re.sub(r"M(\S+) ", r"H\1V", part.get("d", ""))
        across, down = ([*(float(known[name]) for name in names if name in known), *map(float, re.findall(step, steps))]
                        for names, step in ((("x", "x1", "x2"), "H([0-9.-]+)"), (("y", "y1", "y2"), "V([0-9.-]+)")))
        if across and "width" in known:
            across.append(across[0] + float(known["width"]))
        left, right, top, bottom = (0, 1090, 0, 326) if part.tag.endswith("text") else (70, 1070, 72, 281)
        return (any(not left - 0.1 <= x <= right + 0.1 for x in across) or
                any(not top - 0.1 <= y <= bottom + 0.1 for y in down))


PASS_1 = ", by the samples as they are (pass 1)"
PASS_2 = ", by the smoothed levels (pass 2); what was smoothed away is red"
HOPELESS = " (from this column on no continuation could show one)"
PLAIN, SMOOTHED, CHANGED = "82CFFF", "82CFFF @170-171L", "82CFFF @170-174L"


@pytest.mark.parametrize("setup, text, said, digits, marked", [
    (NTSC, PLAIN, "82CFFF" + PASS_1, "82CFFF", []), (NTSC, SMOOTHED, "82CFFF" + PASS_2, "82CFFF", [170, 171]),
    # the shortest half cells, up to the end of the line and from its beginning
    (NTSC, "L382 FFFFFE/11/47", "FFFFFE" + PASS_1, "FFFFFE", []),
    (NTSC, "L379 FFFFFE/11/47 @0-0H", "FFFFFE" + PASS_2, "FFFFFE", [0]),
    (NTSC, "FFFFFF/11/48 @0-0H @909-909H", "FFFFFF" + PASS_2, "FFFFFF", [0, 909]),
    (NTSC, CHANGED, "no word: change 170" + HOPELESS, "", [170]),
    (NTSC, "L873 H37", "no word: hold 909" + HOPELESS, "", [909]),
    (NTSC, "-", "no word: blank (no sample is high)", "", []),
    (NTSC, "L900 H10", "no word: unfinished (a longer line could still show one)", "", []),
    (PAL, "8AE012 @50-52H", "8AE012" + PASS_2, "8AE012", [50, 51, 52]),
    (PAL, "L207 H928", "no word: hold 251" + HOPELESS, "", [251])])
def test_what_a_line_shows(setup, text, said, digits, marked):
    drawn = Drawn(described(text, setup), setup)
    assert (drawn.said, drawn.digits, drawn.marked, drawn.outside) == (said, digits, marked, [])


@pytest.mark.parametrize("text, row, said, count", [
    (PLAIN, Row(0x82CFFF, 151), "82CFFF; the row of 82CFFF from column 151 on is 29.4 columns away", 42),
    (PLAIN, Row(0x82CFFE, 150), "82CFFF; the row of 82CFFE from column 150 on is 20.3 columns away", 29),
    (CHANGED, Row(0x82CFFF, 150), "no word: change 170; the row of 82CFFF from column 150 on is 3.5 columns away", 5)])
def test_the_row_of_a_word(text, row, said, count):
    """82CFFF changes its level in 42 columns, and 82CFFE is another word in the 29 columns of its last cell. Each
    counts seven tenths."""
    drawn = Drawn(described(text), row=row)
    assert (drawn.said, drawn.digits, len(drawn.marked), drawn.outside) == (said, "%06X" % row.word, count, [])


@pytest.mark.parametrize("white, distance", ((110, "29.4"), (113, "32.3")))
def test_how_far_away_a_row_is(white, distance):
    """Each of 42 columns counts seven tenths of white - black, rounded up: 7 of 10, and 10 of 13."""
    setup = "NTSC", 100, white
    assert Drawn(described(PLAIN, setup), setup, Row(0x82CFFF, 151)).said.endswith(" is %s columns away" % distance)


@pytest.mark.parametrize("text, columns, marked", [
    (PLAIN, (909, 909), 0), (SMOOTHED, (170, 171), 2), (SMOOTHED, (171, 300), 1), (SMOOTHED, (0, 169), 0),
    ("L164 H746", (0, 200), 1), ("L164 H746", (201, 909), 0)])
def test_a_part_of_a_line(text, columns, marked):
    drawn = Drawn(described(text), columns=columns)
    assert (len(drawn.marked), drawn.outside) == (marked, [])


def test_cells_stand_where_they_are_drawn():
    """Each second half cell begins a cell; or a column off, where two half cells of one level meet. Those of NTSC have
    315/22 samples each, from column 150 on."""
    drawn = Drawn(described(PLAIN))
    begins = [150 + cell * 315 // 11 for cell in range(25)]
    ends = Drawn(described("8AE012", PAL), PAL).cells[::24]  # from column 190 on, of 851 columns
    assert (len(drawn.cells), len(begins), drawn.bits) == (25, 25, "100000101100111111111111")
    assert all(abs(one - other) <= 1 for one, other in zip([*begins, 190, 1041], [*drawn.cells, *ends]))
    for last, count in ((drawn.cells[1] - 1, 2), (drawn.cells[1] - 2, 1)):
        assert Drawn(described(PLAIN), columns=(0, last)).cells == drawn.cells[:count]


def test_axes():
    """Columns are numbered by tens or fifties. Samples at the middle of black and white are low, those above it high;
    those beyond both have room. A long title is shortened in its middle."""
    for last, count in ((300, 31), (301, 7)):
        drawn = Drawn(described("-"), columns=(0, last), title="%0120d" % 5)
        assert len(re.findall(r'text-anchor="middle">\d+<', drawn.text)) == count
        assert re.fullmatch("0.{,90}\u20260*5", drawn.title)
    for levels in ((0, 32768), (50000, 52399)):
        assert Drawn(described(PLAIN), ("NTSC", *levels)).digits == "82CFFF"
    assert Drawn(described("L100 H100", ("NTSC", 0, 65535)), ("NTSC", 20000, 40000)).outside == []


def test_pictures_of_the_documents():
    """They are those that are made, and the text has the distance of the nearest word, and its rival's."""
    made = runpy.run_path(str(PICTURES / "make.py"))
    for name in ("word", "second-reading", "change-170", "nearest"):
        assert made["pictures"]()[name] == (PICTURES / (name + ".svg")).read_text("utf-8")
        assert "(pictures/%s.svg)" % name in FORMATS
    near = ldvbi.nearest(made["worn"](described(PLAIN)), *NTSC)
    assert re.search(r"%.1f\s+columns.*\s%.1f\s" % (near.distance / 34816, near.rival / 34816), FORMATS, re.S)
