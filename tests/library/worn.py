"""Hands worn lines to the library whose words and distances are counted on paper, and compares what is recovered: alone
and in a stream, levelled, with erased columns, and of lines of one word. Lines and lists end where no page follows."""

import itertools
import json
import struct
from array import array

from border import expect, finish, layout
from lines import BLANK, NEAR, NTSC, PAL, READING, TELEVISIONS, answered, drawn, edges_of

RECORD = layout("Record")

# Words, how many of the 28 columns of a cell of NTSC are turned over on lines 16, 17 and 18, so that no levels show the
# word (3 at most in each half cell make a word of pass 2), and the passes in which they are recovered, 0 where they
# aren't, or another word that is recovered. Of a cell of 29 columns it is one more, and of PAL's 35 four more. So n
# leave the word nearer than the one with this bit turned by 28 - 2n columns, or 27 - 2n, each of which counts seven
# tenths: 6 by 11.2 or 10.5, 7 by 9.8 or 9.1, 8 by 8.4 or 7.7, 9 by 7.0 or 6.3, 10 by 5.6 or 4.9; 14 leave two words as
# near, or all but. On levelled lines the smoothed edges of the cell take away half a column or more of this, and the
# nearest word, which may be a code, needs 8 in 288 of how much nearer it is than none, of some 218 columns (PAL: 271):
# 6.1 (7.5). So the code of one line is said as it is, by 6 columns, and another word levelled, or as it is, by 8.
# Then for which line which columns are erased: those that are turned over on this row, one by one ("turned"), or of a
# line that is longer ("beyond"); or in one piece the whole cell in which they lie ("cell"), or all from there on
# ("rest"). Without the columns that are turned over, 14 or more of the cell leave the word ahead by 9.8 or more;
# without the cell two words are as near.
WORN = (
    ((0x8DC0A1, 0xF12345, 0xF12345), (0, 0, 0), (1, 1, 1), ""),
    # one line: a code that may stand on it, as the one with this bit turned may, or not
    ((0x85D0A1, 0, 0), (9, 0, 0), (3, 0, 0), ""), ((0x85D0A1, 0, 0), (10, 0, 0), (0, 0, 0), ""),
    ((0xF12345, 0, 0), (7, 0, 0), (3, 0, 0), ""), ((0xF12345, 0, 0), (9, 0, 0), (0, 0, 0), ""),
    ((0x8DC0A1, 0xF12345, 0), (0, 9, 0), (1, 3, 0), ""), ((0, 0xF12345, 0xF54321), (0, 0, 9), (0, 1, 3), ""),
    # a code, where no other has this bit turned: 89C0A1 is nearer by 1.4 or 2.1 columns, by 4.2 or 4.9, which are more
    # than 3, or by 8.4 or 9.1
    ((0x8DC0A1, 0, 0), (15, 0, 0), (3, 0, 0), ""), ((0x8DC0A1, 0, 0), (17, 0, 0), (0, 0, 0), ""),
    ((0x8DC0A1, 0, 0), (20, 0, 0), (0x89C0A1, 0, 0), ""),
    # lines 17 and 18 of one word, where neither alone is enough; and of two words (8 columns for a code, and 10)
    ((0, 0xF12345, 0xF12345), (0, 13, 13), (0, 3, 3), ""),
    ((0x85D0A1, 0xF1234A, 0xF1234A), (12, 12, 12), (0, 3, 3), ""),
    ((0, 0xF12345, 0xF54321), (0, 7, 9), (0, 3, 0), ""), ((0, 0xF54321, 0xF1234A), (0, 8, 7), (0, 0, 0), ""),
    ((0, 0xF1234A, 0xF54321), (0, 6, 9), (0, 3, 0), ""), ((0, 0xF1234A, 0xF54321), (0, 7, 7), (0, 0, 3), ""),
    ((0, 0xF12345, 0xF16355), (0, 7, 7), (0, 3, 3), ""),
    # glitches, by which a word is of pass 2: it stays where it is ahead, and falls where the cell is erased
    ((0x85D0A1, 0xF12345, 0), (1, 2, 0), (2, 2, 0), ""), ((0x85D0A1, 0xF12345, 0), (1, 2, 0), (0, 2, 0), "16 0 cell"),
    ((0x85D0A1, 0xF12345, 0), (1, 2, 0), (2, 0, 0), "17 1 rest"),
    # a picture number of 80,000 or more stays in pass 1 and pass 2, and isn't recovered, by one line or by both
    ((0, 0xF92345, 0), (0, 2, 0), (0, 2, 0), ""), ((0, 0xF92345, 0xF92345), (0, 8, 0), (0, 0, 1), ""),
    ((0, 0xF92345, 0xF92345), (0, 8, 8), (0, 0, 0), ""), ((0, 0xF8DD45, 0), (0, 9, 0), (0, 3, 0), ""),
    # erased columns
    ((0x85D0A1, 0, 0), (14, 0, 0), (0, 0, 0), "17 0 turned, 18 0 turned"),
    ((0x8DC0A1, 0xF12345, 0), (0, 14, 0), (1, 3, 0), "17 1 turned"),
    ((0x8DC0A1, 0xF12345, 0), (0, 14, 0), (1, 0, 0), "16 1 beyond, 17 1 beyond"),
    ((0, 0xF12345, 0xF54321), (0, 0, 14), (0, 1, 3), "18 2 turned"),
    ((0x85D0A1, 0xF12345, 0xF54321), (14, 0, 14), (3, 1, 3), "16 0 turned, 17 1 rest, 18 2 turned"),
    ((0x85D0A1, 0xF12345, 0), (8, 8, 0), (0, 3, 0), "16 0 cell"))

# A word that is no code, on one line, 8.4 columns ahead (PAL: 7.7)
LONE = {tv: ((0xF12345, 0, 0), (8, 0, 0), (of_pass, 0, 0)) for tv, of_pass in ((NTSC, 3), (PAL, 0))}

# Lines 17 and 18 that begin in one column. The word of line 18 is 6.3 columns farther from line 17 than its own, so
# that both have it: 20.3 of this cell on line 18 (PAL: 24.5) less 6.3 leave it 14 columns ahead (18.2). Levelled it is
# nearer than none by 432 columns (538), and as the nearest word of both lines it needs a share of 7 in 288 of that,
# which is 10.5 (13.1). Words that differ in the last cell alone are 20.3 columns apart (25.2), so that none of the two
# is said. Those that differ in two cells are 40 or 50 apart: that is more than 30, and these are two words.
EVEN = (((0, 0xF12345, 0xF16345), (0, 9, 9), (0, 0xF16345, 3)), ((0, 0xF12345, 0xF12346), (0, 7, 7), (0, 3, 3)),
        ((0, 0xF12345, 0xF12344), (0, 7, 7), (0, 0, 0)))


def begun(tv, row, late=1):
    """The last of the three lines begins so many columns late."""
    return tv._replace(start=tv.start + (row == 2) * late * tv.over)


def turned_over(tv, row, columns):
    """The columns of a line that are turned over, half of them in the middle of either half cell."""
    begin, middle, end = edges_of(tv)[2 * (5 + 4 * row):][:3]
    return [(begin, middle)[place % 2] + 4 + place // 2
            for place in range(columns and columns + (end - begin - 27) // 2)]


def worn(tv, word, row, columns):
    """A line of a word."""
    line = drawn(tv, word)
    for column in turned_over(tv, row, columns):
        line[column] = tv.black + tv.white - line[column]
    return line


def worn_rows(tv, words, turned, late=1):
    """Lines 16, 17 and 18."""
    return sum((worn(begun(tv, row, late), word, row, columns)
                for row, (word, columns) in enumerate(zip(words, turned))), array("H"))


def erased_of(tv, field, turned, erased):
    """The list of what is erased in a field."""
    entries = []
    for line, row, which in (one.split() for one in erased.split(",") if one):
        row = int(row)
        cell = edges_of(begun(tv, row))[2 * (5 + 4 * row):][:3:2]
        columns = sorted(turned_over(begun(tv, row), row, turned[row]))
        pieces = {"turned": [(column, column) for column in columns], "cell": [(cell[0], cell[1] - 1)],
                  "beyond": [(column + tv.samples, column + tv.samples) for column in columns],
                  "rest": [(cell[0], 2 ** 32 - 1)]}[which]
        entries += [(field, int(line), *piece) for piece in pieces]
    return entries


def are_recovered(tv, fields, packed):
    for (words, turned, shown, *more), row in zip(fields, range(0, len(packed), 24)):
        for word, wanted, (cause, *found) in zip(words, shown, READING.iter_unpack(packed[row:row + 24])):
            of_pass, word = (wanted, word) if wanted <= 3 else (3, wanted)
            is_right = found == ([of_pass, 0, word] if of_pass else [0, found[1], 0])
            is_right = is_right and (cause == 0, cause == BLANK) == (of_pass > 0, word == 0)
            expect(is_right, tv.system, words, turned, *more, "is read as", cause, *found)


def rows_are_recovered(tv, row, rows):
    are_recovered(tv, [row], answered("recover_rows", tv[:3], rows, 24, erased=[]))


def test_worn(tv):
    """Each row alone; all as the fields of a stream, between other lines; and so those of which nothing is erased."""
    before, after = (array("H", b"\xAA" * 2 * tv.samples * lines) for lines in (15, tv.lines - 18))
    for row in (*EVEN, LONE[tv]):
        rows_are_recovered(tv, row, worn_rows(tv, *row[:2], 0))
    for row in WORN:
        are_recovered(tv, [row], answered("recover_rows", tv[:3], worn_rows(tv, *row[:2]), 24,
                                          erased=erased_of(tv, 0, *row[1::2])))
    plain = [row for row in WORN if not row[3]]
    for fields in (WORN, plain):
        stream = sum((before + worn_rows(tv, *row[:2]) + after for row in fields), array("H"))
        entries = [entry for field, row in enumerate(fields) for entry in erased_of(tv, field, *row[1::2])]
        packed = answered("recover_fields", tv[:3], stream, 24 * len(fields), len(fields), erased=entries)
        are_recovered(tv, fields, packed)


# ---- Words that are cut short, and that go on

# Columns of a word's first high half cell that are black, and columns that are high where a one after the word would
# have its half cell: up to so many the signal is that of the word. Of a half cell of 14 columns 9 are 4 more than those
# that are left, which are 2.8 by seven tenths, and with half of another 5 more, 3.5; of one of 18 that are 11. Of the
# levelled line they are one less: 8 are 2 more, 1.4, and 9 are 4 more, 2.8, of which smoothed edges take away a quarter
# of a column, or add it.
ENDS = {NTSC: (14, 9), PAL: (18, 11)}


def damaged(tv, columns, place):
    """A line of which so many columns are black in the first high half cell, or high after the word."""
    edges, line = edges_of(tv), drawn(tv, 0xF12345)
    first, level = ((edges[1], tv.black), (edges[48] + edges[1] - edges[0], tv.white))[place]
    line[first:first + columns] = array("H", [level]) * columns
    return line, first + columns


def test_ends(tv):
    edges, (half, most) = edges_of(tv), ENDS[tv]
    expect(edges[2] - edges[1] == half, tv.system, "has another half cell")
    blank, dim = drawn(tv, 0), tv._replace(black=8000, white=28000)
    for columns, place in itertools.product((most - 1, most, most + 1), (0, 1)):
        line, end = damaged(tv, columns, place)
        if columns > most:
            line[end - 1] = (tv.black + tv.white) // 2
        rows_are_recovered(tv, ((0, 0xF12345, 0), columns, (0, 3 * (columns <= most), 0)), blank + line + blank)
        # drawn between 90 and 140 hundredths: such a line is recovered by its levelled samples alone, as below
        line, _ = damaged(tv._replace(black=26000, white=36000), columns, place)
        row = (0, 0xF12345, 0), (columns, "levelled"), (0, 3 * (columns < most), 0)
        rows_are_recovered(dim, row, drawn(dim, 0) + line + drawn(dim, 0))


# ---- Levelled lines

# Lines 17 and 18 that are drawn between other levels than those they are read by, in hundredths of the way from black
# to white; how many columns are turned over, and the passes. All of such a line is higher than half way, or all is
# lower, and then it is blank. So it is recovered by its levelled samples alone: by those as they are other words are as
# near, within a few columns. Lines are levelled if they swing by 30 to 160 hundredths, and two together if neither
# swings more than twice as much as the other.
LEVELLED = (
    (((90, 140), None), 0, (3, 0)), ((None, (90, 140)), 0, (0, 3)), (((-40, 10), None), 0, (0, 0)),
    (((90, 122), None), 0, (3, 0)), (((90, 118), None), 0, (0, 0)),
    (((52, 207), None), 0, (3, 0)), (((52, 217), None), 0, (0, 0)),
    (((75, 115), (75, 153)), 13, (3, 3)), (((75, 115), (75, 157)), 13, (0, 0)),
    (((75, 153), (75, 115)), 13, (3, 3)), (((75, 157), (75, 115)), 13, (0, 0)),
    # two lines together, whose cells turn over one another: of 17 their word is 13 columns ahead or more, of 21 not
    # even 10 (PAL: 12.6), where 7 in 288 of some 425 are needed, 10.3, or of 526, 12.8
    (((90, 140), (90, 140)), 17, (3, 3)), (((90, 140), (90, 140)), 21, (0, 0)))
# Of one line how many columns may be turned over. Three edges of cell 9, at its begin and in its middle, take away a
# quarter of a column each: 8 leave the word ahead by 7.7 less 0.75, 9 by 6.3 less 0.75, where 6.1 are needed. In PAL 7
# leave it ahead by 9.1 less 0.75, and 8 by 7.7 less 0.75, where 7.5 are needed.
MOST_TURNED = {NTSC: 8, PAL: 7}


def test_levelled(tv):
    most, tv = MOST_TURNED[tv], tv._replace(black=8000, white=28000)
    limits = tuple((((90, 140), None), columns, (3 * (columns == most), 0)) for columns in (most, most + 1))
    for levels, turned, passes in LEVELLED + limits:
        lines, words = [drawn(tv, 0)], [0]
        for row, between in enumerate(levels, 1):
            low, high = (8000 + 200 * level for level in between or (0, 0))
            lines.append(worn(tv._replace(black=low, white=high), 0xF12345 * bool(between), row, turned))
            words.append(0xF12345 * (high > 18000))
        rows_are_recovered(tv, (words, levels, (0, *passes)), sum(lines, array("H")))


def test_levelled_first(tv):
    """A word drawn between 90 and 230 hundredths, and black about it. As they are, samples at 230 are as far from black
    as from white, and those at 90 nearer to white, so the nearest word has the other value in each cell but the first,
    far ahead of any other. But the levelled line says the word that was drawn."""
    tv, edges = tv._replace(black=8000, white=28000), edges_of(tv)
    line, black = drawn(tv._replace(black=26000, white=54000), 0xF12345), array("H", [8000])
    line[:edges[0]], line[edges[-1]:] = black * edges[0], black * (tv.samples - edges[-1])
    found, start, *_ = NEAR.unpack(answered("nearest", tv[:3], line, NEAR.size))
    expect((found, start) == (0x8EDCBA, edges[0]), tv.system, "as it is the line is nearest to", hex(found))
    rows_are_recovered(tv, ((0, 0xF12345, 0), "90 to 230", (0, 3, 0)), drawn(tv, 0) + line + drawn(tv, 0))


# ---- The record of a field

# Of a field whose line 17 alone is worn, as above: how many columns are turned over, and what is erased; the field's
# number; and how far the word is off, and any other, in hundredths of a column. The cell has 29 columns, or 35: 10 are
# turned over, or 13, and then 15, or 18. Each counts 70. What is turned over doesn't count where it is erased.
RECORDS = ((9, "", 0, {NTSC: (700, 1330), PAL: (910, 1540)}),
           (14, "17 1 turned", 4294967295, {NTSC: (0, 980), PAL: (0, 1190)}))
FIRST_TURNED = {NTSC: 411, PAL: 513}  # the first column that is turned over, at which a level has lasted 4 columns


def test_records(tv):
    for turned, erased, number, found in RECORDS:
        near = dict(zip(("word", "distance", "rival"), (0xF12345, *found[tv])))
        record = {"seqNo": number, "vbi": {"vbiData": [0x8DC0A1, 0xF12345, 0]},
                  "vbiCause": ["word", "change %d" % FIRST_TURNED[tv], "blank"], "vbiPass": [1, 3, 0],
                  "vbiNear": [None, near, None]}
        text = json.dumps(record, separators=(",", ":")).encode("ascii")
        rows = worn_rows(tv, (0x8DC0A1, 0xF12345, 0), (0, turned, 0))
        written = answered("recovered_record", (*tv[:3], number), rows, RECORD.size,
                           erased=erased_of(tv, 0, (0, turned, 0), erased))
        expect(written == RECORD.pack(len(text), text), tv.system, number, written)


# ---- Some lines of one word

# The line's number, whether dropouts are known, and the word that is said, or 0; the word that is drawn; of each line
# in which of three cells how many of its columns are turned over, as above, and whether these are erased (e). Cell 1
# has 29 columns or 35: so of one line 7 are 9.1 columns ahead, and 8 are 7.7, where 8 are needed; 10 are 4.9, and 11
# are 3.5, where 4 are; of two lines 10 are 9.8, and 11 are 7.0.
SAID = (
    (17, 0, 0, 0, "0:0"), (17, 1, 0, 0, "0:0 1:0"),
    # a code that may stand on the line, where dropouts are known or not, and another word
    (17, 1, 0xF12345, 0xF12345, "1:10"), (17, 1, 0, 0xF12345, "1:11"), (17, 0, 0xF12345, 0xF12345, "1:7"),
    (17, 0, 0, 0xF12345, "1:8"), (16, 1, 0xF12345, 0xF12345, "1:7"), (16, 1, 0, 0xF12345, "1:8"),
    # lines that say it only together: worn in two cells, or in one; and as many as are taken
    (18, 1, 0xF12345, 0xF12345, "0:13 1:13 2:13"), (17, 0, 0xF12345, 0xF12345, "1:10 1:10"),
    (17, 0, 0, 0xF12345, "1:11 1:11"), (17, 1, 0, 0xF12345, "1:14 1:14"),
    (17, 0, 0xF12345, 0xF12345, " ".join(["1:13"] * 14 + ["2:13"] * 14)),
    # a picture number of 80,000 or more, of lines that nothing is turned over in
    (17, 1, 0, 0xF92345, "0:0 1:0"), (17, 1, 0xF72345, 0xF72345, "0:0 1:0"),
    # the same where the columns of one line are erased, and count neither for a word nor against it
    (17, 1, 0xF12345, 0xF12345, "1:14e 1:14"), (17, 0, 0xF12345, 0xF12345, "1:14 1:14e"))


def test_pile(tv):
    for number, known, wanted, word, turned in SAID:
        samples, entries = array("H"), []
        for place, (row, columns) in enumerate(one.split(":") for one in turned.split()):
            row, count = int(row), int(columns.rstrip("e"))
            samples += worn(tv, word, row, count)
            if columns.endswith("e"):
                entries += [(place, number, column, column) for column in sorted(turned_over(tv, row, count))]
        packed = answered("recover_pile", (*tv[:3], number, known), samples, 4, erased=entries)
        expect(packed == struct.pack("I", wanted), tv.system, number, known, turned, "says", packed)


if __name__ == "__main__":
    for system in TELEVISIONS:
        for test in (test_worn, test_ends, test_levelled, test_levelled_first, test_records, test_pile):
            test(system)
    finish()
