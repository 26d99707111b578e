"""Numbers that none of several captures reads, and that their lines say as one pile, with distances counted on paper.
And which levels, and which system, are named for a side of which hardly any line is read."""

import random
import struct

from discs import times
import ldvbi
from ldvbi import field_bytes, System
from ldvbi.readings import Levels
from ldvbi_side import levels
from ldvbi_side.command.join import NOTHING_SHOWS
from ldvbi_side.join.captures import capture_of
from ldvbi_side.join.piles import _levelled
from ldvbi_side.levels import Best, options_of
from ldvbi_side.side import side_of_tbc
from ldvbi_side.write.joined import join
import pytest
from simulated_discs import picture
from streams import NTSC, PAL, pictures, worn_line, write_stream

HALF = {"NTSC": 15, "PAL": 18}  # columns of a cell: with so many turned the other word is nearer, by one or two


def half_worn(number, setup, cell):
    """A line of a picture that doesn't say it alone. From cell 5 on a bit that is turned makes another picture of it,
    unless its digit isn't 0."""
    return worn_line(picture(number), setup, cell, HALF[setup[0]])


def capture(room, name, setup=NTSC, lines=(), dropouts=None, numbers=range(1, 21), fields=(),
            is_strict=False):
    """A capture of these fields, or else of pictures, with the number in the first field of each. `lines` has lines 17
    and 18 of some."""
    path, words = room.named(name + ".tbc"), dict(lines)
    write_stream(path, setup, fields or [field for number in numbers for field in (
        [0, *words.get(number, [picture(number)] * 2)], [0, 0, 0])])
    side = side_of_tbc(path, ldvbi.System[setup[0]], *setup[1:], dropouts=dropouts)
    room.cleanup.callback(side.samples.close)
    side.is_strict = is_strict
    return capture_of(side, name)


def how(*captures):
    """How the numbers are known that these captures have together, where they aren't simply read."""
    return {number: how for number, _, _, _, how in join(list(captures)).taken if how != "read"}


def each_elsewhere(room, setup, count, due=5, said=5):
    """Captures of which each has another cell of line 17 worn where a picture is due."""
    return [capture(room, str(cell), setup, {due: [half_worn(said, setup, cell), 0]}) for cell in range(5, 5 + count)]


@pytest.mark.parametrize("setup", (NTSC, PAL))
def test_each_is_worn_elsewhere(room, setup):
    """In two captures another word is nearer by two columns in one, and farther by a cell in the other."""
    captures = each_elsewhere(room, setup, 3)
    for some in (captures[:2], captures[1:], captures):
        assert how(*some) == {5: "together"}


def test_what_is_read_together_is_read(room):
    """Also by a strict judge."""
    ones = [capture(room, str(cell), NTSC, {5: [half_worn(5, NTSC, cell), 0]}, is_strict=True) for cell in (5, 6)]
    assert ["unread" in {one.why for one in join(some).reasons} for some in (ones[:1], ones)] == [True, False]


def test_more_than_a_pile_has(room):
    """The first 28 lines are asked, and not those that say another number after them."""
    ones, others = ([capture(room, "%d.%d" % (number, cell), NTSC, {5: [half_worn(number, NTSC, cell), worn_line(
        picture(number), NTSC, 1, 1, cell, 15)]}) for cell in range(5, 19)] for number in (5, 8))
    assert how(*ones, *others) == {5: "together"}
    assert how(*others, *ones) == {5: "neighbours"}


def test_whose_lines_are_asked(room):
    """Those of two captures or more in which the number is due, and nowhere read, and which aren't blank; not those of
    one alone that has the pictures twice. Another number isn't due, whatever the lines say. Of words of pass 1 one that
    says another number is enough."""
    a, b = each_elsewhere(room, NTSC, 2)
    grey = [level.to_bytes(2, "little") * 910 for level in (17000, 18000)]  # they differ, as those of a copy don't
    blank, clean = capture(room, "blank", lines={5: grey}), capture(room, "clean")
    fields = [[0, *2 * [picture(number) * part]] for number in range(1, 21) for part in (1, 0)]
    lost = capture(room, "lost", fields=fields[:8] + fields[10:])
    wrong = capture(room, "wrong", lines={5: [picture(79999), half_worn(5, NTSC, 7)]})
    twice = 2 * fields
    twice[8], twice[48] = ([0, half_worn(5, NTSC, cell), 0] for cell in (5, 6))
    near = capture(room, "near", lines={5: [worn_line(picture(5), NTSC, 9, 12), 0]})
    for captures, wanted in (
            ((a, b, blank, lost), "together"), ((a, blank), "neighbours"), ((a, lost), "neighbours"),
            ((a, b, wrong), "neighbours"), ((a, b, clean), None), ((near, a, b), "near"),
            ((capture(room, "twice", fields=twice), capture(room, "other", numbers=(1, 2, 3))), "neighbours")):
        assert how(*captures).get(5) == wanted
    assert how(*each_elsewhere(room, NTSC, 2, 12, 13)) == {12: "neighbours"}


@pytest.mark.parametrize("dropouts, wanted", ((None, "neighbours"), ([(39, 18, 0, 5)], "together")))
def test_a_copy_of_a_capture(room, dropouts, wanted):
    """In one capture the word with a bit of cell 9 turned is nearer by a column, in the other one it is farther by 11.
    These are 10, which count 7.0 by seven tenths, and with a copy of that 14.7: 8 are needed. Where dropouts are known
    in all, somewhere, 4 are enough, and a share of 4 in 288 of some 450, as much nearer the word is than none: 6.3."""
    one = capture(room, "a", NTSC, {5: [worn_line(picture(5), NTSC, 9, 15), 0]}, dropouts)
    other, copy, unknown = (capture(room, name, NTSC, {5: [worn_line(picture(5), NTSC, 5, 14, 9, 9), 0]}, known) for
                            name, known in (("b", dropouts), ("c", dropouts), ("d", None)))
    assert (how(one, other), how(one, other, copy)) == ({5: wanted}, {5: wanted})
    assert how(one, unknown) == {5: "neighbours"}


def test_a_detour(room):
    """Its fields aren't asked: there the other capture has other numbers. A field after 192 may be of 62."""
    one, other = (capture(room, name, NTSC, {160: [half_worn(160, NTSC, cell), 0]}, None, numbers)
                  for name, cell, numbers in (("a", 5, (*range(1, 21), *range(151, 193), *range(63, 81))),
                                              ("b", 6, range(121, 201))))
    assert how(one, other) == {62: "neighbours", 160: "together"}
    assert how(one, other, capture(room, "c", numbers=range(1, 81))) == {160: "neighbours"}


def test_times(room):
    """A time stands on line 16 of its first field."""
    ones = []
    for cell in (13, 14):
        fields = [[int(word.replace("-", "0"), 16) for word in row.split(" ")] for row in times(range(20))]
        fields[8][0] = worn_line(fields[8][0], PAL, cell, HALF["PAL"])
        ones.append(capture(room, str(cell), PAL, fields=fields))
    assert how(*ones) == {"0:00:00.04": "together"}


def test_their_columns_count_for_nothing(room):
    """In cell 9 another word is nearer by a column in each capture. Without five that are wrong it is farther by four,
    by 12 in three captures, which count 8.4 by seven tenths; without four by 9, which count 6.3. The word is nearer
    than none by some 660: as a code it needs 4 in 288 of that, 9.2, or as any word 8, and 3 in 288, 6.9."""
    for dropouts, wanted in (([(8, 17, 411, 415)], "together"), ([(8, 17, 411, 414)], "neighbours"),
                             ([(8, 18, 411, 415)], "neighbours"), ([(7, 17, 411, 415)], "neighbours"),
                             ([(9, 17, 411, 415)], "neighbours")):
        ones = [capture(room, str(cell), NTSC, {5: [worn_line(picture(5), NTSC, 9, 15, cell, 15), 0]}, dropouts)
                for cell in (5, 12, 19)]
        assert how(*ones) == {5: wanted}


def test_levels_that_differ(room):
    """Samples by other levels, and captures whose levels have nothing in common; whichever is the first."""
    samples = struct.pack("<6H", 20000, 40000, 30000, 20001, 0, 65535)
    one, wide = Levels(20000, 40000), Levels(10000, 60000)
    assert struct.unpack("<6H", _levelled(samples, one, wide)) == (10000, 60000, 35000, 10003, 0, 65535)
    assert struct.unpack("<6H", _levelled(samples, wide, one)) == (24000, 32000, 28000, 24000, 16000, 42214)
    for some in ((NTSC, ("NTSC", 1000, 9000)), (("NTSC", 1000, 9000), ("NTSC", 30000, 60000))):
        ones = [capture(room, str(cell), setup, {5: [half_worn(5, setup, cell), 0]})
                for cell, setup in enumerate(some, 5)]
        assert how(*ones) == {5: "together"}


def test_what_is_printed(drawn):
    for cell in (5, 6):
        capture(drawn, str(cell), NTSC, {number: [half_worn(number, NTSC, cell), 0] for number in (5, 12)})
        drawn.metadata("%d.tbc.json" % cell)
    words = "join 5.tbc 6.tbc"
    status, text, _ = drawn.run_words(words)
    assert "\nread together: 2 (picture 5, picture 12)\n" in text
    assert (status, text.split("\n")[0]) == (4, "together: whole: can't tell: no lead-out after picture 20")
    rows = drawn.printed(words + " --csv", said="ldvbi-side: %s\n" % NOTHING_SHOWS).decode().split("\n")
    assert [row for row in rows if not row.endswith(",read")][1:-1] == [
        "5,5.tbc,9,5,together", "12,5.tbc,23,12,together"]


DIM = {"NTSC": ("NTSC", 16384, 30310), "PAL": ("PAL", 16384, 31436)}  # their white is 40 % of what lies above black


def best(room, setup, drawn, fields, line_of=ldvbi.draw_line):
    """What is said of a side that is drawn with one setup, and read by the other: how many of its lines are read, of
    how many, and by which options how many. None where enough is read."""
    write_stream(room.path, drawn, [[line_of(word, *drawn) for word in field] for field in fields])
    side = side_of_tbc(room.path, ldvbi.System[setup[0]], *setup[1:])
    room.cleanup.callback(side.samples.close)
    assert side.levels == setup[1:]
    if not side.analysis.answer.levels:
        return None
    tried, told = side.analysis.answer.levels.tried, side.answer["levels"]["tried"]
    return [told["read"], told["lines"], told["best"] and options_of(tried), told["best"] and told["best"]["read"]]


def test_levels_and_systems(room):
    """A sample is high above the middle of the levels: of dim codes none is. Nothing is tried where enough is read, and
    none is named for a side without any code, for one of noise, and for one whose lines are grey."""
    rng, none = random.Random(1), [0, 120, None, None]
    for drawn, setup, wanted in (
            (DIM["NTSC"], NTSC, [0, 120, "--white 30000", 120]), (DIM["PAL"], PAL, [0, 120, "--white 31000", 120]),
            (NTSC, NTSC, None), (NTSC, ("NTSC", 51000, 55000), [0, 120, "--black 16000", 120]),
            (("NTSC", 2000, 9000), ("NTSC", 40000, 50000), [0, 120, "--black 2000 --white 9000", 120]),
            # the highest white that there is
            (("NTSC", 16384, 65535), ("NTSC", 1000, 5000), [0, 120, "--white 65535", 120])):
        assert best(room, setup, drawn, pictures(60)) == wanted
    for line_of in (lambda *_: ldvbi.draw_line(0, *NTSC), lambda *_: rng.randbytes(1820), lambda *_: b"\x00\x80" * 910):
        assert best(room, NTSC, NTSC, pictures(60), line_of) == none
    # the other system's fields are of another size, so of its lines hardly any are where they are looked for
    for setup, drawn, options in ((PAL, NTSC, "--system NTSC --black 16384 --white 54016"),
                                  (NTSC, PAL, "--system PAL --black 16384 --white 51200"),
                                  (PAL, DIM["NTSC"], "--system NTSC --black 16384 --white 30000")):
        read, lines, *found = best(room, setup, drawn, pictures(60))
        assert (found, 20 * read < lines) == ([options, 120], True)


def test_of_which_fields_lines_are_tried(room):
    """Fields are looked at in pairs, all over the side: half of 200 lines are read where one of two fields has a
    number. One line of 20 that other levels read is named, one of 21 isn't, nor that of a field without a code."""
    for drawn, fields, wanted in (
            (DIM["NTSC"], [field if place % 2 else [0, 0, 0] for place, field in enumerate(pictures(1001))],
             [0, 200, "--white 30000", 100]),
            (DIM["NTSC"], [[0, 0, 0]] * 19 + pictures(1), [0, 40, "--white 30000", 2]),
            (DIM["NTSC"], [[0, 0, 0]] * 20 + pictures(1), [0, 42, None, None]),
            (NTSC, [[0, 0, 0]], [0, 2, None, None])):
        assert best(room, NTSC, drawn, fields) == wanted


class Trial:
    """A stream of so many fields, of which each one's number stands for its lines."""
    system, black, white = System.NTSC, 16000, 40000

    def __init__(self, fields):
        self.size = fields * field_bytes(System.NTSC)

    def rows_as(self, system, field):
        return field


def test_which_fields_are_tried():
    """All of 100; of more 50 pairs, from the first one to the last."""
    assert list(levels._rows(Trial(100), System.NTSC)) == [*range(100)]
    for count, begin, end in ((101, [0, 1, 2, 3, 4, 5], [96, 97, 99, 100]), (1001, [0, 1, 20, 21, 40, 41, 61, 62],
                                                                        [978, 979, 999, 1000])):
        found = list(levels._rows(Trial(count), System.NTSC))
        assert (len(found), found[:len(begin)], found[-4:]) == (100, begin, end)


def test_which_levels_are_tried(monkeypatch):
    """A fifth of a word's columns is below its low level, and a fifth above the high one. Levels are those of the lines
    with half as wide a span as the widest one, or more."""
    for system, width, wanted in ((System.NTSC, 910, (287, 699)), (System.PAL, 1135, (360, 871))):
        samples = [2000 * line + column for line in range(3) for column in range(width)]
        field = struct.pack("<%dH" % len(samples), *samples)
        assert [levels._span(field, system, line) for line in (1, 2)] == [
            (2000 * line + wanted[0], 2000 * line + wanted[1]) for line in (1, 2)]
    for spans, wanted in (((0, 999, 0, 0), None), ((0, 1000, 0, 0), (0, 1000)), ((499, 4501, 1501, 3500), (0, 5000)),
                          ((0, 4000, 2000, 4000), (1000, 4000)), ((0, 4000, 2001, 4000), (0, 4000)),
                          ((30000, 65535, 30000, 65535), (30000, 65535))):
        monkeypatch.setattr(levels, "_span", lambda field, _, line, spans=spans: spans[2 * line - 2:2 * line])
        assert levels._levels_in([0], System.NTSC) == wanted


def test_which_trial_is_named(monkeypatch):
    """Of those that read as many lines the first: each level alone, then both, then the other system's. Black is below
    white. More lines have to be read than by the side's own, and one of twenty."""
    own, other = (16000, 40000), System.PAL
    for fields, found, own_read, reads, wanted in (
            (50, (2000, 30000), 0, {}, (None, None, None, 0)),
            (50, (2000, 30000), 0, {(16000, 30000): 60, (2000, 40000): 60}, (None, None, 30000, 60)),
            (50, (2000, 30000), 0, {(2000, 40000): 60, (2000, 30000): 60}, (None, 2000, None, 60)),
            (50, (2000, 30000), 0, {(2000, 30000): 60, (other, *own): 60}, (None, 2000, 30000, 60)),
            (50, (2000, 30000), 0, {(2000, 30000): 59, (other, *own): 60}, ("PAL", None, None, 60)),
            (50, (2000, 9000), 0, {(16000, 9000): 60}, (None, None, None, 0)),
            (50, (2000, 16000), 0, {(16000, 16000): 60}, (None, None, None, 0)),
            (50, None, 0, {(other, *own): 60}, ("PAL", None, None, 60)),
            (50, (2000, 30000), 60, {(2000, 30000): 60}, (None, None, None, 0)),
            (50, (2000, 30000), 0, {(2000, 30000): 5}, (None, 2000, 30000, 5)),
            (51, (2000, 30000), 0, {(2000, 30000): 5}, (None, None, None, 0))):
        counts = {(System.NTSC, *own): own_read, **{
            one if len(one) == 3 else (System.NTSC, *one): count for one, count in reads.items()}}
        monkeypatch.setattr(levels, "_levels_in", lambda rows, system, found=found: found and Levels(*found))
        monkeypatch.setattr(levels, "_read", lambda rows, setup, counts=counts: counts.get(
            (setup.system, *setup.levels), 0))
        tried = levels.tried_on(Trial(fields))
        assert tried[:4] == (2 * fields, own_read, *own)
        assert tried.best == (Best(*wanted) if wanted[-1] else None)
