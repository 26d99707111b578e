"""Due numbers that are the nearest words of their lines, and count as read. Dropouts: columns of lines that count for
no nearest word, in the module's calls, in metadata, and where the command recovers words. Distances are counted on
paper."""

import json

from compact import check_row, made, of_member
from discs import plain
import ldvbi
from ldvbi.metadata import read_metadata
from ldvbi_side.answer.analysis import analyse, analysed
from ldvbi_side.command.map import map_rows
from ldvbi_side.near import measured, nearest_word_in, stop_lead_in
from ldvbi_side.seek import seek, wanted_of
from ldvbi_side.side import side_of_tbc
import pytest
from simulated_discs import picture
from streams import line_with, NTSC, PAL, pictures, worn_line, write_stream

WORD = 0xF12345
# Of the 29 columns of cell 9 (PAL: 35) 13 (16) are turned over: those in its first half cell, and in the second. So the
# word is 13 (16) columns off, and the one with this bit turned 16 (19). Each counts seven tenths, so the word is ahead
# by 2.1. It is recovered where it is ahead by 6, as it is by 6.3 without six of those that are turned over.
TURNED = {"NTSC": (13, (411, 417), (426, 431)), "PAL": (16, (513, 520), (530, 537))}


def worn(setup, word=WORD):
    return worn_line(word, setup, 9, TURNED[setup[0]][0])


DUE = "1..20 9=?"  # picture 5, in field 9


def asked(text, words, analysis=analyse):
    """The answer of a side, of whose lines these are the nearest words, by field, first and last line."""
    return analysis(made(text, plain)._replace(nearest_word=lambda *place: words.get(place)))


def check_confirmed(found, is_confirmed):
    wanted = ("9", "", "", "20") if is_confirmed else ("", "5@9", "5 unread", "19")
    assert tuple(of_member(found, name) for name in ("confirmed", "unread", "missing", "count")) == wanted
    assert (of_member(found, "@9"), found["whole"]) == ("5" if is_confirmed else "", "yes")


def test_pictures():
    """A line or both say one of its two words: the first bit of the first digit has no meaning."""
    for place, word, is_confirmed in (
            *(((9, *lines), word, True) for lines in ((17, 17), (18, 18), (17, 18)) for word in (0xF00005, 0xF80005)),
            ((9, 17, 17), 0xF00006, False), ((9, 17, 17), 0x805DDD, False), ((9, 16, 16), 0xF00005, False),
            ((10, 17, 17), 0xF00005, False)):
        check_confirmed(asked(DUE, {place: word}), is_confirmed)
    # beside a wrong word, which is set aside all the same
    found = asked("1..20 9=-/#79999/?", {(9, 17, 17): 0xF79999, (9, 18, 18): 0xF00005})
    check_confirmed(found, True)
    assert of_member(found, "aside") == "9"
    # where none is due
    check_row("none", "1..20 ?x2", "no confirmed", nearest_word=lambda *place: 0xF00021)
    # sought, and in the map
    found = asked(DUE, {(9, 17, 17): 0xF00005}, analysed).answer
    assert seek(found, wanted_of("5")) == {"field": 9, "frame": 5, "read": True, "other": None}
    assert [row[4] for row in map_rows(found) if row[0] == "picture"][3:6] == ["read", "near", "read"]


def test_times():
    """Time 0:01:00.00 stands in field 21. Minutes alone aren't confirmed."""
    for word, is_confirmed in ((0x8AE000, True), (0x8AE001, False), (0xF0DD01, False)):
        found = asked("t1490..1509 21=?/M/?", {(21, 16, 16): word})
        assert of_member(found, "confirmed") == ("21" if is_confirmed else "")
        assert of_member(found, "@21") == ("0:01:00.00" if is_confirmed else "")
    words = {(field, 18, 18): 0xF0DD10 for field in range(1, 6001)}
    assert asked("m9x3000 m11x3000", words)["confirmed"] == []


@pytest.mark.parametrize("setup", (NTSC, PAL))
def test_samples(room, setup):
    """Of 20 pictures picture 5 has this line alone, which shows no word. It is ahead by 2.1 columns, which are too few
    to recover it where no number is due."""
    fields = [field for number in range(1, 21) for field in ([0, picture(number), 0], [0, 0x800DDD, 0x800DDD])]
    fields[8] = [0, worn(setup, 0xF00005), 0]
    write_stream(room.path, setup, fields)
    for recover in (True, False):
        one = side_of_tbc(room.path, ldvbi.System[setup[0]], *setup[1:], recover=recover)
        one.may_end = True
        assert one.readings[8].second.word == 0
        check_confirmed(one.answer, recover)


@pytest.mark.parametrize("setup", (NTSC, PAL))
def test_each_call(room, setup):
    """The last of 100 fields. Line 16 is recovered without dropouts: its word is 9 columns off (PAL: 12), another one
    19 or more, so it is ahead by 7. On line 17 six of the turned columns are enough, and five, by which the word is
    ahead by 5.6, aren't; dropouts come in any order, and may be far beyond.
    Fields are read in blocks of 64, each with its own dropouts: so the last one of the first block is recovered by
    those that it has, and the first one of the second block isn't."""
    _, (begin, end), (second, last) = TURNED[setup[0]]
    lines = [worn_line(0x85D0A1, setup, 5, 9 + 3 * (setup == PAL)), worn(setup), line_with(0xF54321, setup)]
    write_stream(room.path, setup, [[]] * 63 + [lines, lines] + [[]] * 34 + [lines])
    field = room.read("side.tbc")[-ldvbi.field_bytes(setup[0]):]
    for recover, dropouts, is_found in ((False, None, False), (True, None, False), *((True, *row) for row in (
            ([], False), ([(17, second, last), (17, begin, end)], True),
            ([(17, begin, begin + 4)], False), ([(17, begin, begin + 5)], True),
            ([(17, begin, begin)] * 9, False), ([(16, begin, end), (18, begin, last)], False),
            ([(17, 1050, 2 ** 40), (17, begin, end), (17, 0, 5)], True), ([(17, 0, 2 ** 40)], False)))):
        others = [(0, 17, 0, 5), (63, 17, begin, end), (64, 17, 0, 5)] if dropouts else []
        of_stream = None if dropouts is None else [*others, *((99, *one) for one in dropouts)]
        with ldvbi.Stream(room.path, *setup, recover, of_stream) as side:
            assert [fields[place][1].word for fields in (side, list(side)) for place in (63, 64)] == [
                WORD if dropouts else 0, 0] * 2
            readings = [list(side)[99], side[99], side[-1], side[60:][39],
                        list(ldvbi.fields(room.path, *setup, recover=recover, dropouts=of_stream))[99],
                        *(call(samples, *setup, recover, dropouts) for call, samples in
                          ((ldvbi.read_field, field), (ldvbi.read_rows, b"".join(lines))))]
            if not recover:  # as usual
                readings += [ldvbi.read_field(field, *setup), ldvbi.read_rows(b"".join(lines), *setup),
                             ldvbi.Stream(room.path, *setup)[99], list(ldvbi.fields(room.path, *setup))[99]]
        wanted = (0x85D0A1, 3) if recover else (0, 0), (WORD, 3) if is_found else (0, 0), (0xF54321, 1)
        assert {tuple((line.word, line.pass_) for line in one) for one in readings} == {wanted}


def with_sample(line, column, level):
    return line[:2 * column] + level.to_bytes(2, "little") + line[2 * column + 2:]


def test_erased_columns_cost_nothing(room):
    """Of 13 and 16 columns, each of which counts 70. A row of another word differs in 28 columns of a line, one with a
    cell more in 14. Of cell 5 half of the 28 columns are turned, 297 among them: another word is as near. A signal goes
    on for one more cell after the word: this row is nearer by 14 columns, without 9 of them by 5, which count 3.5, and
    without 8 by 4.2. Up to 4 the nearest word counts: so it does if the sixth one counts 0.5, as one does that is 0.2
    short of white, but not with a step more. A step by which another word is nearer counts, if white - black is even.
    Two lines alike count twice."""
    write_stream(room.path, NTSC, [[0, worn(NTSC), worn(NTSC)], [0, worn(NTSC), 0]])
    with ldvbi.Stream(room.path, *NTSC, True, [(0, 17, 411, 414), (0, 17, 413, 417), (0, 18, 838, 2000)]) as side:
        assert [measured(side, *place) for place in ((1, 17), (1, 18), (2, 17))] == [
            (WORD, 420, 1120), (WORD, 910, 1120), (WORD, 910, 1120)]
        assert [stop_lead_in(side, 1, line) for line in (16, 17)] == [None, None]  # of no word, and of a picture
    column = 24372  # seven tenths of white - black, rounded up
    assert ldvbi.nearest(2 * line_with(WORD, NTSC, [(0, 0, True)]), *NTSC) == (
        WORD, 150, 2 * column, 58 * column, 30 * column)
    half = ((500, 520), None), ((297, 298), WORD), ((296, 297), None), ((295, 297), WORD ^ 0x40000)
    goes_on = ((500, 540), None), ((837, 845), WORD), ((837, 844), None)
    odd, even = ("NTSC", 16384, 51201), ("NTSC", 16384, 51206)
    longer = line_with(WORD, NTSC, [(837, 850, True)])
    for setup, line, rows in (
            (NTSC, worn_line(WORD, NTSC, 5, 14), half), (odd, worn_line(WORD, odd, 5, 14), half),
            (even, with_sample(worn_line(WORD, even, 5, 14), 297, 16385), [((500, 500), WORD)]),
            (odd, with_sample(worn_line(WORD, odd, 5, 14), 297, 16385), [((500, 500), None), ((1000, 1000), WORD)]),
            (NTSC, longer, goes_on), (NTSC, with_sample(longer, 845, 51200 - 6968), [((837, 844), WORD)]),
            (NTSC, with_sample(longer, 845, 51200 - 6967), [((837, 844), None)])):
        write_stream(room.path, setup, [[0, line, line]])
        for columns, nearest in rows:
            with ldvbi.Stream(room.path, *setup, True, [(0, 17, *columns), (0, 18, *columns)]) as side:
                assert [nearest_word_in(side, 1, 17, last) for last in (17, 18)] == [nearest] * 2


# Members `dropOuts` of a field, and its dropouts: lists of one length, of which those of lines 16, 17 and 18 have whole
# numbers, the first of them not above the last
TOLD = (({"fieldLine": [1, 16, 17, 18, 19], "startx": [1, 2, 3, 0, 5], "endx": [9, 2, 1000000, 9, 9]},
         [(16, 2, 2), (17, 3, 1000000), (18, 0, 9)]),
        ({"fieldLine": [17], "startx": [1], "endx": [9], "more": 1}, [(17, 1, 9)]),
        ({"fieldLine": [15, 17], "startx": [-1, 1], "endx": [None, 2]}, [(17, 1, 2)]),
        *(({"fieldLine": lines, "startx": firsts, "endx": lasts}, []) for lines, firsts, lasts in (
            ([17, 18], [1, -1], [9, 9]), ([17], [3], [2]), ([17], [1], [9, 9]), ([17, 18], [1], [9]),
            ([17.0], [1], [9]), ([17], [True], [9]), ([17], [1], [9.0]), ([17], [1], [None]), ("17", "1", "2"))),
        *((one, []) for one in ({}, [], None, 5, "x", {"fieldLine": [17], "startx": [1]})))


def test_json(room):
    """Of each field in its place, also beside fields that are none, and of the last member `fields` alone; `--into` has
    each field told."""
    fields = json.dumps({"videoParameters": {}, "fields": [{"seqNo": 1, "dropOuts": told} for told, _ in TOLD]})
    every = [(place, *one) for place, (_, wanted) in enumerate(TOLD) for one in wanted]
    assert read_metadata(room.write("meta.json", fields)).dropouts == every
    assert read_metadata(room.named("meta.json"), lambda *_: None).dropouts == every
    one = '{"dropOuts":%s}' % json.dumps(TOLD[1][0])
    for text, wanted in (('{"fields":[5,{},%s]}', [(2, 17, 1, 9)]), ('{"fields":[%s],"fields":[{}]}', []),
                         ('{"fields":[%s],"fields":{}}', []), ('{"fields":[%s]', []), ("[%s]", [])):
        assert read_metadata(room.write("meta.json", text % one)).dropouts == wanted


def near(room, *words, said=""):
    """How many lines 17 have a recovered word."""
    return json.loads(room.printed("side.tbc", "--json", *words, said=said))["lines"]["17"]["near"]


def test_they_are_used(drawn):
    """Of the metadata beside the file, or of --meta; not with --no-recover. Field 12 has a worn line 17 alone."""
    write_stream(drawn.path, NTSC, [*pictures(11), [0, worn(NTSC), 0]])
    told = {"dropOuts": {"fieldLine": [17], "startx": [411], "endx": [417]}}
    drawn.metadata("side.tbc.json", count=12, field=told)
    drawn.metadata("without.json", count=12)
    assert [near(drawn), near(drawn, "--meta", "without.json"), near(drawn, "--no-recover")] == [1, 0, 0]
    assert drawn.printed("side.tbc", "--document") == drawn.extracted("side.tbc")
    found = drawn.printed("side.tbc", "--document", "--recovered").split(b"\n")[12]
    assert b'"vbiData":[0,%d,0]' % WORD in found
    assert b'"vbiNear":[null,{"word":%d,"distance":420,"rival":1120},null]' % WORD in found
    row = drawn.printed("side.tbc", "--bad-lines").decode().split("\n")[1].split(",")
    assert [*row[:2], *row[4:]] == ["12", "17", "F12345", "420", "1120"]
    drawn.printed("side.tbc", "--into", "copy.json", "--recovered", "--as-read")
    assert json.loads(drawn.read("copy.json"))["fields"][11] == {
        "isFirstField": True, **told, "vbi": {"vbiData": [0, WORD, 0]}}
    # those of another count of fields
    drawn.metadata("side.tbc.json", count=14, field=told)
    said = "ldvbi-side: side.tbc: 12 fields, side.tbc.json says 14, so its %s used: another system, or another " \
           "file's metadata?\n"
    assert near(drawn, "--no-recover", said=said % "isFirstField isn't") == 0
    said %= "isFirstField and dropOuts aren't"
    assert near(drawn, said=said) == 0
    for words in (["--document"], ["--document", "--svg", "side.svg"]):
        assert drawn.printed("side.tbc", "--recovered", *words, said=said).count(b"[null,null,null]") == 12
