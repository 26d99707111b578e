"""Documents as they are and broken ones, each by one change of a sound one. Those that stand as they are written are
taken apart by a pattern: what comes of one is what its JSON says, and so is the fault of one that is changed. And those
of a mapped file, beside what the program's `extract` writes of it."""

import io
import json
import random
from unittest import mock

from compact import cells_of
import ldvbi
from ldvbi import Cause, document
from ldvbi.document import (_as_json, head_of, is_document, MAX_FIELDS, read_document, RECORD, tail_of, write_document,
                            write_recovered)
from ldvbi.readings import cause_text, Cut, Levels, PackedFields
from ldvbi_side.judge.readings import Fields
from ldvbi_side.side import side_of_document
import pytest
from room import reason
from streams import line_with, NTSC, PAL, pictures, worn_line, write_stream

PICTURE = 0xF00001
# The words, causes and passes of fields; the words are the least, the greatest and others
FIELDS = [((0, 0, 0), ("change 0", "unfinished", "hold 909"), (0, 0, 0)),
          ((PICTURE, 0xFFFFFF, 0x800000), ("word", "word", "word"), (1, 2, 1)),
          ((0, PICTURE, PICTURE), ("blank", "word", "word"), (0, 1, 2))]
NEAR = ',"vbiNear":[{"word":15728641,"distance":120,"rival":0},null,null]}'
# Why documents are refused that have one of these values at a place, or nothing; VALUE is that in JSON. Of those for
# which a line's parts don't fit, FIELD is how the text begins.
BROKEN = """
    not a document of version 2 or 3 | version | 1, 4, true, 2.0, GONE || fields is no list | fields | {}
    videoParameters has no system | videoParameters | GONE || system is neither NTSC nor PAL | SYSTEM | ["NTSC"]
    fieldWidth is not 1135 | SYSTEM | "PAL" || fieldHeight is not 263 | videoParameters.fieldHeight | 313, 263.0
    LEVELS | videoParameters.black16bIre | 51200, -1, false || LEVELS | videoParameters.white16bIre | 51200.0, 65536
    videoParameters has no white16bIre | videoParameters.white16bIre | GONE
    field 2: seqNo is not 2 | fields.1 | GONE || field 2: seqNo is not there | fields.1 | 5
    field 1: seqNo is not 1 | fields.0.seqNo | true, 1.0, 0 || field 3: vbi is not there | fields.2.vbi | GONE
    field 3: vbi has no vbiData | fields.2.vbi | 5 || field 3: vbiCause is no list of three | fields.2.vbiCause | "word"
    field 3: vbiData is no list of three | fields.2.vbi.vbiData | [0, 0]
    field 3: vbiPass is no list of three | fields.2.vbiPass | [0, 1, 2, 0]
    field 3: vbiCause is no list of three | fields.2.vbiCause | ["blank", "word", "word", "word"]
    field 3: VALUE is no word | fields.2.vbi.vbiData.1 | 8388607, 16777216, "F00001", 15728641.0
    field 3: VALUE is no word | fields.2.vbi.vbiData.0 | false || field 3: VALUE is no pass | fields.2.vbiPass.1 | true
    field 3: VALUE is no cause | fields.2.vbiCause.0 | "noise", "hold 910", "change 07", null, []
    FIELD 15728641, blank, 1 | fields.2.vbiCause.1 | "blank" || FIELD 15728641, word, 0 | fields.2.vbiPass.1 | 0
    FIELD 0, word, 0 | fields.2.vbiCause.0 | "word" || FIELD 0, blank, 2 | fields.2.vbiPass.0 | 2
    cutField is not there | cutField | GONE || cutField: seqNo is not 5 | cutField.seqNo | 4, 5.0
    cutField has no seqNo | cutField.seqNo | GONE
    videoParameters has no fieldWidth | videoParameters.fieldWidth | GONE
    cutField has no bytes | cutField.bytes | GONE || cutField: bytes is not from 1 to 478659 | cutField.bytes | 0, true
"""
# Members `vbiNear` of field 2, and by line how far a picture stop is ahead
S, OTHER = {"word": 0x82CFFF, "distance": 120, "rival": 650}, {"word": 0x82CFFE, "distance": 120, "rival": 650}
LEADS = (([S, None, OTHER], {16: 530}), ([None, {**S, "rival": 120}, S], {17: 0, 18: 530}), ([OTHER, None, None], {}),
         ([S, {**S, "rival": 1}, S], {16: 530, 17: -119, 18: 530}), (None, {}), (5, {}), ({}, {}), ([5, "x", [S]], {}),
         *(([{**S, name: value}, None, None], {}) for name in ("distance", "rival") for value in (True, 1.5, "1")))
SHORT = {"SYSTEM": "videoParameters.system", "FIELD": "field 3: word, cause and pass of a line don't fit:",
         "LEVELS": "black16bIre and white16bIre are not two samples, black below white"}


def written(version=2, count=4, cut=Cut(5, 85360), system=ldvbi.System.NTSC):
    """The bytes of a document as it is written, of version 3 with a recovered word."""
    records = [RECORD % (number + 1, *(part for parts in FIELDS[number % 3] for part in parts))
               for number in range(count)]
    if version == 3:
        records[1] = (records[1][:-1].replace('"word"', '"change 17"', 1) + NEAR).replace("[1,2,1]", "[3,2,1]")
    return (head_of(version, system, 16384, 51200) + ",\n".join(records) + tail_of(cut)).encode()


def forms(whole):
    """A document as any program may write it, and as it is written."""
    text = json.dumps(whole, separators=(",", ":"))
    for joint, line in (('"fields":[', '"fields":[\n'), ('},{"seqNo":', '},\n{"seqNo":'), ('],"cut', '\n],"cut')):
        text = text.replace(joint, line)
    return json.dumps(whole).encode(), text.encode() + b"\n"


def changed(path, value, version=2):
    """The same with another value at a place, or without it."""
    *steps, last = [int(step) if step.isdigit() else step for step in path.split(".")]
    inside = whole = json.loads(written(version))
    for step in steps:
        inside = inside[step]
    inside[last] = value
    if value == "GONE":
        del inside[last]
    return forms(whole)


def quickly(data, is_written=True):
    """What is read of a document by a pattern; of one in another form, of each record at once."""
    with mock.patch("ldvbi.document." + ("_as_json" if is_written else "_field"), side_effect=AssertionError):
        return read_document(data)


def outcome(read, data):
    """What is read of a document, or the text of its fault."""
    return reason(read, data) or read(data)


def test_a_document():
    side = side_of_document(written())
    assert side.plain() == Fields("NTSC", *([(*FIELDS, FIELDS[0])[place][part] for place in range(4)] for part in (
        0, 2, 1)), side.readings.data, Cut(5, 85360))
    assert side.levels == Levels(16384, 51200)
    readings = side.readings
    assert [line.column for line in readings[0]] == [0, 0, 909]
    assert (readings[-2:], PackedFields.of(list(readings))) == (list(readings)[2:], readings)
    assert [tuple(readings.words_on(line)) for line in (16, 17, 18)] == list(zip(*readings.words()))
    assert reason(readings.__getitem__, 4, kind=IndexError) is not None
    for cut in (Cut(1, 1), None):
        empty = side_of_document(written(2, 0, cut))
        assert (empty.readings, empty.cut, empty.answer["fields"]) == ([], cut, 0)


@pytest.mark.parametrize("system, width, height", (("NTSC", 910, 263), ("PAL", 1135, 313)))
def test_each_system(system, width, height):
    """Columns are those of 1 to 4 digits that a line has, and no other; a cut is less than a field."""
    most = 2 * width * height - 1

    def written_with(first="blank", more=0):
        records = [RECORD % (number + 1, 0, 0, 0, "change %d" % number, "hold %d" % number, first, 0, 0, 0)
                   for number in range(width)]
        return (head_of(2, ldvbi.System[system], 0, 65535) + ",\n".join(records) +
                tail_of(Cut(width + 1, most + more))).encode()

    for read in (_as_json, quickly):
        found = read(written_with())
        for line in ("first", "second"):
            assert [getattr(field, line).column for field in found.readings] == list(range(width))
        assert (found.system.name, found.cut.bytes, found.levels) == (system, most, Levels(0, 65535))
    assert reason(read_document, written_with(more=1)) == "cutField: bytes is not from 1 to %d" % most
    assert reason(read_document, written_with("hold %d" % width)) == 'field 1: "hold %d" is no cause' % width


def test_what_is_taken_for_a_document():
    assert is_document("a.json", b"") and is_document("a", b' \n{ "version": 2')
    assert not is_document("a.tbc", b'{"fields"')
    assert reason(read_document, b"[1]") == "not a document of version 2 or 3"
    for data in (written()[:-3], b"\xef\xbb\xbf" + written(), written().decode().encode("utf-16")):
        assert reason(read_document, data).startswith("not JSON: ")


@pytest.mark.parametrize("text, path, values", cells_of(BROKEN))
def test_each_change(text, path, values):
    for value in json.loads("[%s]" % values.replace("GONE", '"GONE"')):
        wanted = text.replace("VALUE", json.dumps(value))
        for short, whole in SHORT.items():
            wanted, path = wanted.replace(short, whole), path.replace(short, whole)
        assert [reason(read_document, form) for form in changed(path, value)] == 2 * [wanted]


def test_recovered_words():
    """A document of version 3 has them with the causes of their lines, and one of version 2 hasn't got them."""
    def whole(word=PICTURE, causes=("change 170", "word", "unfinished"), of_pass=3, version=3):
        return changed("fields.2", json.loads(RECORD % (3, *[word] * 3, *causes, *[of_pass] * 3)), version)

    side = side_of_document(whole()[0])
    assert [tuple(line) for line in side.readings[2]] == [
        (Cause.change, 3, 170, PICTURE), (Cause.word, 3, 0, PICTURE), (Cause.unfinished, 3, 0, PICTURE)]
    assert [rates["near"] for rates in side.answer["lines"].values()] == [2, 1, 1]
    for wanted, words in (
            ("field 3: 3 is no pass", {"version": 2}), ("field 3: 4 is no pass", {"of_pass": 4}),
            *((SHORT["FIELD"], {"word": word, "causes": [cause] * 3, "of_pass": of_pass}) for word, cause, of_pass in (
                (0, "change 170", 3), (PICTURE, "blank", 3), (PICTURE, "change 170", 2), (0, "word", 3)))):
        assert {reason(read_document, form)[:len(wanted)] for form in whole(**words)} == {wanted}


def test_leads():
    for near, wanted in LEADS:
        leads = {(2, line): lead for line, lead in wanted.items()}
        for form in changed("fields.1.vbiNear", near, 3):
            assert read_document(form).leads == leads
    for place in range(4):  # of the first record, and of the last
        form = changed("fields.%d.vbiNear" % place, [None, S, S], 3)
        assert quickly(form[1]).leads == quickly(form[0], False).leads == {(place + 1, 17): 530, (place + 1, 18): 530}


def test_one_character_changed():
    """A character is put in the place of one, or before it. Most have a fault, some are sound in another form."""
    rng, faults = random.Random(1), 0
    for version in (2, 3):
        data = written(version, 3, Cut(4, 17))
        with mock.patch.object(document, "_PIECE", 300):  # of three records
            for count in range(1, 9):
                long = written(version, count + (version == 3), None)
                assert quickly(long) == _as_json(long) == quickly(forms(json.loads(long))[0], False)
        for _ in range(200):
            other, place = bytearray(data), rng.randrange(len(data))
            other[place:place + rng.randrange(2)] = rng.choice((b"0", b"7", b" ", b",", b"}", b'"', b"\n", b"\xff"))
            found = outcome(read_document, bytes(other))
            assert found == outcome(_as_json, bytes(other))
            faults += isinstance(found, str)
    assert faults > 250


def test_other_forms():
    """Records that a pattern finds in a place that isn't theirs, or in another form; none; and an end that is deep."""
    data = written(2, 3, None)
    inner = b'{"version":2,"videoParameters":{},"fields":[],"x":' + data[:-1] + b"}"
    for other in (inner, data.replace(b"\n", b"\r\n"), data.replace(b":", b": "), written(2, 0, None),
                  data.replace(b"null", b"[" * 100000)):
        assert other != data
        assert outcome(read_document, other) == outcome(_as_json, other)


def over(blocks, _):
    return blocks


def compare(room, setup, fields, rest=0, *, is_recovered=False):
    """What is written of a file, and of a buffer, as the program has it."""
    write_stream(room.path, setup, fields, rest)
    levels = ("--system %s --black %d --white %d" % setup).split()
    wanted = room.extracted("side.tbc", levels + ["--recover"] * is_recovered)
    for source in (room.path, bytearray(room.read("side.tbc"))):
        text, write = io.StringIO(), write_recovered if is_recovered else write_document
        with ldvbi.Stream(source, *setup, is_recovered) as stream:
            write(stream, text, over)
        assert text.getvalue().encode("ascii") == wanted
    return wanted.decode("ascii")


@pytest.mark.parametrize("setup", (NTSC, PAL, ("NTSC", 0, 65535), ("PAL", 65534, 65535)))
def test_causes_and_passes(room, setup):
    """Fields with each cause and pass, by changes to drawn lines and to blank ones; with recovered words, too."""
    start = {"NTSC": 150, "PAL": 190}[setup[0]]  # of a drawn word
    last = ldvbi.line_bytes(setup[0]) // 2 - 1
    fields = [[line_with(word, setup, changes) for word, *changes in lines] for lines in (
        [[0x82CFFF], [0x82CFFF, (start + 20, start + 21, False)], [0x82CFFF, (start + 20, start + 30, False)]],
        [[0, (last - 10, last, True)], [0, (164, last, True)], [0]],
        [[0, (0, last, True)], [0xF12345, (0, 0, True)], [0xF12345]], [[0, (last - 1, last - 1, True)], [0], [0]])]
    text = compare(room, setup, fields)
    for part in ("word", "blank", "unfinished", "change ", "hold ", "change %d" % last):
        assert '"' + part in text
    assert '"vbiPass":[1,2,0]' in text
    text = compare(room, setup, [*fields, [0, 0xF12345, worn_line(0xF12345, setup, 9, 10)]], 7, is_recovered=True)
    assert '"vbiPass":[0,1,3],"vbiNear":[null,null,{"word":15803205,' in text


def test_blocks(room):
    """Whole streams and cut ones, which are read in blocks of 64 fields."""
    for setup, count, rest in ((NTSC, 65, 0), (PAL, 0, 0), (NTSC, 0, 1), (PAL, 64, ldvbi.field_bytes("PAL") - 1)):
        for is_recovered in (False, True):
            compare(room, setup, pictures(count), rest, is_recovered=is_recovered)


def test_too_many_fields():
    """As the program, which takes at most 1,000,000, and counts a cut one."""
    assert MAX_FIELDS == 1000000
    with mock.patch.object(document, "MAX_FIELDS", 2):
        for rest, wanted in ((0, None), (1, "too many fields")):
            stream = ldvbi.Stream(bytearray(2 * ldvbi.field_bytes("NTSC") + rest), *NTSC)
            assert reason(write_document, stream, io.StringIO(), over) == wanted


def test_a_cause_of_a_later_library():
    blank, later = ldvbi.PACKED_FIELD.pack(*3 * (1, 0, 0, 0)), bytes([len(Cause)])
    fields = [blank[:place] + later + blank[place + 1:] for place in (0, 8, 16)]
    for call in (*(lambda field=field: list(document._records(field, 0)) for field in fields),
                 lambda: cause_text(ldvbi.Reading(5, 0, 0, 0))):
        assert reason(call) == "the library's cause 5 is not known here"
