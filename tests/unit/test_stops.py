"""Picture stops that one worn line has: believed if no other word is nearer to the line as it is, by its samples or by
a document's distances, and unsure otherwise."""

import io
import json
import os
import re

from compact import made
from discs import side
import ldvbi
from ldvbi.document import write_recovered
from ldvbi_side.command.map import map_rows
from ldvbi_side.near import MARGIN
from ldvbi_side.side import side_of_document, side_of_tbc
import pytest
from streams import NTSC, PAL, TOP, worn_line, write_stream

STOP = 0x82CFFF
ROWS = [[0, 0xF00000 + number, 0xF00000 + number] if is_first else [0, 0, 0]
        for number in range(1, 10) for is_first in (True, False)]


def stops_in(one):
    """The fields with a stop, and those of which it isn't sure."""
    return one.stops(), [stop["field"] for stop in one.answer["unsureStops"]]


@pytest.mark.parametrize("lead, wanted", [(0, ([5], [])), (1, ([5], [])), (-1, ([], [5])), (None, ([], [5]))])
def test_the_margin(lead, wanted):
    """That of docs/measured, which a line may just reach. The distances of another line show nothing."""
    with open(os.path.join(TOP, "docs/measured/stops.txt"), encoding="ascii") as file:
        assert re.findall("The least margin: (.*) hundredths", file.read()) == [str(MARGIN)] == ["0"]
    one = made("1..9 5=S^/#3/#3", side)
    one.leads = {(5, 17): 900, (4, 16): 900, **({} if lead is None else {(5, 16): lead})}
    assert stops_in(one) == wanted
    assert [row for row in map_rows(one.analysis.answer) if row[0] == "stop"] == [
        ("stop", 3, 5, 3, "read" if wanted[0] else "unsure")]
    assert one.answer["stray"] == []


def test_on_which_lines():
    """Lines 16 and 17, by pass 2 or 3. On line 18 alone a stop is out of place, and beside another it has no say."""
    one = made("1..9 4.16=S^ 8.17=S* 12.18=S 14.16=S* 14.18=S 16.17=S^", side)
    one.leads = {(field, line): -1 if line == 18 else 900 for field in range(1, 16) for line in (16, 17, 18)}
    assert (stops_in(one), [(stray["field"], stray["line"]) for stray in one.answer["stray"]]) == (
        ([4, 8, 14], [16]), [(12, 18)])


def documents_of(path, setup):
    """The sides of the document with recovered words of a stream: as it is written, and with its JSON written anew."""
    text = io.StringIO()
    with ldvbi.Stream(path, *setup, True) as stream:
        write_recovered(stream, text, lambda blocks, _: blocks)
    text = text.getvalue()
    return text, [side_of_document(data.encode()) for data in (text, json.dumps(json.loads(text), indent=1))]


# Of cell 5, which has 28 columns (PAL: 35), so many are turned over: so a stop is ahead by 2.8 columns, and by none.
# Then the word with this bit turned is nearer, but no other code is, so that a stop is recovered.
@pytest.mark.parametrize("setup, columns, is_stop", [
    (NTSC, 12, True), (NTSC, 14, True), (NTSC, 15, False), (PAL, 15, True), (PAL, 17, True), (PAL, 19, False)])
def test_of_a_file_and_its_document(room, setup, columns, is_stop):
    line = worn_line(STOP, setup, 5, columns)
    rows = [list(row) for row in ROWS]
    rows[4][0] = rows[9][1] = line
    write_stream(room.path, setup, rows)
    one = side_of_tbc(room.path, ldvbi.System[setup[0]], *setup[1:])
    assert [one.readings[4][0], one.readings[9][1]] == [one.readings[4][0]._replace(word=STOP, pass_=3)] * 2
    for found in (one, *documents_of(room.path, setup)[1]):
        assert stops_in(found) == (([5, 10], []) if is_stop else ([], [5, 10]))


def test_of_a_line_read_after_smoothing(room):
    """Of which a document has no distances."""
    rows = [list(row) for row in ROWS]
    rows[4][0] = rows[9][1] = worn_line(STOP, NTSC, 5, 3)
    write_stream(room.path, NTSC, rows)
    one = side_of_tbc(room.path, ldvbi.System.NTSC, *NTSC[1:])
    assert [(line.pass_, line.word) for line in (one.readings[4][0], one.readings[9][1])] == [(2, STOP)] * 2
    assert stops_in(one) == ([5, 10], [])
    assert [stops_in(found) for found in documents_of(room.path, NTSC)[1]] == [([], [5, 10])] * 2


def test_of_a_document(room):
    """What it says of the distances: of none, of another word, or in another form nothing is known."""
    rows = [list(row) for row in ROWS]
    rows[4][0] = worn_line(STOP, NTSC, 5, 12)
    write_stream(room.path, NTSC, rows)
    text = documents_of(room.path, NTSC)[0]
    near = '{"word":%d,"distance":840,"rival":1120}' % STOP
    assert text.count(near) == 1
    for other, is_stop in ((near, True), (near.replace("1120", "840"), True), (near.replace("1120", "839"), False),
                           ("null", False), (near.replace(str(STOP), str(STOP ^ 1)), False), ("5", False),
                           (near.replace("840", '"840"'), False), (near.replace("1120", "1120.5"), False),
                           ("{}", False)):
        for begin in ("", " "):  # with a space before it, it isn't as it was written
            assert stops_in(side_of_document((begin + text.replace(near, other)).encode())) == (
                ([5], []) if is_stop else ([], [5]))
    without = re.sub(r',"vbiNear":\[.*?\](?=})', "", text)
    assert "vbiNear" not in without
    assert stops_in(side_of_document(without.encode())) == ([], [5])
