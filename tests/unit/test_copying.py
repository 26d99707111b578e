"""What `write` copies of captures, and how: words that were recovered, older padding, and files in parts."""

from array import array
import json
import os
import re
import sqlite3
from types import SimpleNamespace

from captured import draw, drawn, entries_of, inside, lost, places_in, SETUPS, VIDEO
import ldvbi
from ldvbi_side.write import copying
from ldvbi_side.write.stretches import Stretch
import pytest
from room import in_database, reason
from streams import worn_line


def test_a_line_that_was_recovered(room):
    """Its word is written if it's asked for. In a database a field may have no row of words yet, fields no column for
    the colour, and dropouts no table."""
    for form in ("json", "db"):
        path = room.named("a-%s.tbc" % form)
        draw(path, VIDEO, VIDEO.order, form=form)
        field, word = VIDEO.at[9], VIDEO.words[VIDEO.at[9]][1]
        with open(path, "r+b") as file:
            file.seek(field * ldvbi.field_bytes("NTSC") + 16 * ldvbi.line_bytes("NTSC"))
            file.write(worn_line(word, SETUPS["NTSC"], 9, 10))
        if form == "db":
            in_database(path + ".db", "DELETE FROM vbi WHERE field_id IN (%d, 9)" % field)
        for words, wanted in (("", 0), (" --recovered", word)):
            assert room.run_words("write out-{0}.tbc a-{0}.tbc{1}".format(form, words))[0] == 0
            entries = entries_of(room.named("out-%s.tbc" % form))
            assert [one["vbi"]["vbiData"] for one in entries] == [
                [0, wanted, word] if place == field else VIDEO.words[place] for place in inside(VIDEO)]
    in_database(path + ".db", "ALTER TABLE field_record DROP COLUMN field_phase_id", "DROP TABLE drop_outs")
    assert room.run_words("write out.tbc a-db.tbc --plan")[0] == 0


OLDER = (  # what is taken before and after two fields of padding, which of its fields are padding there, and the first
    ((1, 2), (5, 2), "--pp--", (0, 2)), ((1, 2), (5, 2), "--p---", None), ((1, 2), (5, 2), "------", None),
    (None, (3, 2), "pp--", (0, 0)), ((None, 1), (3, 2), "pp--", (0, 0)), (None, (2, 2), "pp--", None),
    (None, (3, 2), None, None),
    ((1, 2), None, "--pp", (0, 2)), ((1, 2), None, "--p", None), ((1, 2), None, "p-pp", (0, 2)),
    ((1, 2), (9, 2), "--pp--pp--", (0, 2)), ((1, 2), (9, 2), "------pp--", (0, 6)))


@pytest.mark.parametrize("before, after, pads, wanted", OLDER)
def test_padding_that_is_padding_already(before, after, pads, wanted):
    parts = [one and Stretch(1, one[1], 1, 1, 0 if one[0] else None, one[0], "whole") for one in (before, after)]
    assert copying._older(parts[0], 2, parts[1], [pads and [one == "p" for one in pads]]) == wanted


def test_what_is_copied_at_once(room, monkeypatch):
    """Two fields. Of sound older padding keeps its size, whatever comes before and after it."""
    size, parts = ldvbi.field_bytes("NTSC"), [Stretch(1, 1, 1, 1, None, None, "padding"),
                                              Stretch(2, 3, 2, 3, 0, 2, "whole"),
                                              Stretch(5, 1, 4, 4, None, None, "padding")]
    monkeypatch.setattr(copying, "PIECE", 2 * size + 1)
    room.write("a.tbc", b"".join(bytes([letter]) * size for letter in b"abcde"))
    room.write("a.pcm", b"".join(bytes([letter]) * 4 * count for letter, count in zip(b"abcde", (1, 5, 2, 1, 6))))
    made, one = SimpleNamespace(system="NTSC", stretches=parts), SimpleNamespace(
        path=room.named("a.tbc"), sizes={".pcm": array("I", [4, 20, 8, 4, 24])})
    with open(room.named("new"), "wb") as new:
        assert list(copying.copy_samples(new, made, [one], 0x4141)) == [1, 3, 4, 5]
    assert room.read("new") == b"".join(bytes([letter]) * size for letter in b"AbcdA")
    with open(room.named("new"), "wb") as new:
        assert list(copying.copy_sound(new, made, [one], [[True, False, False, False, True]], ".pcm")) == [
            4, 20, 8, 4, 24]
    assert room.read("new") == bytes(4) + b"b" * 20 + b"c" * 8 + b"d" * 4 + bytes(24)


def test_the_system_copies_a_part_at_once(room, monkeypatch):
    words, counts = drawn(room, "whole"), []

    def some(old, new, size, begin):
        counts.append(os.write(new, os.pread(old, min(size, 1 << 20), begin)))
        return counts[-1]
    monkeypatch.setattr(os, "copy_file_range", some)
    assert room.run_words(words)[0] == 0
    assert places_in(room.named("out.tbc"), VIDEO) == inside(VIDEO)
    assert sum(counts) == sum(os.path.getsize(room.named("out" + end)) for end in (".tbc", ".pcm", ".efm"))


def test_without_the_systems_own_copy_and_of_a_text_beyond_ascii(room, monkeypatch):
    """Letters of more than a byte stand before the fields, and in them, where there is an escape, too."""
    words = drawn(room, "whole")
    room.write("a.tbc.json", room.text("a.tbc.json").replace('"diskLoc"', '"\u00fc":"\u20ac\\n","diskLoc"'))

    def none(*_):
        raise OSError("not here")
    monkeypatch.setattr(os, "copy_file_range", none)
    assert room.run_words(words)[0] == 0
    assert places_in(room.named("out.tbc"), VIDEO) == inside(VIDEO)
    assert all(one["\u00fc"] == "\u20ac\n" for one in entries_of(room.named("out.tbc")))
    # which ends when a file was made shorter meanwhile
    room.write("short", "123")
    with open(room.named("short"), "rb") as old, open(room.named("new"), "wb") as new:
        assert reason(copying.copy_bytes, old, new, 1, 3) == old.name + " was made shorter meanwhile"


def test_what_a_database_has_besides(room, monkeypatch):
    """Rows of a field come from the capture from which it is taken, in whatever table, with the number of the first
    one's capture, and numbered on from its first field; all else is the first one's, which may lack columns. Not every
    SQLite heeds an address unless it is told to."""
    words, heeds, connect = drawn(room, "each lacks others", "db"), set(), sqlite3.connect
    for letter, first, number in (("a", 5, 3), ("b", 100, 2)):
        in_database(
            room.named(letter + ".tbc.db"), *("UPDATE %s SET field_id = field_id + %d, capture_id = %d" % (
                table, first, number) for table in ("field_record", "vbi", "drop_outs")),
            "UPDATE capture SET capture_id = %d" % number, "ALTER TABLE capture DROP COLUMN is_mapped",
            "CREATE TABLE other (id INTEGER PRIMARY KEY AUTOINCREMENT, text)",
            "INSERT INTO other (text) VALUES ('%s')" % letter, "CREATE TABLE notes (text, field_id, capture_id)",
            "INSERT INTO notes SELECT '%s' || (field_id - %d), field_id, capture_id FROM vbi" % (letter, first - 1),
            "CREATE TABLE words AS SELECT field_id, vbi0, vbi1, vbi2 FROM vbi WHERE vbi1 <> 0", "DROP TABLE vbi",
            "ALTER TABLE words RENAME TO vbi")
    with monkeypatch.context() as patched:
        patched.setattr(sqlite3, "connect", lambda *given, **more: heeds.add(more["uri"]) or connect(*given, **more))
        assert room.run_words(words)[0] == 0
    assert heeds == {True}
    rows = [row.split(",") for row in room.text("out.stretches.csv").split("\n")[1:-1]]
    taken = [row[5][0] + str(int(row[6]) + step) for row in rows for step in range(int(row[1]))]
    found = in_database(room.named("out.tbc.db"), "SELECT * FROM notes ORDER BY field_id",
                        "SELECT text FROM other", "SELECT * FROM sqlite_sequence", "SELECT * FROM capture",
                        "SELECT * FROM vbi ORDER BY field_id")
    assert {one[0] for one in taken} == {"a", "b"}
    assert found == [[(text, field, 3) for field, text in enumerate(taken, 5)], [("a",)], [("other", 1)],
                     [(3, "NTSC", 16384, 51200, 48, "dr\u00e4wn")],
                     [(field, *VIDEO.words[place]) for field, place in enumerate(inside(VIDEO), 5)]]


def test_what_is_around_the_fields_is_the_first_captures(room):
    """And padding has what the first one's first field has."""
    draw(room.named("b.tbc"), VIDEO, lost(VIDEO, (9, 0, 6)), gitBranch="other")
    room.write("b.tbc.json", json.dumps({**json.loads(room.text("b.tbc.json")), "more": [2]}, indent=1))
    words = drawn(room, "pictures lost")
    document = json.loads(room.text("a.tbc.json"))
    del document["fields"][0]["decodeFaults"]
    room.write("a.tbc.json", json.dumps(document))
    assert room.run_words(words + " b.tbc")[0] == 1
    assert [one["seqNo"] for one in entries_of(room.named("out.tbc")) if "decodeFaults" not in one] == [*range(17, 23)]
    assert re.findall(r'}([^"{}]*){"(?:audio|seq)', room.text("out.tbc.json")) == [", "] * 47
