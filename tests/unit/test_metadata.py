"""System and levels from ld-decode's metadata, JSON and SQLite."""

import contextlib
import json
import os
import pathlib
import sqlite3
import threading
from unittest import mock

from compact import cells_of
from ldvbi import database, metadata
from ldvbi.metadata import beside, read_metadata
import pytest
from room import in_database, reason

CAPTURE = "CREATE TABLE capture (capture_id INTEGER PRIMARY KEY, system TEXT, field_width INTEGER, " \
          "black_16b_ire NUMERIC, white_16b_ire NUMERIC, field_height INTEGER, number_of_sequential_fields INTEGER)"
INSERT = "INSERT INTO capture (system, black_16b_ire, white_16b_ire, field_width, field_height, " \
         "number_of_sequential_fields) VALUES (?, ?, ?, ?, ?, ?)"
PAL = ("PAL", 1, 2, None, None, None)
NO_METADATA = "FILE is no metadata with videoParameters"
# Parameters, and the system that they say, or why they are refused; the levels are there, unless they are said to be -
PARAMETERS = """
    {"system": "NTSC"} | NTSC || {"isSourcePal": true} | PAL || {"isSourcePal": false} | NTSC
    {"system": "PAL", "isSourcePal": true} | PAL || {"system": "PAL", "fieldWidth": 1135, "fieldHeight": 313} | PAL
    {"system": "NTSC", "fieldWidth": 910.0, "fieldHeight": 263} | NTSC
    {} | no system given || {"system": "pal"} | unknown system || {"isSourcePal": 0} | unknown system
    {"system": "PAL", "isSourcePal": null} | unknown system
    {"system": "PAL", "isSourcePal": false} | system and isSourcePal disagree
    {"system": "PAL", "fieldWidth": 910} | fieldWidth is not 1135
    {"system": "NTSC", "fieldHeight": 313} | fieldHeight is not 263
    {"system": "PAL", "black16bIre": "-"} | no black level given
    {"system": "PAL", "white16bIre": "-"} | no white level given
    {"system": "PAL", "black16bIre": true} | black level is no number
    {"system": "PAL", "black16bIre": -1} | black level is not from 0 to 65535
    {"system": "PAL", "white16bIre": 65536} | white level is not from 0 to 65535
    {"system": "PAL", "white16bIre": 65535.5} | white level is not from 0 to 65535
    {"system": "PAL", "white16bIre": -0.51} | white level is not from 0 to 65535
    {"system": "PAL", "white16bIre": 1e300} | white level is not from 0 to 65535
    {"system": "PAL", "white16bIre": LONG} | white level is not from 0 to 65535
    {"system": "PAL", "white16bIre": "1"} | white level is no number
    {"system": "PAL", "black16bIre": NaN} | NO METADATA || {"system": "PAL", "white16bIre": Infinity} | NO METADATA
"""
OTHER = "CREATE TABLE %s (system TEXT, black_16b_ire INTEGER)"
DATABASES = (
    ("FILE: no table capture; there are: fields, video", OTHER % "video", OTHER % "fields"),
    ("FILE: no table capture; there are: none", "PRAGMA user_version = 1"),
    ("FILE: no table capture; there are: video", OTHER % "video", "CREATE VIEW capture AS SELECT * FROM video"),
    ("FILE: table capture has no column white_16b_ire; there are: system, black_16b_ire", OTHER % "capture"),
    ("FILE: table capture has no row, not one", CAPTURE),
    ("FILE: table capture has more rows, not one", CAPTURE, (INSERT, PAL), (INSERT, PAL)),
    ("FILE: SQLite can't read it: not authorized to use function: instr", CAPTURE, (INSERT, PAL),
     "CREATE VIEW drop_outs AS SELECT 0 AS field_id, 16 AS field_line, 1 AS startx, instr('aab', 'ab') AS endx"),
    ('FILE: SQLite can\'t read it: unsafe use of virtual table "pragma_user_version"', CAPTURE, (INSERT, PAL),
     "CREATE VIEW drop_outs AS SELECT 0 AS field_id, 16 AS field_line, 1 AS startx, user_version AS endx "
     "FROM pragma_user_version"),
    ("FILE: SQLite can't read it: string or blob too big", CAPTURE, (INSERT, ("x" * 1100000, *PAL[1:]))),
    *((text, CAPTURE, (INSERT, row + PAL[len(row):])) for text, row in (
        ("unknown system", ("PAL_M",)), ("unknown system", (None,)), ("black level is no number", ("PAL", None)),
        ("white level is no number", ("PAL", 1, "x")), ("white level is no number", ("PAL", 1, float("inf"))),
        ("fieldHeight is not 313", ("PAL", 1, 2, 1135, 263)))))
# How many fields there are, which of them begin a frame, and which are padding; without a list the head has the count
FIELDS = """
    {"fields":[{"seqNo":1,"isFirstField":false},{"seqNo":2,"isFirstField":true}]} | 2 [False, True] None
    {"fields":[{"isFirstField":true},{}]} | 2 None None || {"fields":[{"isFirstField":true},5]} | 2 None None
    {"fields":[{"isFirstField":true},{"isFirstField":1}]} | 2 None None
    {"fields":[{"pad":false},{"pad":true},{"pad":1}]} | 3 None [False, True, False]
    {"fields":[{"pad":true,"isFirstField":true}],"fields":5} | None None None
    {"fields":[{"pad":true}],"other":[{},{}]} | 1 None [True]
    {COUNT12}} | 12 None None || {COUNT0}} | 0 None None || {COUNT-1}} | None None None || {COUNT1.5}} | None None None
    {COUNTtrue}} | None None None || {COUNT12},"fields":[]} | 12 None None || {COUNT12},"fields":5} | 12 None None
    {COUNT12},"fields":[{},{}]} | 2 None None
    {} | None None None || [] | None None None || {"fields":5} | None None None || x | None None None
    {"videoParameters":5} | None None None
"""
# Tables of fields with the order, `is_first_field` and perhaps `pad` of each, and what they say
TABLES = """
    field_id, is_first_field | (7, 0), (5, 1) | 2 [True, False] None
    field_id, is_first_field, pad | (7, 0, 1), (5, 1, 0), (6, 0, 2) | 3 [True, False, False] [False, False, True]
    field_id, is_first_field, pad | (1, 1, NULL) | 1 [True] None
    field_id, is_first_field | (1, NULL), (2, 1) | 2 None None
    field_id, is_first_field | (1, 2), (2, 1) | 2 None None
    field_id, first | (1, 1) | 640 None None
"""
# Tables of dropouts of fields 5, 6 and 7, and what is known by them: nothing of a field in which one is none
LINES = "field_line, startx, endx"
DROP_OUTS = ((LINES, "", []), (LINES.replace("start", ""), "5, 17, 3, 9", []),
             (LINES, "5, 17, 'x', 9; 6, 18, -1, 9; 6, 17, 1, NULL; 7, 16, 0, 0", [(2, 16, 0, 0)]),
             (LINES, "5, 17, 3, 9; 7, 16, 0, 0; 7, 18, 1, 2; 5, 15, 1, 2; 8, 17, 1, 2; NULL, 17, 1, 2",
              [(0, 17, 3, 9), (2, 16, 0, 0), (2, 18, 1, 2)]))


def settings_of(path, *given):
    return metadata.settings_of(path and read_metadata(path), *given)


def refused(text, path, *given):
    assert reason(settings_of, path, *given) == text.replace("FILE", path)


def parameters(room, **known):
    return room.write("side.tbc.json", json.dumps({"videoParameters": known}))


def make(room, *statements, name="side.tbc.db"):
    pathlib.Path(room.named(name)).unlink(missing_ok=True)
    in_database(room.named(name), *statements)
    return room.named(name)


def test_json_taken_and_refused(room):
    for text, wanted in cells_of(PARAMETERS):
        known = {"black16bIre": 16384, "white16bIre": 51200, **json.loads(text.replace("LONG", "9" * 400))}
        path = parameters(room, **{name: value for name, value in known.items() if value != "-"})
        if wanted in ("NTSC", "PAL"):
            assert settings_of(path) == (wanted, 16384, 51200, ())
        else:
            refused(wanted.replace("NO METADATA", NO_METADATA), path)
    for data in (b"", b"{}", b"[]", b'{"videoParameters":3}', b"\xff", b"[" * 100000, b"SQLite format 2"):
        refused(NO_METADATA, room.write("other", data))
    with pytest.raises(FileNotFoundError):
        settings_of(room.named("absent"))


def test_levels_with_decimals(room):
    """A half goes upwards, also from an even number. What is rounded has to fit into a sample."""
    for value, rounded in ((16384.0, 16384), (16384.5, 16385), (16384.49, 16384), (65535.49, 65535), (-0.5, 0)):
        notes = () if value == rounded else ("white16bIre is %s, rounded to %d" % (value, rounded),)
        assert settings_of(parameters(room, system="PAL", black16bIre=1, white16bIre=value)) == (
            "PAL", 1, rounded, notes)


def test_given_instead(room):
    """Each of three, also of a file that has all of them. Its sizes have to be those of the given system."""
    path = parameters(room, system="SECAM", black16bIre="?", white16bIre=None)
    for file in (path, None):
        assert settings_of(file, "NTSC", 0, 2) == ("NTSC", 0, 2, ())
    refused("white level is no number", path, "NTSC", 1)
    path = parameters(room, system="PAL", black16bIre=100, white16bIre=200)
    for given, wanted in ((("NTSC",), ("NTSC", 100, 200)), ((None, 0), ("PAL", 0, 200)),
                          ((None, None, 0), ("PAL", 100, 0)), (("PAL", 3, 4), ("PAL", 3, 4))):
        assert settings_of(path, *given) == (*wanted, ())
    refused("fieldWidth is not 1135", parameters(room, system="NTSC", fieldWidth=910), "PAL")


def test_a_pipe():
    """As from a shell's <( ), whose first bytes may be few."""
    ours, theirs = os.pipe()
    os.write(theirs, b'{"videoPar')
    rest = b'ameters":{"system":"PAL","black16bIre":1,"white16bIre":2}}'
    threading.Timer(0.2, lambda: (os.write(theirs, rest), os.close(theirs))).start()
    assert settings_of("/dev/fd/%d" % ours) == ("PAL", 1, 2, ())
    os.close(ours)


def test_fields_and_what_lies_beside_a_file(room):
    for text, wanted in cells_of(FIELDS):
        text = text.replace("COUNT", '"videoParameters":{"numberOfSequentialFields":')
        found = read_metadata(room.write("meta.json", text))
        assert ("%s %s %s" % (found.fields, found.first, found.pad), found.dropouts) == (wanted, [])
    assert beside(room.path) is None
    for end in (".db", ".json"):
        room.write("side.tbc" + end, b"")
        assert beside(room.path) == room.path + end


def test_fields_of_databases(room):
    """Of one table, whatever its name is. If two have them, it isn't known which."""
    head = CAPTURE, (INSERT, ("PAL", 1, 2, 1135, 313, 640))
    for columns, values, wanted in cells_of(TABLES):
        table = "CREATE TABLE fields (%s)" % columns, "INSERT INTO fields VALUES " + values
        found = read_metadata(make(room, *head, *table))
        assert "%s %s %s" % (found.fields, found.first, found.pad) == wanted
    fields = "CREATE TABLE fields AS SELECT 7 AS field_id, 0 AS is_first_field UNION SELECT 5, 0 UNION SELECT 6, 1"
    for names, values, wanted in DROP_OUTS:
        table = "CREATE TABLE drop_outs (field_id, %s)" % names, *("INSERT INTO drop_outs VALUES (%s)" % one
                                                                   for one in values.split("; ") if one)
        assert read_metadata(make(room, *head, fields, *table)).dropouts == wanted
    assert read_metadata(make(room, *head, fields, *table, fields.replace("fields", "more", 1))).dropouts == []
    one, other = ("CREATE TABLE %s AS SELECT 1 AS field_id, 1 AS is_first_field" % name for name in ("a", '"a "" b"'))
    known = {"system": "PAL", "black16bIre": 1, "white16bIre": 2, "fieldWidth": 1135, "fieldHeight": 313,
             "numberOfSequentialFields": 640}
    assert read_metadata(make(room, *head, other))[1:] == (known, 1, [True], [], None)
    assert read_metadata(make(room, *head, one, other))[1:] == (known, 640, None, [], None)


def test_databases_taken_and_refused(room):
    """Size and count may be there, or not. Whatever the name of the file is, nothing is written."""
    for row, notes, fields in (
            (PAL, (), None), (("PAL", 1, 2, 1135, 313, 640), (), 640),
            (("PAL", 0.6, 2.0, *PAL[3:]), ("black16bIre is 0.6, rounded to 1",), None)):
        path = make(room, CAPTURE, (INSERT, row))
        assert (settings_of(path), read_metadata(path)[2:4]) == (("PAL", 1, 2, notes), (fields, None))
    for text, *statements in DATABASES:
        refused(text, make(room, *statements))
    for name in ("side?mode=rw#1 %41.db", "side.tbc.json", "ü.db"):
        path = make(room, CAPTURE, (INSERT, PAL), name=name)
        before = room.files()
        os.chmod(path, 0o400)
        assert settings_of(path) == ("PAL", 1, 2, ())
        assert room.files() == before


def test_how_a_database_is_opened(room):
    """As it is at one time, without a wait of SQLite's own, and with limits to what its file has SQLite do."""
    with database.opened(make(room, CAPTURE)) as known:
        assert [known.execute("PRAGMA " + name).fetchone() for name in (
            "trusted_schema", "cell_size_check", "busy_timeout")] == [(0,), (1,), (0,)]
        assert (known.in_transaction, known.getlimit(0)) == (True, 1 << 20)
    path = make(room, CAPTURE, (INSERT, PAL))
    for most, wanted in ((10000, None), (40, path + ": SQLite can't read it: interrupted")):
        with mock.patch.multiple(database, STEPS=20, MOST_STEPS=most):
            assert reason(read_metadata, path) == wanted


def test_an_unfinished_change_is_left_alone(room):
    """A database whose writer ended before it was done: the journal that is needed to undo the change is here."""
    path = make(room, CAPTURE, (INSERT, PAL), name="open.db")
    with contextlib.closing(sqlite3.connect(path, isolation_level=None)) as writer:
        writer.execute("PRAGMA cache_size = 1")
        writer.execute("BEGIN")
        writer.executemany(INSERT, [("x" * 100, *PAL[1:])] * 2000)
        copies = {end: room.read("open" + end) for end in (".db", ".db-journal")}
    for end, data in copies.items():
        room.write("copy" + end, data)
    said = reason(settings_of, room.named("copy.db"))
    assert "copy.db: SQLite can't read it: " in said
    assert said.endswith("; a change was left unfinished: to undo it, open the file once by the program sqlite3, and "
                         "ask for .tables")
    assert {end: room.read("copy" + end) for end in copies} == copies


def test_pipes_where_sqlite_looks(room):
    """It would wait for what nobody writes there, and heed no signal."""
    path = make(room, CAPTURE, (INSERT, PAL))
    for end in database.BESIDE:
        os.mkfifo(path + end)
        pipe = os.open(path + end, os.O_RDWR)  # so that nothing waits in any case
        refused("FILE%s is no file" % end, path)
        os.close(pipe)
        os.unlink(path + end)


def test_what_another_process_writes_is_waited_for(room):
    path = make(room, CAPTURE, (INSERT, PAL))
    with contextlib.closing(sqlite3.connect(path)) as other:
        other.execute("BEGIN EXCLUSIVE")
        with mock.patch.object(database, "WAIT", 0.2):
            refused("FILE: SQLite can't read it: database is locked", path)
        with mock.patch.object(database.time, "sleep", lambda _: other.rollback()):
            assert settings_of(path) == ("PAL", 1, 2, ())
