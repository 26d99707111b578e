"""Words into a copy of a database, in the form that newer versions of ld-decode have, as far as it is known here: its
rows, what else stays, which ones are refused, and signals that nobody can heed. And which fields it has."""

import contextlib
import itertools
import os
import pathlib
import resource
import signal
import sqlite3
import struct
import sys
import time
from unittest import mock

from captured import Disc, draw
from discs import pictures as rows_of_pictures
from ldvbi import database
from ldvbi.metadata import read_metadata
from ldvbi_side.into.rows import Rows
import pytest
from room import children, COMMAND, DEADLINE, in_database, reason

SAID = "as read"
FORM = """
CREATE TABLE capture (capture_id INTEGER PRIMARY KEY, system TEXT NOT NULL, field_width INTEGER,
    number_of_sequential_fields INTEGER, white_16b_ire INTEGER, black_16b_ire INTEGER, capture_notes TEXT);
CREATE TABLE field_record (capture_id INTEGER NOT NULL REFERENCES capture(capture_id) ON DELETE CASCADE,
    field_id INTEGER NOT NULL, disk_loc REAL, is_first_field INTEGER CHECK (is_first_field IN (0, 1)),
    median_burst_ire REAL, PRIMARY KEY (capture_id, field_id));
CREATE TABLE vbi (capture_id INTEGER NOT NULL, field_id INTEGER NOT NULL, vbi0 INTEGER NOT NULL, vbi1 INTEGER NOT NULL,
    vbi2 INTEGER NOT NULL, FOREIGN KEY (capture_id, field_id) REFERENCES field_record(capture_id, field_id)
    ON DELETE CASCADE, PRIMARY KEY (capture_id, field_id));
CREATE TABLE drop_outs (capture_id INTEGER NOT NULL, field_id INTEGER NOT NULL, startx INTEGER NOT NULL);
INSERT INTO capture VALUES (4, 'NTSC', 910, NULL, 51200, 16384, 'ü');
"""
ALL_WORDS = ("SELECT * FROM vbi ORDER BY field_id", "SELECT words FROM ldvbi_words")
GAPS = "the fields' numbers, field_id, leave some out, or have one twice"
TRIGGER = "CREATE TRIGGER one BEFORE INSERT ON %s BEGIN SELECT raise(ignore); END"


def words(count):
    return [(0x800000 + number, 0, 0xF00000 + number) for number in range(count)]


def make(room, *more, count=12, form=FORM, begin=0, name="side.tbc.db"):
    """The path of a database of so many fields, each third one of which has words, and what these statements make."""
    path, fields = room.named(name), []
    pathlib.Path(path).unlink(missing_ok=True)
    for number in range(begin, begin + count):
        fields += [("INSERT INTO field_record VALUES (4, ?, ?, ?, 17.25)", (number, number / 3, (number - begin) % 2)),
                   ("INSERT INTO drop_outs VALUES (4, ?, 100)", (number,))]
        if number % 3 == 0:
            fields.append("INSERT INTO vbi (capture_id, field_id, vbi0, vbi1, vbi2) VALUES (4, %d, -1, 5, 6)" % number)
    in_database(path, *form.split(";"), *fields, *more)
    return path


def copy(room, given, said=SAID, old="side.tbc.db", new="copy.db"):
    Rows(room.named(old)).copy(room.named(new), given, said)


def asked(room, *statements, name="copy.db"):
    return in_database(room.named(name), *statements)


def refused(room, text):
    assert reason(copy, room, words(12)) == "%s: %s" % (room.named("side.tbc.db"), text)


@pytest.mark.parametrize("begin", (0, 1, 100))
def test_each_field_has_a_row_and_all_else_is_the_same(room, begin):
    path = make(room, "INSERT INTO vbi VALUES (4, 150, 1, 2, 3, 'old')", "CREATE INDEX by_field ON vbi (field_id)",
                "PRAGMA user_version = 3", "CREATE VIEW words AS SELECT * FROM vbi", begin=begin,
                form=FORM.replace("vbi2 INTEGER NOT NULL,", "vbi2 INTEGER NOT NULL, note TEXT DEFAULT 'new',"))
    in_database(path, "UPDATE vbi SET note = 'old'")
    before, wanted = room.read(path), [(4, begin + place, *three, "new" if (begin + place) % 3 else "old")
                                       for place, three in enumerate(words(12))]
    all_else = ["PRAGMA user_version", "PRAGMA journal_mode", "PRAGMA foreign_key_check", *(
        "SELECT * FROM " + name for name in (
            "sqlite_master WHERE name <> 'ldvbi_words'", "capture", "field_record", "drop_outs"))]
    for old, new, said in (("side.tbc.db", "copy.db", "believed"), ("copy.db", "two.db", SAID)):
        copy(room, words(12), said, old, new)
        assert asked(room, *ALL_WORDS, name=new) == [[*wanted, (4, 150, 1, 2, 3, "old")], [(said,)]]
        assert asked(room, *all_else, name=new) == asked(room, *all_else, name="side.tbc.db")
    assert asked(room, "PRAGMA integrity_check") == [[("ok",)]]
    assert room.read(path) == before


def test_the_fields_are_those_of_the_table_vbi_where_no_other_has_them(room):
    path = make(room, count=0, form="CREATE TABLE vbi (field_id INT, vbi0 INT, vbi1 INT, vbi2 INT);"
                                    "INSERT INTO vbi VALUES (7, 1, 2, 3), (6, 1, 2, 3)")
    assert len(Rows(path)) == 2
    copy(room, words(2))
    assert asked(room, "SELECT * FROM vbi") == [[(7, *words(2)[1]), (6, *words(2)[0])]]


def test_rows_that_sqlite_counts_itself(room):
    """It notes in a table of its own the last of numbers that it gives."""
    make(room, "DROP TABLE vbi", "CREATE TABLE vbi (id INTEGER PRIMARY KEY AUTOINCREMENT, field_id, vbi0, vbi1, vbi2)")
    copy(room, words(12))
    assert asked(room, "SELECT field_id, vbi0, vbi1, vbi2 FROM vbi") == [[(n, *one) for n, one in enumerate(words(12))]]


def test_what_was_written_last_is_copied_too(room):
    """In a database with a log of its own, which another program still has open."""
    with contextlib.closing(sqlite3.connect(make(room))) as other:
        for statement in ("PRAGMA journal_mode = WAL", "UPDATE capture SET capture_notes = 'last'"):
            other.execute(statement)
        other.commit()
        copy(room, words(12))
        assert "side.tbc.db-wal" in room.names()
    assert asked(room, "SELECT capture_notes FROM capture") == [[("last",)]]
    assert room.names() == ["copy.db", "side.tbc.db"]


@pytest.mark.parametrize("text, form, count, more", (
    ("table vbi has no column vbi1; there are: capture_id, field_id, vbi0, b, vbi2",
     FORM.replace("vbi1 INTEGER NOT NULL", "b INTEGER"), 0, ()),
    (GAPS, FORM, 12, ["UPDATE field_record SET field_id = 20 WHERE field_id = 5"]),
    (GAPS, FORM, 11, ["INSERT INTO field_record VALUES (5, 5, 0, 1, 0)"]),
    (GAPS, "CREATE TABLE vbi (field_id INT, vbi0, vbi1, vbi2); INSERT INTO vbi VALUES (NULL, 1, 2, 3), (0, 1, 2, 3)",
     0, ()),
    ("SQLite can't copy it: no such column: capture_id", FORM.replace("(capture_id", "(a", 1), 9, ()),
    *(("its trigger one of the table %s may write something else" % table, FORM, 0, [TRIGGER % table])
      for table in ("vbi", "drop_outs")),
    ("its table vbi is a virtual table, whose code would run",
     FORM.replace("TABLE vbi (", "VIRTUAL TABLE vbi USING fts4("), 0, ()),
    *(("its table vbi has %s, whose code would run" % what, FORM.replace("vbi2 INTEGER NOT NULL", column), 0, more)
      for what, column, more in (
          ("a check", "vbi2 INTEGER CHECK (length(randomblob(900000000)) > 0)",
           ["CREATE INDEX one ON vbi (vbi1) WHERE vbi1 > 0"]),
          ("a generated column", "vbi2 INTEGER, a GENERATED ALWAYS AS (zeroblob(900000000)) STORED", ()),
          ("a generated column", "vbi2 INTEGER, a AS (length(vbi2))", ()),
          ("a default that is computed", "vbi2 INTEGER, a DEFAULT (randomblob(900000000))", ()),
          ("the index one, which is partial or on an expression", "vbi2 INTEGER",
           ["CREATE INDEX one ON vbi (length(vbi1))"]),
          ("the index one, which is partial or on an expression", "vbi2 INTEGER",
           ["CREATE INDEX one ON vbi (vbi1) WHERE length(vbi1) > 0"])))))
def test_refused_databases(room, text, form, count, more):
    """By their form, their fields, or statements after these."""
    make(room, *more, count=count, form=form)
    refused(room, text)


@pytest.mark.parametrize("statement, text", (
    ("UPDATE vbi SET vbi1 = 7 WHERE field_id = 3", "words in the row of field_id 3"),
    ("DELETE FROM vbi WHERE field_id = 11", "words in the row of field_id 11"),
    ("DELETE FROM drop_outs WHERE field_id = 3", "rows in the table drop_outs"),
    ("INSERT INTO capture (system) VALUES ('PAL')", "rows in the table capture"),
    ("DROP TABLE field_record", "rows in the table field_record"),
    ("UPDATE ldvbi_words SET words = 'believed'", "rows in the table ldvbi_words")))
def test_a_copy_of_rows_is_read_back(room, statement, text):
    """By what else the database may do, words could be others, or rows of another table gone or new."""
    fill = Rows._fill
    make(room)
    with mock.patch.object(Rows, "_fill", lambda self, new, *more: (
            fill(self, new, *more), new.execute(statement), new.commit())):
        refused(room, "its copy has other " + text)


def test_pages_that_stand_within_each_other(room):
    """Each page of a table is 60 times in the one above it: its rows are counted in steps, of which there are some."""
    path = make(room, "CREATE TABLE extra (a)")
    data, size = bytearray(room.read(path)), 4096
    last = len(data) // size
    root = in_database(path, "SELECT rootpage FROM sqlite_master WHERE name = 'extra'")[0][0][0]
    pages = [root, *range(last + 1, last + 12)]
    data += bytes(11 * size)
    for page, inner in zip(pages, pages[1:]):
        begin = size - 60 * 5
        struct.pack_into(">BHHHBI60H", data, (page - 1) * size, 5, 0, 60, begin, 0, inner, *range(begin, size, 5))
        data[page * size - 300:page * size] = b"".join(struct.pack(">IB", inner, row) for row in range(60))
    struct.pack_into(">BHHHBH", data, (pages[-1] - 1) * size, 13, 0, 1, size - 5, 0, size - 5)  # a row: a number
    data[-5:] = 3, 1, 2, 1, 7
    struct.pack_into(">I", data, 28, len(data) // size)
    room.write(path, data)
    with mock.patch.object(database, "MOST_STEPS", 20 * database.STEPS):
        refused(room, "SQLite can't copy it: interrupted")


# A program that is in a function for hours as soon as one of a module has been called
HELD = """
import hashlib, importlib, sys
from ldvbi_side.__main__ import main

name, module = sys.argv.pop(2), importlib.import_module(sys.argv.pop(1))
called = getattr(module, name)
setattr(module, name, lambda *given: (
    called(*given), print("held", flush=True), hashlib.pbkdf2_hmac("sha256", b"", b"", (1 << 31) - 1)))
sys.exit(main())
"""
# What has SQLite read in a table for minutes: each of its unique pairs of columns is compared with all others.
UNIQUE = ["CREATE TABLE extra (%s)" % ", ".join("a%d" % column for column in range(250)),
          "PRAGMA writable_schema = ON",
          ("UPDATE sqlite_master SET sql = replace(sql, ')', ?) WHERE name = 'extra'", (", %s)" % ", ".join(
              "UNIQUE (a%d, a%d)" % pair for pair in itertools.islice(itertools.permutations(range(250), 2), 50000)),))]


def bounded():
    """Has a process end that takes ten seconds of a processor, and heed Ctrl-C."""
    resource.setrlimit(resource.RLIMIT_CPU, (10, 10))
    signal.signal(signal.SIGINT, signal.SIG_DFL)


def seconds_in(process, path):
    """The processor's seconds of a process that has a file open; else none."""
    with contextlib.suppress(OSError):
        place = pathlib.Path("/proc/%d" % process)
        if path in [os.readlink(one) for one in (place / "fd").iterdir()]:
            return int((place / "stat").read_text("ascii").rsplit(")", 1)[1].split()[11]) / os.sysconf("SC_CLK_TCK")
    return 0


@pytest.mark.unrecorded
@pytest.mark.parametrize("number, words", (
    (signal.SIGINT, "ldvbi_side.into.rows _counts_of side.tbc --into copy.db"),
    (signal.SIGTERM, "ldvbi_side.write.rows _finish write out.tbc side.tbc"),
    (signal.SIGHUP, "side.tbc --meta long.db --into copy.db"),
    (signal.SIGINT, "scan --into copies --csv --meta long.db side.tbc")))
def test_signals_that_nobody_can_heed(room, number, words):
    """They end a process that is in one function for hours, and nothing is left."""
    draw(room.named("side.tbc"), Disc(rows_of_pictures(range(1, 9))), range(16), form="db")
    is_held = words.startswith("ldvbi_side")
    make(room, *UNIQUE * (not is_held), name="long.db")
    before = room.files()
    command = [sys.executable, "-c", HELD] if is_held else COMMAND
    process = room.started(*words.split(), command=command, preexec_fn=bounded, start_new_session=True)
    while not (is_held and process.stdout.readline() or max(
            seconds_in(one, room.named("long.db")) for one in (process.pid, *children(process.pid))) > 0.4):
        assert process.poll() is None
        time.sleep(0.01)
    assert len(room.files()) > len(before) or not is_held
    process.send_signal(number)
    assert (process.communicate(timeout=DEADLINE)[1], process.returncode) == (b"", 128 + number)
    assert {name: data for name, data in room.files().items() if data} == before


OWN = '"my ""own"" fields"'
TWO = "INSERT INTO %s VALUES (4, 0, 0, 0, 0), (4, 1, 0, 1, 0)"


@pytest.mark.parametrize("count, form, more, wanted, of_rows", (
    (4, FORM, [], (4, [False, True] * 2), 4),
    (4, FORM, ["UPDATE field_record SET field_id = 9 - field_id"], (4, [True, False] * 2), 4),
    (4, FORM, ["UPDATE field_record SET is_first_field = NULL WHERE field_id = 2"], (4, None), 4),
    (0, FORM.replace("field_record", OWN), [TWO % OWN], (2, [False, True]), 2),
    (0, FORM, [TWO % "field_record", "CREATE TABLE b AS SELECT * FROM field_record"], (640, None), 0)))
def test_the_fields_are_read(room, count, form, more, wanted, of_rows):
    """In their order, from one table alone, whatever its name is; else the count is that of the table capture."""
    path = make(room, *more, "UPDATE capture SET number_of_sequential_fields = 640", count=count, form=form)
    assert (read_metadata(path)[2:4], len(Rows(path))) == (wanted, of_rows)
