"""A database of ld-decode's metadata, copied with the words of its fields. The table `vbi` has a row for each field. A
table of its own, which no reader of ld-decode's looks for, says which words these are."""

import array
import contextlib
import sqlite3
from typing import Dict, Iterable, Iterator

from ldvbi.database import column_of_fields, columns_with, limit_steps, opened, quoted, refuse_code, tables_of
from .field import Words

_WORDS = "CREATE TEMP TABLE words (field_id INTEGER PRIMARY KEY, vbi0 INTEGER, vbi1 INTEGER, vbi2 INTEGER)"
_UPDATE = """UPDATE main.vbi SET (vbi0, vbi1, vbi2) = (
    SELECT vbi0, vbi1, vbi2 FROM temp.words WHERE words.field_id = main.vbi.field_id)
    WHERE field_id IN (SELECT field_id FROM temp.words)"""
_INSERT = """INSERT INTO main.vbi (%sfield_id, vbi0, vbi1, vbi2) SELECT %sfield_id, vbi0, vbi1, vbi2 FROM temp.words
    WHERE field_id NOT IN (SELECT field_id FROM main.vbi)"""
_SAID = "ldvbi_words"
_SAY = ("CREATE TABLE IF NOT EXISTS main.%s (words TEXT NOT NULL)" % _SAID, "DELETE FROM main." + _SAID)


class Rows:
    """The fields of a database: those of the table that says which fields begin a frame, or else of the table `vbi`. A
    database of another form raises a ValueError, and so does one that runs code of its own when it is written to."""

    def __init__(self, path: str) -> None:
        self._path = path
        with opened(path) as database:
            self._columns = columns_with(database, "vbi", ("field_id", "vbi0", "vbi1", "vbi2"))
            for table in {"vbi", _SAID} & set(tables_of(database)):
                refuse_code(database, table)
            fields = column_of_fields(database, "field_id")
            if fields is None:
                fields = [field for field, in database.execute("SELECT field_id FROM vbi ORDER BY field_id")]
        if fields and (not isinstance(fields[0], int) or fields != list(range(fields[0], fields[0] + len(fields)))):
            raise ValueError("%s: the fields' numbers, field_id, leave some out, or have one twice" % path)
        self._fields = fields

    def __len__(self) -> int:
        return len(self._fields)

    def copy(self, path: str, words: Iterable[Words], said: str) -> None:
        """Makes a copy of the database. Each field in turn has these words there, with what is said of them. All of
        them are written in one transaction. The other columns of a row that exists stay as they are."""
        of_capture = ("", "")
        if "capture_id" in self._columns:
            of_capture = ("capture_id, ", "(SELECT capture_id FROM main.capture), ")
        written = array.array("I")
        with opened(self._path) as old, contextlib.closing(sqlite3.connect(path)) as new:
            try:
                # signals are heeded between some pages and the next ones
                old.backup(new, pages=1000, progress=lambda *_: None)
                limit_steps(new)
                wanted = _counts_of(new)
                self._fill(new, _noted(words, written), _INSERT % of_capture, said)
            except sqlite3.Error as error:
                raise ValueError("SQLite can't copy it: %s" % error) from None
        with opened(path) as database:
            other = self._other(database, written, wanted, said)
        if other:
            raise ValueError("%s: its copy has other %s" % (self._path, other))

    def _fill(self, new, words, insert, said):
        new.execute("PRAGMA temp_store = MEMORY")
        new.execute(_WORDS)
        with new:
            new.executemany("INSERT INTO temp.words VALUES (?, ?, ?, ?)", (
                (field, *three) for field, three in zip(self._fields, words)))
            new.execute(_UPDATE)
            new.execute(insert)
            for statement in _SAY:
                new.execute(statement)
            new.execute("INSERT INTO main.%s (words) VALUES (?)" % _SAID, (said,))

    def _other(self, database, written, wanted, said):
        """What the copy has otherwise: whatever the database has that isn't known here, all words are to be in it, with
        what is said of them, and its other tables are to be as long. None if nothing is."""
        rows = database.execute("SELECT field_id, vbi0, vbi1, vbi2 FROM vbi ORDER BY field_id")
        known = {field: tuple(three) for field, *three in rows}
        for place, field in enumerate(self._fields):
            if known.get(field) != tuple(written[3 * place:3 * place + 3]):
                return "words in the row of field_id %d" % field
        if database.execute("SELECT words FROM " + _SAID).fetchall() != [(said,)]:
            return "rows in the table " + _SAID
        found = _counts_of(database)
        return next(("rows in the table " + table for table, count in wanted.items()
                     if table not in ("vbi", _SAID) and found.get(table) != count), None)


def _noted(words: Iterable[Words], written: "array.array[int]") -> Iterator[Words]:
    """The words, as they are written."""
    for three in words:
        written.extend(three)
        yield three


def _counts_of(database: sqlite3.Connection) -> Dict[str, int]:
    """How many rows each table has. Without a condition to count is one step, in which nothing can be stopped."""
    return {table: count for table in tables_of(database) if not table.startswith("sqlite_")
            for count, in database.execute("SELECT count(*) FROM %s WHERE 1" % quoted(table))}
