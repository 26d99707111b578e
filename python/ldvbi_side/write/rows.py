"""The metadata of an output as a database: the tables of the first capture's. Rows of a field, in whatever table, come
from the capture from which the field is taken."""

import contextlib
import pathlib
import sqlite3
from typing import Any, Dict, Iterator, List, Mapping, Optional, Sequence, Tuple

from ldvbi.database import columns_of, limit_steps, opened, quoted, table_of_fields, tables_of
from .inputs import Input
from .kept import counts_at, fields_of
from .plan import Plan
from .sources import Source

_KEPT = ("CREATE TEMP TABLE kept (out INTEGER PRIMARY KEY, source INTEGER, field INTEGER, is_first INTEGER, "
         "phase INTEGER, vbi0 INTEGER, vbi1 INTEGER, vbi2 INTEGER, audio INTEGER, efm INTEGER)")
_OF_CAPTURE = "(SELECT capture_id FROM main.capture)"
# The columns of a row of padding, and what stands there
_PADDING = {"field_id": "out", "capture_id": _OF_CAPTURE, "is_first_field": "is_first", "field_phase_id": "phase",
            "pad": "1", "audio_samples": "audio", "efm_t_values": "efm", "sync_conf": "0", "median_burst_ire": "0",
            "decode_faults": "0"}


def refuse_other_form(path: str) -> None:
    """Raises a ValueError if a database has a trigger, which may write something else, or isn't as ld-decode makes it:
    with a row for each field, numbered one after the other."""
    with opened(path) as database:
        for name, table in database.execute("SELECT name, tbl_name FROM sqlite_master WHERE type = 'trigger'"):
            raise ValueError("its trigger %s of the table %s may write something else" % (name, table))
        if not {"field_id", "vbi0", "vbi1", "vbi2"} <= set(columns_of(database, "vbi")):
            raise ValueError("no table vbi with field_id, vbi0, vbi1 and vbi2")
        table = table_of_fields(database)
        if table is None:
            raise ValueError("no table, or more than one, has the fields")
        count, different, first, last = database.execute(
            "SELECT count(*), count(DISTINCT field_id), min(field_id), max(field_id) FROM %s" % quoted(
                table)).fetchone()
        if not count or not count == different == last - first + 1:
            raise ValueError("the fields' numbers, field_id, leave some out, or have one twice")


def write_rows(path: str, made: Plan, sources: Sequence[Source], inputs: Sequence[Input],
               sizes: Mapping[str, Sequence[int]]) -> None:
    """Writes the whole database. `sizes` are the bytes of sound that each field of the output has."""
    try:
        with contextlib.closing(sqlite3.connect(path, uri=True, isolation_level=None)) as new:
            limit_steps(new)
            new.execute("PRAGMA synchronous = OFF")  # the file is synced as a whole at the end
            new.execute("PRAGMA temp_store = MEMORY")
            new.execute(_KEPT)
            bases = [_base_of(one.metadata) for one in inputs]
            new.executemany("INSERT INTO temp.kept VALUES (?, ?, ?, ?, ?, ?, ?, ?, ?, ?)",
                            _kept_rows(made, sources, inputs, sizes, bases))
            new.execute("CREATE INDEX temp.by_field ON kept (source, field)")
            tables: Dict[str, List[str]] = {}
            for place, one in enumerate(inputs):
                with _attached(new, one.metadata):
                    tables = tables or _copied_tables(new)
                    _copy_rows(new, tables, place)
            new.execute("BEGIN")
            _finish(new, tables, made.fields)
            new.execute("COMMIT")
    except sqlite3.Error as error:
        raise ValueError("SQLite can't write the metadata: %s" % error) from None


def _base_of(path: str) -> int:
    """The number of a database's first field."""
    with opened(path) as database:
        base, = database.execute("SELECT min(field_id) FROM %s" % quoted(str(table_of_fields(database)))).fetchone()
    return int(base)


def _kept_rows(made: Plan, sources: Sequence[Source], inputs: Sequence[Input], sizes: Mapping[str, Sequence[int]],
               bases: List[int]) -> Iterator[Tuple[Any, ...]]:
    for kept in fields_of(made, sources):
        words: Sequence[int] = (0, 0, 0)
        field: Optional[int] = None
        if kept.source is not None:
            assert kept.field is not None
            words = inputs[kept.source].words[3 * kept.field - 3:3 * kept.field]
            field = kept.field - 1 + bases[kept.source]
        yield (kept.out - 1 + bases[0], kept.source, field, kept.is_first, kept.phase, *words,
               *counts_at(kept, sizes).values())


@contextlib.contextmanager
def _attached(new: sqlite3.Connection, path: str) -> Iterator[None]:
    """Has a database at hand as `old`, in a transaction that only reads it."""
    new.execute("ATTACH ? AS old", (pathlib.Path(path).absolute().as_uri() + "?mode=ro",))
    new.execute("BEGIN")
    yield
    new.execute("COMMIT")
    new.execute("DETACH old")


def _copied_tables(new: sqlite3.Connection) -> Dict[str, List[str]]:
    """Makes the old database's tables and indexes, and copies those rows that are of no field. The answer is the
    columns of each table."""
    for name, statement in new.execute("SELECT name, sql FROM old.sqlite_master WHERE type IN ('table', 'index') AND "
                                       "sql IS NOT NULL").fetchall():
        if not name.startswith("sqlite_"):
            new.execute(statement)
    tables = {name: columns_of(new, name) for name in tables_of(new) if not name.startswith("sqlite_")}
    for name, columns in tables.items():
        if "field_id" not in columns:
            new.execute("INSERT INTO main.{0} SELECT * FROM old.{0}".format(quoted(name)))
    return tables


def _copy_rows(new: sqlite3.Connection, tables: Dict[str, List[str]], place: int) -> None:
    """Copies the rows of the fields that are taken from the capture of this index."""
    replaced = {"field_id": "kept.out", "capture_id": _OF_CAPTURE}
    for name, columns in tables.items():
        if "field_id" in columns:
            values = ", ".join(replaced.get(column, "one." + quoted(column)) for column in columns)
            new.execute("INSERT INTO main.{0} ({1}) SELECT {2} FROM old.{0} AS one JOIN temp.kept ON kept.source = ? "
                        "AND kept.field = one.field_id ORDER BY kept.out".format(
                            quoted(name), ", ".join(map(quoted, columns)), values), (place,))


def _finish(new: sqlite3.Connection, tables: Dict[str, List[str]], fields: int) -> None:
    """Adds the rows of padding, and sets the words and the count of fields."""
    table = str(table_of_fields(new))
    columns = [column for column in tables[table] if column in _PADDING]
    new.execute("INSERT INTO main.%s (%s) SELECT %s FROM temp.kept WHERE source IS NULL" % (
        quoted(table), ", ".join(map(quoted, columns)), ", ".join(_PADDING[column] for column in columns)))
    of_capture = "capture_id, " * ("capture_id" in tables["vbi"])
    new.execute("INSERT INTO main.vbi (%sfield_id, vbi0, vbi1, vbi2) SELECT %sout, 0, 0, 0 FROM temp.kept "
                "WHERE out NOT IN (SELECT field_id FROM main.vbi)" % (
                    of_capture, of_capture.replace("capture_id", _OF_CAPTURE)))
    new.execute("UPDATE main.vbi SET (vbi0, vbi1, vbi2) = (SELECT vbi0, vbi1, vbi2 FROM temp.kept "
                "WHERE out = vbi.field_id)")
    for column, value in (("number_of_sequential_fields", fields), ("is_mapped", 1)):
        if column in tables["capture"]:
            new.execute("UPDATE main.capture SET %s = ?" % column, (value,))
