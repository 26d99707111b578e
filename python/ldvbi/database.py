"""ld-decode's metadata in SQLite, as newer versions keep it. A table `capture` has the columns `system`,
`black_16b_ire` and `white_16b_ire`, and perhaps the fields' size and count. A table of any name has the fields, with
the columns `field_id` and `is_first_field`. There may be a table `drop_outs`. This hasn't been tried on a file that
ld-decode itself made: none was at hand."""

import contextlib
import os
import pathlib
import re
import sqlite3
import time
from typing import Any, Callable, Dict, Iterable, Iterator, List, Optional

from .codes import LINES
from .dropouts import Dropout, told_dropouts

# The columns that are read, and the members of the JSON metadata that they stand for
_COLUMNS = {"system": "system", "black_16b_ire": "black16bIre", "white_16b_ire": "white16bIre"}
# Those of a dropout, after that of its field, likewise
_OF_DROPOUT = {"field_line": "fieldLine", "startx": "startx", "endx": "endx"}
STEPS = 10000  # of SQLite's own machine, after each of which signals are heeded
MOST_STEPS = 100000 * STEPS  # of one database: a hundred times what one of a million fields takes
MOST_LENGTH = 1 << 20  # bytes of a value, so that no step takes long
_LIMIT_LENGTH = 0  # SQLite's number of that limit
_FUNCTION = 31  # and of what calls a function
_OWN = ("count", "min", "max", "sum")  # which our own statements call, and none of which takes long for a row
BESIDE = ("-journal", "-wal", "-shm")  # the ends of the names of what SQLite reads and writes beside a database
WAIT = 5  # seconds for a database that another process writes to
_OPTIONAL = {"field_width": "fieldWidth", "field_height": "fieldHeight",
             "number_of_sequential_fields": "numberOfSequentialFields"}


def parameters_of_database(path: str) -> Dict[str, Any]:
    """The values of a database, under the names of the JSON metadata's videoParameters. A database of another form
    raises a ValueError."""
    with opened(path) as database:
        return _parameters(database)


def first_of_database(path: str) -> List[Any]:
    """Whether each field, in order, is the first one of its frame: true, false, or None if that isn't known. Empty if
    no table, or more than one, has the fields."""
    with opened(path) as database:
        values = column_of_fields(database, "is_first_field") or []
    return [bool(value) if value in (0, 1) else None for value in values]


def padding_of_database(path: str) -> List[int]:
    """Which fields are padding, counted from 0: those whose column `pad` is 1. There are none without this column."""
    with opened(path) as database:
        values = column_of_fields(database, "pad") if has_column_of_fields(database, "pad") else None
    return [place for place, value in enumerate(values or ()) if value == 1]


def dropouts_of_database(path: str) -> List[Dropout]:
    """The dropouts of lines 16, 17 and 18. There are none if the table `drop_outs` isn't as ld-decode makes it, or if
    no table, or more than one, has the fields."""
    with opened(path) as database:
        columns = ["field_id", *_OF_DROPOUT]
        if not set(columns) <= set(columns_of(database, "drop_outs")):
            return []
        rows = database.execute("SELECT %s FROM drop_outs WHERE field_line IN (%d, %d, %d)" % (
            ", ".join(columns), *LINES)).fetchall()
        fields = column_of_fields(database, "field_id") if rows else None
    told: Dict[Any, List[Any]] = {}
    for field, *one in rows:
        told.setdefault(field, []).append(one)
    return [dropout for place, field in enumerate(fields or []) if field in told
            for dropout in told_dropouts(place, dict(zip(_OF_DROPOUT.values(), zip(*told[field]))))]


@contextlib.contextmanager
def opened(path: str) -> Iterator[sqlite3.Connection]:
    """The database in this file, to read it as it is now. If something is wrong with it, a ValueError names the
    file."""
    _refuse_no_files(path)
    address = pathlib.Path(path).absolute().as_uri() + "?mode=ro"
    try:
        with contextlib.closing(sqlite3.connect(address, uri=True, timeout=0, isolation_level=None)) as database:
            limit_steps(database)
            database.execute("BEGIN")
            _patiently(lambda: database.execute("SELECT count(*) FROM sqlite_master"))
            yield database
    except sqlite3.Error as error:
        raise ValueError("%s: SQLite can't read it: %s%s" % (path, error, _advice(path))) from None
    except ValueError as error:
        raise ValueError("%s: %s" % (path, error)) from None


def _refuse_no_files(path):
    """Raises a ValueError if a pipe or a device stands where SQLite looks for what belongs to a database: it might wait
    for that for ever, and no signal would end it."""
    for end in BESIDE:
        name = os.path.realpath(path) + end
        if os.path.exists(name) and not os.path.isfile(name):
            raise ValueError("%s is no file" % (path + end))


def _advice(path):
    """What to do if a process has left a change unfinished, which only a writer of the file can undo."""
    if not os.path.exists(path + "-journal"):
        return ""
    return "; a change was left unfinished: to undo it, open the file once by the program sqlite3, and ask for .tables"


def limit_steps(database: sqlite3.Connection) -> None:
    """Has SQLite heed signals while it runs, and stop what would never end, as a view in the file may. What the file
    has it do may call no function, of which one can take hours, and make no value that is longer than any of
    ld-decode's."""
    database.execute("PRAGMA trusted_schema = OFF")
    database.set_authorizer(_may)
    database.execute("PRAGMA cell_size_check = ON")
    if hasattr(database, "setlimit"):  # from Python 3.11 on
        database.setlimit(_LIMIT_LENGTH, MOST_LENGTH)
    left = iter(range(MOST_STEPS // STEPS))
    sqlite3.enable_callback_tracebacks(True)  # so that a signal that comes in the next function isn't lost
    database.set_progress_handler(lambda: next(left, None) is None, STEPS)


def _may(action: int, _: Any, function: Any, *more: Any) -> int:
    """Whether SQLite may do this: call no function but those of our own statements."""
    return sqlite3.SQLITE_DENY if action == _FUNCTION and function not in _OWN else sqlite3.SQLITE_OK


def _patiently(read: Callable[[], Any]) -> None:
    """Reads from a database, for which another process may have to end what it writes. SQLite itself would wait without
    heeding signals."""
    end = time.monotonic() + WAIT
    while True:
        try:
            read()
            return
        except sqlite3.OperationalError as error:
            if "locked" not in str(error) or time.monotonic() > end:
                raise
        time.sleep(0.05)


def tables_of(database: sqlite3.Connection) -> List[str]:
    """The names of the tables."""
    return [name for name, in database.execute("SELECT name FROM sqlite_master WHERE type = 'table' ORDER BY name")]


def columns_of(database: sqlite3.Connection, table: str) -> List[str]:
    """The names of a table's columns; none if there is no such table."""
    return [row[1] for row in database.execute("PRAGMA table_info(%s)" % quoted(table))]


def column_of_fields(database: sqlite3.Connection, column: str) -> Optional[List[Any]]:
    """The values of a column, in the order of the fields, from the one table that has the fields; None if no table has
    them, or more than one."""
    table = table_of_fields(database)
    if table is None:
        return None
    return [value for value, in database.execute("SELECT %s FROM %s ORDER BY field_id" % (column, quoted(table)))]


def table_of_fields(database: sqlite3.Connection) -> Optional[str]:
    """The name of the one table that has the fields; None if no table has them, or more than one."""
    tables = [table for table in tables_of(database)
              if {"field_id", "is_first_field"} <= set(columns_of(database, table))]
    return tables.pop() if len(tables) == 1 else None


def has_column_of_fields(database: sqlite3.Connection, column: str) -> bool:
    """Whether that table has a column."""
    table = table_of_fields(database)
    return table is not None and column in columns_of(database, table)


# What stands in SQL as it is: texts, names in quotes, and comments
_APART = re.compile(r"""'(?:[^']|'')*'|"(?:[^"]|"")*"|`[^`]*`|\[[^]]*\]|--[^\n]*|/\*.*?(?:\*/|\Z)""", re.S)


def refuse_code(database: sqlite3.Connection, table: str) -> None:
    """Raises a ValueError if writing to a table runs what its file has: a trigger, a check, a generated column, a
    default that is computed, or an index that is partial or on an expression. It may write something else, or make
    SQLite work for so long that no signal is heeded."""
    for name, of_table in database.execute("SELECT name, tbl_name FROM sqlite_master WHERE type = 'trigger'"):
        raise ValueError("its trigger %s of the table %s may write something else" % (name, of_table))
    text, = database.execute("SELECT sql FROM sqlite_master WHERE type = 'table' AND name = ?", (table,)).fetchone()
    plain = _APART.sub(" ", text).upper()
    found = [what for what, is_there in (
        ("is a virtual table", re.match(r"\s*CREATE\s+VIRTUAL\b", plain)),
        ("has a check", re.search(r"\bCHECK\b", plain)),
        ("has a generated column", re.search(r"\b(?:GENERATED|AS)\s*(?:ALWAYS\s+AS\s*)?\(", plain)),
        ("has a default that is computed", re.search(r"\bDEFAULT\s*\(", plain))) if is_there]
    for _, index, _, _, is_partial in database.execute("PRAGMA index_list(%s)" % quoted(table)).fetchall():
        columns = database.execute("PRAGMA index_xinfo(%s)" % quoted(index)).fetchall()
        if is_partial or any(column[1] == -2 for column in columns):
            found.append("has the index %s, which is partial or on an expression" % index)
    if found:
        raise ValueError("its table %s %s, whose code would run" % (table, found[0]))


def quoted(name: str) -> str:
    """A table's name as an SQL statement has it."""
    return '"%s"' % name.replace('"', '""')


def _parameters(database):
    columns = columns_with(database, "capture", _COLUMNS)
    known = dict(_COLUMNS, **{column: name for column, name in _OPTIONAL.items() if column in columns})
    rows = database.execute("SELECT %s FROM capture LIMIT 2" % ", ".join(known)).fetchall()
    if len(rows) != 1:
        raise ValueError("table capture has %s, not one" % ("more rows" if rows else "no row"))
    # a column that isn't filled is as good as one that isn't there, but for the three that are needed
    return {name: value for name, value in zip(known.values(), rows[0])
            if value is not None or name in _COLUMNS.values()}


def columns_with(database: sqlite3.Connection, table: str, wanted: Iterable[str]) -> List[str]:
    """The names of a table's columns. The table has to be there, with these columns."""
    tables = tables_of(database)
    if table not in tables:
        raise ValueError("no table %s; there are: %s" % (table, _listed(tables)))
    columns = columns_of(database, table)
    missing = [column for column in wanted if column not in columns]
    if missing:
        raise ValueError("table %s has no column %s; there are: %s" % (table, missing[0], _listed(columns)))
    return columns


def _listed(names):
    return ", ".join(names) or "none"
