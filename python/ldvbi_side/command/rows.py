"""The table of `scan`: a row for each side, as text, as CSV or as JSON."""

import csv
import json
import sys
from typing import Any, Dict, List, Optional, Sequence

from ..join.discs import OneDisc
from ..outside import legible, printable, uncontrolled

VERSION = 2  # of the form of the JSON
# The columns, and the members of a row
COLUMNS = {"side": "side", "whole": "whole", "lost": "lost", "unread": "unread", "format": "format", "from": "from",
           "to": "to", "last": "last", "lead-in": "leadIn", "lead-out": "leadOut", "fields": "fields", "try": "try",
           "why": "reasons", "system": "system", "with": "with"}
FAULT = "fault"  # in the column `whole`, of a side that wasn't read
# Of the columns of the text between the first and `why`. It has none for `with`: the lines after the rows say it
_WIDTHS = {"whole": 10, "lost": 6, "unread": 6, "system": 6, "format": 7, "from": 10, "to": 10, "last": 10,
           "lead-in": 7, "lead-out": 8, "fields": 7, "try": 13}
Row = Dict[str, Any]


def row_of(path: str, said: Dict[str, Any], page: Optional[str]) -> Row:
    """The row of a side of which its page says this. `page` is None if none is written."""
    numbers, counts = said["numbers"], said["counts"]
    return {"side": path, "whole": said["whole"], "lost": counts["lost"], "unread": counts["unread"],
            "system": said["system"], "format": said["format"], "from": numbers["least"], "to": numbers["greatest"],
            "last": said["last"], "leadIn": said["leadIn"], "leadOut": said["leadOut"], "fields": said["fields"],
            "with": [], "try": said["try"], "reasons": [one["text"] for one in said["reasons"]], "fault": None,
            "page": page}


def fault_row(path: str, fault: str) -> Row:
    """The row of a side that wasn't read, which says why."""
    return {**dict.fromkeys(COLUMNS.values()), "side": path, "with": [], "reasons": [],
            "fault": legible(" ".join(fault.split())), "page": None}


def _cells(row):
    """The cells of a row by their columns, None if there is nothing to say."""
    is_fault = row["fault"] is not None
    return {**{column: row[member] for column, member in COLUMNS.items()}, "whole": FAULT if is_fault else row["whole"],
            "with": "; ".join(row["with"]) or None, "why": row["fault"] if is_fault else "; ".join(row["reasons"])}


class Table:
    """What prints rows."""

    def add(self, row: Row) -> None:
        """Prints a row, or keeps it for the end."""

    def end(self, discs: Sequence[OneDisc]) -> None:
        """Prints what comes after all rows. `discs` are the sides that may be captures of one disc."""


class Text(Table):
    """Rows in columns for a reader. The first column is as wide as the longest of these names, those of all sides to
    come."""

    def __init__(self, names: Sequence[str]) -> None:
        self._width = max(len(name) for name in [*names, "side"])
        self._print({column: column for column in COLUMNS})

    def add(self, row: Row) -> None:
        self._print({column: "-" if cell is None else printable(str(cell)) for column, cell in _cells(row).items()})

    def _print(self, cells):
        texts = [cells["side"].ljust(self._width), cells["whole"].ljust(_WIDTHS["whole"])]
        texts += [cells[column].rjust(width) for column, width in _WIDTHS.items() if column != "whole"]
        print("  ".join([*texts, cells["why"]]).rstrip(), flush=True)

    def end(self, discs: Sequence[OneDisc]) -> None:
        for one in discs:
            print(printable("%s: %s" % (one.text(), one.command())))


class Csv(Table):
    """Rows for scripts."""

    def __init__(self) -> None:
        self._table = csv.writer(sys.stdout, lineterminator="\n")
        self._table.writerow(COLUMNS)

    def add(self, row: Row) -> None:
        cells = _cells(row)
        names = {column: cells[column] and uncontrolled(cells[column]) for column in ("side", "with")}
        self._table.writerow({**cells, **names}.values())
        sys.stdout.flush()


class Json(Table):
    """All rows in one object, at the end."""

    def __init__(self) -> None:
        self._rows: List[Row] = []

    def add(self, row: Row) -> None:
        self._rows.append(row)

    def end(self, discs: Sequence[OneDisc]) -> None:
        print(json.dumps({"version": VERSION, "sides": self._rows, "discs": [one.as_json() for one in discs]}))
