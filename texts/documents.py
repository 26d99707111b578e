"""The lists of the documents that the source makes: columns of tables."""

import textwrap
from typing import Any, Dict, Iterable, Tuple

import measured
import numbers_of


def items(rows: Iterable[Tuple[str, str]]) -> str:
    """A list of names, each with what it means."""
    return "\n%s\n" % "".join(textwrap.fill("- %s: %s" % row, 120, subsequent_indent="  ", break_long_words=False,
                                           break_on_hyphens=False) + "\n" for row in rows)


def code(text: Any) -> str:
    return "`%s`" % text


# ---- columns

def columns(names: Dict[str, str]) -> str:
    return items((code(name), text) for name, text in names.items())


def columns_of_fields() -> str:
    from ldvbi_side.command.tables import FIELD_COLUMNS
    return columns(FIELD_COLUMNS)


def columns_of_bad_lines() -> str:
    from ldvbi_side.command.tables import BAD_LINE_COLUMNS
    return columns(BAD_LINE_COLUMNS)


def columns_of_map() -> str:
    from ldvbi_side.command.map import COLUMNS
    return columns(COLUMNS)


def columns_of_scan() -> str:
    from ldvbi_side.command.rows import COLUMNS
    return "\n%s\n\n" % code(",".join(COLUMNS))


# The parts of each document: where they stand in the source, and what makes them
PARTS = {
    "docs/FORMATS.md": {
        "map": ("python/ldvbi_side/command/map.py", columns_of_map),
        "scan": ("python/ldvbi_side/command/rows.py", columns_of_scan),
    },
    "include/ldvbi.h": {"systems": ("specs", numbers_of.systems)},
    "docs/ANSWER.md": {
        "csv": ("python/ldvbi_side/command/tables.py", columns_of_fields),
        "bad_lines": ("python/ldvbi_side/command/tables.py", columns_of_bad_lines),
    },
    **measured.PARTS,
}
