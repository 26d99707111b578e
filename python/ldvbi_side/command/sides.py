"""The options by which each side of a scan is read: those of the command line, and in their place those that a table
has for single sides."""

import argparse
import csv
import os
import shlex
from typing import IO, Any, Dict, Iterator, List, Sequence, Set, Tuple

from ..outside import say
from .faults import OF_TBC, naming
from .parser import Parser, add_settings, settings_in

SIDE, TRY = "side", "try"
COLUMNS = (SIDE, "system", "black", "white", "meta", "last", "open_end", TRY)
FOUND = "whole"  # a column that only a scan's own table has: of that the others say what was found, but for TRY
YES, NO = ("yes", "1", "true"), ("", "no", "0", "false")


class _Words(Parser):
    """What reads the words of a table."""

    def error(self, message: str) -> Any:
        raise ValueError(message)


def settings_of_each(options: argparse.Namespace, paths: Sequence[str]) -> List[argparse.Namespace]:
    """The options by which each of these sides is read. A ValueError for a bad table, and for options of TBC files if
    there is none."""
    of_all = settings_in(options)
    own: Dict[str, Dict[str, Any]] = {}
    if options.sides:
        with naming(options.sides), \
                open(options.sides, encoding="utf-8-sig", errors="surrogateescape", newline="") as file:
            try:
                own = dict(_read(file, {os.path.realpath(path) for path in paths}, options.sides))
            except csv.Error as error:
                raise ValueError(str(error)) from None
    elif any(value is not None for value in (options.system, options.black, options.white)) and all(
            path.endswith(".json") for path in paths):
        raise ValueError("%s: %s" % (paths[0], OF_TBC))
    return [argparse.Namespace(**{**vars(of_all), **own.get(os.path.realpath(path), {})}) for path in paths]


def _read(file: IO[str], paths: Set[str], name: str) -> Iterator[Tuple[str, Dict[str, Any]]]:
    """The options of each of these sides that the table has, by its real path."""
    table = csv.reader(file)
    columns: List[str] = next(table, [])
    _refuse_columns(columns)
    first: Dict[str, int] = {}
    others = 0
    for cells in table:
        if not any(cells):
            continue
        if len(cells) != len(columns):
            raise ValueError("line %d has %d columns, and the first line %d" % (
                table.line_num, len(cells), len(columns)))
        row = dict(zip(columns, cells))
        side = os.path.realpath(row[SIDE])
        if side in first:
            raise ValueError("line %d, column side: %s stands in line %d, too" % (
                table.line_num, row[SIDE], first[side]))
        first[side] = table.line_num
        others += side not in paths
        if side in paths:
            yield side, dict(_options_in(row, table.line_num))
    if others:
        say("%s: %d of its sides %s in this scan" % (name, others, "isn't" if others == 1 else "aren't"))


def _refuse_columns(columns: List[str]) -> None:
    for place, name in enumerate(columns, 1):
        if name not in COLUMNS and FOUND not in columns or columns.index(name) < place - 1:
            raise ValueError("line 1, column %d: %r is none of %s, or stands twice" % (place, name, ", ".join(COLUMNS)))
    if SIDE not in columns:
        raise ValueError("line 1: there is no column side")


def _options_in(row: Dict[str, str], line: int) -> Iterator[Tuple[str, Any]]:
    """The options that a row has."""
    parser = _Words(add_help=False, allow_abbrev=False)
    add_settings(parser)
    unset = vars(parser.parse_args([]))
    for column in (TRY,) if FOUND in row else COLUMNS[1:]:
        try:
            known = vars(parser.parse_args(_words_in(column, row.get(column, ""))))
        except ValueError as error:
            raise ValueError("line %d, column %s: %s" % (line, column, error)) from None
        yield from ((name, value) for name, value in known.items() if value != unset[name])


def _words_in(column: str, cell: str) -> List[str]:
    """What a cell asks for, as words."""
    if column == TRY:
        return shlex.split(cell)
    if column == "open_end":
        if cell not in YES + NO:
            raise ValueError("neither yes nor no: %r" % cell)
        return ["--open-end"] * (cell in YES)
    return ["--%s=%s" % (column, cell)] if cell else []
