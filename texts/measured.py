"""The tables of docs/MEASURED.md, cut from the files that the measuring scripts wrote."""

import functools
import re
from typing import Dict, Tuple

from numbers_of import read

PAGE = "docs/MEASURED.md"


def cut(path: str, mark: str) -> str:
    """Returns a table with the rows that the page has, as the file has them: of a table with the same head the rows
    whose first cell is the same."""
    measured: Dict[Tuple[str, str], str] = {}
    head, lines = "", read(path).split("\n")
    for line, below in zip(lines, lines[1:]):
        head = line if below.startswith("|---") else head
        measured[head, line[:line.find(" |")]] = line
    there = re.search(r"^<!-- from %s: %s -->\n\n(.*?)^<!-- to here -->" % (re.escape(path), mark), read(PAGE),
                      re.M | re.S)
    head, rule, *rows = there[1].strip().split("\n")
    missing = [row for row in rows if (head, row[:row.find(" |")]) not in measured]
    if missing:
        raise SystemExit("write: %s has no row '%s'" % (path, missing[0]))
    return "\n%s\n\n" % "\n".join([head, rule, *(measured[head, row[:row.find(" |")]] for row in rows)])


# The tables by their marks, and who measured them
TABLES = {"lines": "peers", "ntsc": "channel_ntsc", "pal": "channel_pal"}
PARTS = {PAGE: {mark: ("docs/measured/%s.txt" % name, functools.partial(cut, "docs/measured/%s.txt" % name, mark))
                for mark, name in TABLES.items()}}
