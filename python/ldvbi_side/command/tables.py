"""A side as tables: the rows of --csv and of --bad-lines."""

import csv
import sys
from typing import IO, Any, Dict, Iterable, Iterator, List, Optional, Sequence, Tuple

from ldvbi import Kind, format_of
from ldvbi.codes import LINES, code_of, name_of, value_of
from ..answer.entries import Answer, frame_of
from ..judge.paces import minute_text
from ..near import measured
from ..outside import uncontrolled
from ..side import Side

# The columns with what they hold, which docs/ANSWER.md has from here
FIELD_COLUMNS = {
    "field": "a field with a word", "frame": "its frame", "format": "by the field's own codes, as `show` has it",
    "picture": "as believed: a doubtful field has none", "chapter": "likewise", "time": "likewise",
    "stop": "`stop` if one is believed", "doubt": "each word that was set aside, and why",
    "status": "line 16's programme status, as `show` has it", "users": "its users' code, likewise",
    "unknown": "the words that are no code",
}
BAD_LINE_COLUMNS = {
    "field": "the line's field", "line": "16, 17 or 18", "cause": "as in the document",
    "offset": "the line's first byte in the TBC file",
    "nearest": "the word nearest to the line alone, or `-` if black is as near",
    "distance": "how far the line is from it; a column with the other level counts 70",
    "rival": "how far it is from any other word, likewise",
}
NONE = "-"  # of a line to which the row of no word is as near as any


def print_rows(columns: Iterable[str], rows: Iterable[Sequence[Any]], file: Optional[IO[str]] = None) -> None:
    """Prints a table as CSV, to standard output if no file is given. Control characters of names are escaped."""
    table = csv.writer(file or sys.stdout, lineterminator="\n")
    table.writerow(columns)
    table.writerows([uncontrolled(cell) if isinstance(cell, str) else cell for cell in row] for row in rows)


def field_rows(side: Side) -> Iterator[List[Any]]:
    """A row for each field with any word: what is believed of it, then, in the column `doubt`, what isn't, and last the
    words that are no code."""
    answer = side.analysis.answer
    numbers = _numbers_by_field(answer)
    doubts = _doubts_by_field(answer)
    stops = {one.field for one in answer.stops}
    for field, readings in side.numbered():
        words = [reading.word for reading in readings]
        codes = [code_of(word) for word in words]
        if not any(words):
            continue
        doubtful = doubts.get(field, {})
        said = {code.kind: value_of(code) for line, code in zip(LINES, codes) if code and line not in doubtful}
        number = numbers.get(field, "")
        yield [field, frame_of(field, answer.frame_begin), format_of(*words).name,
               number if answer.unit == "picture" else "", said.get(Kind.chapter, ""),
               "" if answer.unit == "picture" else number or _minute_of(said), "stop" if field in stops else "",
               "; ".join(doubtful.values()), _status_of(codes[0]), _users_of(codes[0]), _unknown_of(codes, words)]


def _status_of(code):
    """The programme status of line 16's code, as `show` has it."""
    if not code or code.kind not in (Kind.cx_on, Kind.cx_off):
        return ""
    return "%s %03X" % (name_of(code.kind), code.first)


def _users_of(code):
    return "%d %03X" % (code.first, code.second) if code and code.kind == Kind.users else ""


def _unknown_of(codes, words):
    return "; ".join("%06X on line %d" % (word, line) for line, code, word in zip(LINES, codes, words)
                     if code and code.kind == Kind.other)


def _numbers_by_field(answer):
    """The number of each field that shows one. A minute stands in the fields that say it."""
    if answer.unit == "minute":
        return {}
    return {field: number for number, first, last in answer.showings for field in range(first, last + 1)}


def _minute_of(said):
    minutes = said.get(Kind.time)
    return "" if minutes is None else minute_text(minutes)


def _doubts_by_field(answer: Answer) -> Dict[int, Dict[int, str]]:
    """Of each field the lines whose word isn't believed, each with a text that says why."""
    found: Dict[int, Dict[int, str]] = {}
    for one in answer.doubtful:
        number = "" if one.number is None else " %s" % one.number
        found.setdefault(one.field, {})[one.line] = _doubt_text(one, number)
    for stray in answer.stray:
        found.setdefault(stray.field, {})[stray.line] = _doubt_text(stray, "")
    return found


def _doubt_text(one, number):
    return "%s%s on line %d, pass %d: %s" % (name_of(one.kind), number, one.line, one.pass_, one.why)


def bad_line_rows(side: Side) -> Iterator[List[Any]]:
    """A row for each line that shows no word of its own and isn't blank: its place in the TBC file, in bytes, its
    nearest word, and the distance of that and of its rival, in hundredths of a column. These are empty if the samples
    aren't at hand."""
    for one in side.analysis.answer.bad_lines:
        near: Tuple[Any, ...] = ("", "", "")
        if side.samples:
            word, *distances = measured(side.samples, one.field, one.line)
            near = (NONE if word is None else "%06X" % word, *distances)
        yield [one.field, one.line, one.cause, one.offset, *near]
