"""The map of a side, with which a player seeks without reading the side again. docs/FORMATS.md has its form."""

from typing import Any, Dict, Iterator, Optional, Sequence, Tuple

from ldvbi.readings import Levels
from ..answer.entries import Answer, frame_of
from ..join.captures import Capture
from ..join.entries import Joined

# The columns with what they hold, which docs/FORMATS.md has from here
COLUMNS = {
    "kind": "`system`, `black`, `white`, `fields`; `picture`, `time` or `minute`; `chapter`; `stop`",
    "number": "what `kind` counts, as `--seek` takes it; for `stop` its picture; `-` if it isn't known",
    "field": "the first field, from 1", "frame": "its frame, from 1",
    "how": "`side` for the whole side; `read` if the field shows the number; if it is only due there, `near` if the "
           "lines' nearest word says it, else `neighbours`; `unsure` for a stop on one worn line",
}
SOURCE = "source"  # the column that a map of several captures has besides
NONE = "-"  # the number of a stop if no number is near, and a level that isn't known


def head_rows(answer: Answer, levels: Optional[Levels]) -> Iterator[Tuple[Any, ...]]:
    """A row each for the system, for black, for white and for the count of fields, with which a player reads the
    samples."""
    black, white = levels or (NONE, NONE)
    head = {"system": answer.system, "black": black, "white": white, "fields": answer.fields}
    for kind, said in head.items():
        yield kind, said, 1, frame_of(1, answer.frame_begin), "side"


def map_rows(answer: Answer) -> Iterator[Tuple[Any, ...]]:
    """A row for each number that `--seek` finds, by number, then one for each chapter and for each picture stop, by
    field. `how` is `read` if the field shows the number, `near` if it was due there and is the nearest word, and
    `neighbours` if it is only due."""
    begin, unit = answer.frame_begin, answer.unit
    confirmed = set(answer.confirmed)
    places: Dict[Any, Tuple[int, str]] = {}
    for number, field, _ in answer.showings:
        places.setdefault(number, (field, "near" if field in confirmed else "read"))
    for one in answer.unread:
        places.setdefault(one.number, (one.field, "neighbours"))
    for number, (field, how) in sorted(places.items()):
        yield unit, number, field, frame_of(field, begin), how
    for chapter in answer.chapters:
        yield "chapter", chapter.chapter, chapter.field, chapter.frame, "read"
    stops = [(one, "read") for one in answer.stops] + [(one, "unsure") for one in answer.unsure_stops]
    for stop, how in sorted(stops, key=lambda pair: pair[0].field):
        yield "stop", NONE if stop.number is None else stop.number, stop.field, stop.frame, how


def joined_rows(joined: Joined, captures: Sequence[Capture]) -> Iterator[Tuple[Any, ...]]:
    """The rows of several captures, each with the name of one at its end: the head of each capture, then each number
    where it is taken, and where that one's chapters and stops are."""
    for one in captures:
        for row in head_rows(one.answer, one.levels):
            yield (*row, one.name)
    for taken in joined.taken:
        yield joined.unit, taken.number, taken.field, taken.frame, taken.how, taken.source
    for chapter in joined.chapters:
        yield "chapter", chapter.chapter, chapter.field, chapter.frame, "read", chapter.source
    for stop in joined.stops:
        yield "stop", stop.number, stop.field, stop.frame, stop.how, stop.source
