"""What several captures have together, and the entries of its lists, under the names by which this package reads them;
plain.py gives them those of share/schema/ldvbi-join.schema.json. Numbers are as the answer of a side has them."""

from typing import Any, List, NamedTuple, Optional

from ..answer.entries import Extent, Ground


WHOLE, UNSURE = "whole", "unsure"  # how the numbers of a range stand there


class Held(NamedTuple):
    """A capture: its name, how many fields it has, whether it is whole, and its numbers."""
    name: str
    fields: int
    whole: str
    numbers: Extent


class Lacking(NamedTuple):
    """Numbers that no capture has, `count_` of them, and why."""
    first: Any
    last: Any
    count_: int
    why: str


class Lack(NamedTuple):
    """Numbers that a capture lacks, `count_` of them, and the names of the captures that have them."""
    capture: str
    first: Any
    last: Any
    count_: int
    in_: List[str]


class Shown(NamedTuple):
    """Numbers, `count_` of them, that only this capture has, or that it shows better than others."""
    capture: str
    first: Any
    last: Any
    count_: int


class Alike(NamedTuple):
    """Numbers, `count_` of them, that no capture shows better than all others."""
    first: Any
    last: Any
    count_: int


class Told(NamedTuple):
    """What one of two captures that disagree says: numbers, and their fields in that capture."""
    capture: str
    first: Any
    last: Any
    field: int
    last_field: int


class Dispute(NamedTuple):
    """Why two captures disagree, and what both say."""
    why: str
    between: List[Told]


class Source(NamedTuple):
    """A number, the name of the capture to take it from, its field and frame there, and how it is known."""
    number: Any
    source: str
    field: int
    frame: int
    how: str


class Range(NamedTuple):
    """Numbers that are taken at once, `count_` of them, the name of their capture, and their fields there. `how` is
    `whole`, or `unsure` if one may have another's field."""
    first: Any
    last: Any
    count_: int
    source: str
    field: int
    last_field: int
    how: str


class ChapterAt(NamedTuple):
    """A chapter that begins, and where: its number, the capture that this is taken from, the field and its frame there,
    and the field of the file that `write` makes."""
    chapter: int
    number: Any
    source: str
    field: int
    frame: int
    written: int


class StopAt(NamedTuple):
    """A number with a picture stop, and where, likewise; whether it is `read`, or `unsure` in all captures."""
    number: Any
    source: str
    field: int
    frame: int
    how: str


class Joined(NamedTuple):
    """All that captures have together: whether that is the whole side, and the reasons if it isn't known to be; the
    numbers that any of them has, those between them, and up to the given last one, that none has, those that the disc
    leaves out, and so on. `shown_by` has the kinds of codes which show that they are of one disc, and `written` whether
    the file that `write` makes of them, which has `written_fields`, is whole by its plan, and why not."""
    version: int
    whole: str
    reasons: List[Ground]
    system: str
    format: str
    unit: Optional[str]
    shown_by: List[str]
    captures: List[Held]
    numbers: Extent
    missing: List[Lacking]
    left_out: List[Lacking]
    lacks: List[Lack]
    alone: List[Shown]
    better: List[Shown]
    alike: List[Alike]
    disagreements: List[Dispute]
    taken: List[Source]
    ranges: List[Range]
    chapters: List[ChapterAt]
    stops: List[StopAt]
    written: str
    written_fields: int
