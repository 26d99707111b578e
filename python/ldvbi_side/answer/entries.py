"""The answer for a side and the entries of its lists, under the names by which all of this package reads them;
as_json.py gives them those of share/schema/ldvbi-side.schema.json. A name that Python has taken ends with `_`. Numbers
are as they are there: pictures are whole numbers, times are texts. Words and their kinds are not texts here. `judge`
makes showings, breaks and stills (places.py), and stray and unknown words (readings.py); levels.py tries levels."""

from typing import Any, Dict, List, NamedTuple, Optional, Sequence

from ldvbi import Kind
from ldvbi.readings import Cut
from ..judge.detours import Detour
from ..judge.places import Break, Showing
from ..judge.readings import Stray, Unknown
from ..levels import Tried


# ---- Numbers

class Numbered(NamedTuple):
    """A field with its number: one that is believed beside another one, or the first of two swapped fields with a
    number that they show, or None."""
    field: int
    number: Any


class Extent(NamedTuple):
    """How many numbers are believed, and the least and the greatest one, or None."""
    count_: int
    least: Any
    greatest: Any


class Unread(NamedTuple):
    """A number that is due in a field where none is believed, and what was read there, or None."""
    number: Any
    field: int
    read: Any


class Repeated(NamedTuple):
    """Numbers that are shown again, their fields, and the earlier field of the first number."""
    first: Any
    last: Any
    field: int
    last_field: int
    before: int


class Missing(NamedTuple):
    """Numbers that no field has, how many (`count_`), why, and the first fields of the numbers around them."""
    first: Any
    last: Any
    count_: int
    why: str
    after: int
    before: int


class Lost(NamedTuple):
    """How many fields are lost between two, or None if that isn't known, how that is known, and whether more may be
    lost there than these."""
    after: int
    before: int
    fields: Optional[int]
    by: str
    or_more: bool = False

    def is_again(self) -> bool:
        """Whether a field may be shown again there instead: only isFirstField shows that something is."""
        return self.by == "undecided" and self.fields is None


class Speed(NamedTuple):
    """Fields that were played at another speed, and how many numbers a picture has there."""
    first: int
    last: int
    numbers: str


# ---- What is set aside

class Doubt(NamedTuple):
    """A word that is set aside: its pass, why, its number, if a clock shows it, and the believed numbers around it."""
    field: int
    line: int
    word: int
    kind: Kind
    pass_: int
    why: str
    number: Any
    before: Optional[Numbered]
    after: Optional[Numbered]

    def said(self) -> Any:
        """What was read: the number or, if no clock shows that, the word by its digits."""
        return "%06X" % self.word if self.number is None else self.number


class Conflict(NamedTuple):
    """A field with two numbers on lines 17 and 18, and the one that is taken, or None."""
    field: int
    line17: Any
    line18: Any
    taken: Any


class SecondRow(NamedTuple):
    """Numbers that are set aside and fit each other: how many (`count_`), their fields, their weight, and the weight of
    the believed ones in these fields."""
    first: Any
    last: Any
    field: int
    last_field: int
    count_: int
    weight: int
    against: int


# ---- The disc's other parts

class Chapter(NamedTuple):
    """A chapter from `field` to `last`, the last field of the one before it, its first number, and its first frame."""
    chapter: int
    field: int
    last: int
    after: Optional[int]
    number: Any
    frame: int


class Stop(NamedTuple):
    """A picture stop that is believed: its picture, or None, and the lines that show it."""
    field: int
    frame: int
    number: Any
    lines: Sequence[int]


class Stretch(NamedTuple):
    """A stretch of lead-in, of lead-out or of padding, and how many of its fields show it, or are it."""
    first: int
    last: int
    count_: int


class Status(NamedTuple):
    """A programme status: whether CX is on, its digits, and how many fields show it, from the first to the last."""
    cx: bool
    digits: str
    count_: int
    first: int
    last: int


class Users(NamedTuple):
    """A users' code, by its one digit and its three, and how many fields show it, from the first to the last."""
    digit: int
    digits: str
    count_: int
    first: int
    last: int


# ---- Lines

class BadLine(NamedTuple):
    """A line that isn't blank, but shows no word of its own: its cause, with its column, and its bytes in the file."""
    field: int
    line: int
    cause: str
    column: Optional[int]
    offset: int
    bytes: int


class Rates(NamedTuple):
    """How many fields show each outcome on a line; `near` are the recovered words."""
    pass1: int
    pass2: int
    near: int
    blank: int
    unfinished: int
    change: int
    hold: int

    def words(self) -> int:
        """How many words the line has."""
        return self.pass1 + self.pass2 + self.near

    def bad(self) -> int:
        """How many fields show something on the line, but no word."""
        return self.change + self.hold + self.unfinished


class FewWords(NamedTuple):
    """What lines 17 and 18 show if they have few words: how many of each, one of these lines, and what other levels
    read, or None. `shows` is `blank` or `bad`."""
    shows: str
    words: int
    bad: int
    blank: int
    field: int
    line: int
    tried: Optional[Tried]


# ---- The whole

class Ground(NamedTuple):
    """Why a side isn't whole, as a word and as a text, and what this alone would make of the side."""
    why: str
    whole: str
    text: str


class Answer(NamedTuple):
    """The whole answer for a side. Each list ascends by field, but `missing` and `left_out` by number."""
    version: int
    system: str
    format: str
    unit: Optional[str]
    fields: int
    cut_field: Optional[Cut]
    frame_begin: int
    pace: Optional[str]
    numbers: Extent
    showings: List[Showing]
    completed: List[int]
    confirmed: List[int]
    unread: List[Unread]
    breaks: List[Break]
    stills: List[Showing]
    repeated: List[Repeated]
    missing: List[Missing]
    left_out: List[Missing]
    lost: List[Lost]
    padding: List[Stretch]
    speeds: List[Speed]
    swapped: List[Numbered]
    detours: List[Detour]
    doubtful: List[Doubt]
    conflicts: List[Conflict]
    chapter_conflicts: List[Conflict]
    second_rows: List[SecondRow]
    chapters: List[Chapter]
    stops: List[Stop]
    unsure_stops: List[Stop]
    lead_in: List[Stretch]
    lead_out: List[Stretch]
    stray: List[Stray]
    unknown: List[Unknown]
    programme_status: List[Status]
    users: List[Users]
    bad_lines: List[BadLine]
    lines: Dict[int, Rates]
    levels: Optional[FewWords]
    metadata_fields: Optional[int]
    sequential_fields: Optional[int]
    open_end: bool
    given_last: Optional[str]
    whole: str = ""
    reasons: Sequence[Ground] = ()


def frame_of(field: int, begin: int) -> int:
    """The frame of a field, from 1. A frame is a pair of fields, counted from `begin`, the first field that begins one.
    It is 0 for a field before that."""
    return (field - begin) // 2 + 1
