"""The numbers of a side that are believed, as data: the readings by field, and how two of them stand to each other, at
the disc's own speed or where it was played at another speed."""

import bisect
import functools
import math
import operator
import types
from typing import Dict, FrozenSet, List, Mapping, NamedTuple, Optional, Sequence, Set, Tuple, Union

from ldvbi import Clock, JudgedSide
from .clock import NO_CLOCK
from .paces import MinutePace, Pace, Unit
from .readings import Reading

APART = 100  # fields from one reading of a stretch to the next, at most
SLOW = 6  # fields of a number that is shown for three pictures
_USUAL = (2, 1)  # fields and numbers from one reading of video to the next
_NORMAL = (1, 2)  # the same, as a line has them: the disc's own speed
Around = Tuple[Optional[Reading], Optional[Reading]]
_NONE: Mapping[int, int] = types.MappingProxyType({})


class Line(NamedTuple):
    """Numbers that go on by `step` at a fixed distance in fields, from a field with a number on."""
    step: int
    fields: int
    field: int
    number: int

    def number_at(self, field: int) -> int:
        return self.number + self.step * ((field - self.field) // self.fields)

    def has(self, reading: Reading) -> bool:
        """Whether a reading is on the line."""
        is_begin = (reading.field - reading.variant - self.field) % 2 == 0
        return is_begin and self.number_at(reading.field) == reading.number

    def meeting(self, other: "Line", before: Reading, after: Reading) -> Optional[int]:
        """The first field of the picture in which another line has the same number, between two readings near each
        other."""
        if after.field - before.field > APART or (self.field - other.field) % 2:
            return None
        return next((field for field in range(before.field - before.variant, after.field + 1)
                     if self.number_at(field) == other.number_at(field)), None)

    def name(self) -> str:
        """How many numbers a picture has."""
        return str(self.step) if self.fields == 2 else "1/3"


class Stretch(NamedTuple):
    """The fields from the first to the last number of a line."""
    first: int
    last: int
    line: Line


class _Numbers(NamedTuple):
    unit: Unit
    pace: Union[Pace, MinutePace, None] = None
    believed: List[Reading] = []
    others: Set[int] = set()
    completed: FrozenSet[int] = frozenset()
    swapped: Mapping[int, int] = _NONE
    speeds: Tuple[Stretch, ...] = ()
    judged: Optional[JudgedSide] = None


class Numbers(_Numbers):  # so that it can keep what was found of it
    """The believed readings of a side by field, what they count, and the pace at which they go on. `completed` are the
    fields whose minute is another field's, `others` those in which no number is due, since their lines show a code that
    stands there instead. `swapped` are the fields with a number that a capture has written one field off, each with the
    field in which that is due. `speeds` are stretches at another speed. `judged` is the library's answer."""

    @functools.cached_property
    def fields(self) -> List[int]:
        """The fields of the believed readings."""
        return [one.field for one in self.believed]

    @functools.cached_property
    def values(self) -> List[int]:
        """The numbers of the believed readings."""
        return [one.number for one in self.believed]

    @functools.cached_property
    def taken(self) -> Dict[int, int]:
        """The believed numbers by field."""
        return dict(zip(self.fields, self.values))

    @property
    def clock(self) -> Clock:
        """The clock by which the disc leaves out numbers, as far as the library found it."""
        return self.judged.clock if self.judged else NO_CLOCK

    def left_out(self, begin: int, end: int) -> int:
        """How many numbers the clock leaves out from one on to before another one; negative if that is less."""
        return self.clock.left_out_below(end) - self.clock.left_out_below(begin)

    @functools.cached_property
    def odd_places(self) -> Sequence[int]:
        """The places of the believed readings that may be anything but the next number of video in its own place, two
        fields after the one before. Most aren't."""
        if not self.pace or self.pace.kind != "video":
            return range(1, len(self.fields))
        steps = zip(map(operator.sub, self.fields[1:], self.fields),
                    map(operator.sub, self.values[1:], self.values))
        return [place for place, step in enumerate(steps, 1) if step != _USUAL]

    def aside(self, readings: List[Reading]) -> List[Reading]:
        """Those of these readings whose fields have no believed reading."""
        return [one for one in readings if one.field not in self.taken]

    def places_in(self, first: int, last: int) -> slice:
        """The places of the believed readings of these fields."""
        return slice(bisect.bisect_left(self.fields, first), bisect.bisect(self.fields, last))

    def around(self, first: int, last: Optional[int] = None) -> Around:
        """The believed readings before a field and after it, or after another one; each may be None."""
        return self.beside(self.places_in(first, first if last is None else last))

    def beside(self, places: slice) -> Around:
        """The believed readings before these places and after them."""
        return (self.believed[places.start - 1] if places.start else None,
                self.believed[places.stop] if places.stop < len(self.fields) else None)

    def off(self, before: Reading, after: Reading) -> Optional[int]:
        """How many fields are too many (or, negative, too few) between two readings; None if the number stays."""
        if self.speeds:
            off = off_at_speed(self, before, after)
            if off is not None:
                return off
        assert self.pace is not None
        apart = self.place_of(after) - self.place_of(before)
        off = self.pace.off(apart, before.number, after.number - before.number, before.variant, after.variant)
        return off if off is None else off + 2 * self.left_out(before.number, after.number)

    def place_of(self, reading: Reading) -> int:
        """The field in which a reading is due."""
        return self.swapped.get(reading.field, reading.field)

    def fit(self, around: Around) -> bool:
        """Whether there is a reading before and one after, and these two fit each other."""
        before, after = around
        return before is not None and after is not None and self.off(before, after) == 0

# ---- At another speed

def stretch_at(speeds: Tuple[Stretch, ...], field: int) -> Optional[Stretch]:
    """The stretch in which a field is, or None."""
    place = bisect.bisect(speeds, (field, math.inf)) - 1
    return speeds[place] if place >= 0 and field <= speeds[place].last else None


def line_from(numbers: Numbers, reading: Reading) -> Line:
    """The line on which the numbers lead to a reading, and go on from it."""
    stretch = stretch_at(numbers.speeds, reading.field)
    return stretch.line if stretch else Line(1, 2, reading.field - reading.variant, reading.number)


def off_at_speed(numbers: Numbers, before: Reading, after: Reading) -> Optional[int]:
    """How many fields are too many (or, negative, too few) between two readings at one other speed. It is 0 if the
    speed changes between them in a picture in which both lines have the same number; None for all others."""
    line, other = line_from(numbers, before), line_from(numbers, after)
    if line[:2] == other[:2] == _NORMAL or not line.has(before) or not other.has(after):
        return None
    if line[:2] != other[:2]:
        return None if line.meeting(other, before, after) is None else 0
    if line.has(after):
        return 0
    over = after.number - line.number_at(after.field)
    if abs(over) == 1 and numbers.unit.name == "time" and numbers.unit.rate == 30:
        return 0  # which the clock may have left out
    pictures, rest = divmod(after.number - before.number, line.step)
    if rest or line.fields == SLOW:
        return None
    return after.field - before.field - after.variant + before.variant - 2 * pictures


def passed_between(numbers: Numbers, before: Reading, after: Reading) -> List[Tuple[int, int]]:
    """The numbers that are due between two readings that fit at another speed, each with its field."""
    line, other = line_from(numbers, before), line_from(numbers, after)
    turn = after.field if line.has(after) else line.meeting(other, before, after)
    if turn is None:
        return []
    fields = range(before.field - before.variant + 2, after.field - after.variant, 2)
    return [((line if field <= turn else other).number_at(field), field) for field in fields]
