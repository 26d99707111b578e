"""The library's check of plans: whether a file of a disc may be made of these fields of its captures, and padding."""

import ctypes
import enum
import struct
from typing import Any, Iterable, List, NamedTuple, Optional, Sequence, Tuple, Union

from .judging import PACKED_NUMBER, Number
from .library import check, later_call, number_of
from .sides import PACKED_CLOCK, Clock, ClockKind


class Spacing(enum.IntEnum):
    """How far apart in a file two numbers stand, of which one has the next rank: two fields (`video`); two or three
    (`film`); two, or one or three on a disc with numbers on both fields of a picture (`both`); one or more (`rising`),
    as minutes have thousands. A number's rank is how many numbers the disc has below it."""
    video = 1
    film = 2
    both = 3
    rising = 4


class Rule(enum.IntEnum):
    """What a stretch of a plan breaks. `disordered`: it has no field, or fewer than numbers for which it stands, or its
    number comes before that of an earlier one. `not_there`: its fields aren't all of its capture. `twice`: a stretch
    before it has one of them. `misplaced`: a believed number of them is out of its place. `hidden`: it is padding, and
    stands for a number that is believed of a field."""
    disordered = 1
    not_there = 2
    twice = 3
    misplaced = 4
    hidden = 5


class Stretch(NamedTuple):
    """Fields that stand one after the other in the file: `fields` of a capture, from its field `field` on, or padding
    if `capture` is None. Captures and their fields are counted from 0. It stands for the disc's numbers from `number`
    to before that of the next stretch; for none if the two are the same."""
    capture: Optional[int]
    field: int
    fields: int
    number: int


class Fault(NamedTuple):
    """The first stretch of a plan that breaks a rule, counted from 0. If this module doesn't know the rule, which a
    later library may have, `rule` is its number."""
    rule: Rule
    stretch: int


_CAPTURE = struct.Struct("@NN")  # LdvbiCapture
_STRETCH = struct.Struct("@NNNII")  # LdvbiStretch
_CHECKED = struct.Struct("@NI0N")  # LdvbiChecked
_RULES = dict(enumerate(Rule, 1))
_MOST = (1 << 8 * struct.calcsize("N")) - 1


def check_plan(captures: Iterable[Any], plan: Sequence[Stretch], end: int, spacing: Union[Spacing, str] = Spacing.video,
               clock: Clock = Clock(ClockKind.plain), begin: int = 0) -> Optional[Fault]:
    """None if a plan is done, else its first `Fault`. `captures` has the numbers of each capture that `judge` returned,
    or their bytes as the library writes them. The plan stands for the numbers from its first stretch's to before `end`;
    the first one begins in field `begin` of the file, counted from 0. `spacing` is a `Spacing` or its name, and `clock`
    says which numbers the disc leaves out; if no `Clock` does, give ranks in place of all numbers.

    If a plan is done, each number stands in just one stretch; no field stands twice in the file; each believed number
    of a field that is taken is in its place; and padding stands for no number that is believed of a capture. If the
    disc is one of `video` that counts on by the clock, and believed numbers are right, each field with a number is the
    disc's field in its place, and so is each between two such of a stretch, if its capture's fields stand in order."""
    call = later_call("ldvbi_check_plan")
    numbers = [_packed(one) for one in captures]
    spans, first = [], 0
    for one in numbers:
        count, rest = divmod(len(one), PACKED_NUMBER.size)
        if rest:
            raise ValueError("packed numbers have %d bytes to a field, and these are %d" % (
                PACKED_NUMBER.size, len(one)))
        spans.append((first, count))
        first += count
    stretches = b"".join([_stretch_of(one, spans) for one in plan])
    checked = ctypes.create_string_buffer(_CHECKED.size)
    check(call(_spacing_number(spacing), _size(begin), number_of("end", end),
               PACKED_CLOCK.pack(*map(number_of, Clock._fields, clock)), b"".join(numbers), first,
               b"".join([_CAPTURE.pack(*one) for one in spans]), len(spans), stretches, len(plan), checked))
    stretch, rule = _CHECKED.unpack(checked)
    return Fault(_RULES.get(rule, rule), stretch) if rule else None


def _packed(numbers: Any) -> bytes:
    """The numbers of a capture as the library has them."""
    try:
        return bytes(memoryview(numbers))
    except TypeError:
        return b"".join([_packed_number(one) for one in numbers])


def _packed_number(one: Number) -> bytes:
    return PACKED_NUMBER.pack(0 if one.number is None else number_of("number", one.number), one.state)


def _stretch_of(one: Stretch, spans: List[Tuple[int, int]]) -> bytes:
    """A stretch as the library has it, whose fields are counted through all captures."""
    if one.capture is None:
        return _STRETCH.pack(0, _size(one.fields), 0, number_of("number", one.number), 1)
    if not 0 <= one.capture < len(spans):
        raise ValueError("there is no capture %d" % one.capture)
    return _STRETCH.pack(_size(spans[one.capture][0] + one.field), _size(one.fields), one.capture,
                         number_of("number", one.number), 0)


def _size(value: int) -> int:
    """A count as the library takes it. One that no memory holds becomes the greatest, which is refused as well."""
    return value if value in range(_MOST) else _MOST


def _spacing_number(spacing: Union[Spacing, str]) -> int:
    found = Spacing.__members__.get(spacing) if isinstance(spacing, str) else spacing
    if found not in list(Spacing):
        raise ValueError("spacing is none of %s" % ", ".join(Spacing.__members__))
    return int(found)
