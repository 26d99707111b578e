"""The library's judge: which number or chapter of its disc each field shows, judged by the fields around it, and which
stops and ends are to be believed."""

import ctypes
import enum
import functools
import struct
from typing import Any, Callable, Dict, Iterable, List, NamedTuple, Optional, Tuple, Union, cast

from .library import Counted, Pace, check, counted_number, later_call, pace_number, system_number
from .readings import PACKED_FIELD, AnySystem, FieldReadings
from .stream import Stream


class State(enum.IntEnum):
    """How sure the number of a field is. `nothing`: the field shows no number, and none is due. `believed`: it shows
    the number, and enough around it supports that. `due`: no number of the field is believed, but the believed numbers
    before and after it count to this one, whether the field shows it or not. `doubtful`: it shows the number, but none
    of the field is believed, and none is due."""
    nothing = 0
    believed = 1
    doubtful = 2
    due = 3


class End(enum.IntEnum):
    """Whether a field is of a side's lead-in or lead-out, in doubt, or of neither. `padding` no line says."""
    none = 0
    lead_out = 1
    doubtful = 2
    lead_in = 3
    padding = 4


class Number(NamedTuple):
    """The judge's answer for a field. `number` is a picture number from 0 to 79999, or a chapter; for a time it is the
    count of pictures from the disc's beginning, 30 (NTSC) or 25 (PAL) a second. It is None if `state` is `nothing`. If
    this module doesn't know the state, which a later library may have, `state` is its number."""
    number: Optional[int]
    state: State


PACKED_NUMBER = struct.Struct("=II")  # LdvbiNumber
PACKED_STATE = struct.Struct("=I")
SIGHTINGS_BYTES = 20  # of LdvbiSightings
_STATES = dict(enumerate(State))
_ENDS = dict(enumerate(End))
_NOTHING = Number(None, State.nothing)  # half of the fields have it
PART = 97  # the most fields on which the answer of one depends: 48 before it, and 48 after it


def judge(readings: Any, system: AnySystem, counted: Union[Counted, str] = Counted.pictures,
          pace: Union[Pace, str] = Pace.find) -> List[Number]:
    """The `Number` of each field, as a list: which number of its disc it shows, judged by the 24 fields before it and
    the 24 after it. `readings` are those of the fields in order: a `Stream`, any iterable of `FieldReadings`, or bytes
    or an array as the library writes them (`Stream.packed`). `counted` and `pace` are a `Counted` and a `Pace`, or
    their names.

    If the disc ran on around a field at the pace that is judged by, and the misread words of lines 17 and 18 there
    weigh less than 10, a believed number is the one that was recorded, if the field has one. A word of pass 1 weighs 2,
    one of pass 2 or 3 weighs 1. For times, line 16 counts too, and twice. Minutes without their seconds and lost fields
    are not judged here: `ldvbi-side` judges them."""
    call = later_call("ldvbi_judge")
    asked = system_number(system), counted_number(counted), pace_number(pace)
    check(call(*asked, None, 0, None, 0, None, 0))  # of no field the library tests these alone
    return _judged(readings, lambda *arrays: call(*asked, *arrays))


def judge_field(readings: Any, field: int, system: AnySystem, counted: Union[Counted, str] = Counted.pictures,
                pace: Union[Pace, str] = Pace.video) -> Number:
    """The `Number` of one field, counted from 0, of at most 97 readings, which are as for `judge`. If they have 48
    fields before it, or begin with the side, and have 48 after it, or end with the side, this is what `judge` answers
    for it in the whole side at the same pace. `pace` is `video` or `film` (`find_pace`)."""
    call = later_call("ldvbi_judge_field")
    packed, count = packed_of(readings)
    number = ctypes.create_string_buffer(PACKED_NUMBER.size)
    if not 0 <= field < count <= PART:
        raise ValueError("field %d of %d, which may be %d at most" % (field, count, PART))
    check(call(system_number(system), counted_number(counted), pace_number(pace), packed, count, field, number))
    return _number_of(*PACKED_NUMBER.unpack(number))


def complete_times(readings: Any, system: AnySystem) -> bytes:
    """The readings, with times completed whose minute wasn't read. Line 16 of such a field shows second and picture,
    and neither line 17 nor line 18 shows a time. The times read in the 240 fields before it and the 240 after it that
    go on with these, whatever their minute, vote with their weight. The minute that has more than half of the weight,
    and 4 of it or more (two lines of pass 1), is put on line 17, as a word of line 16's pass. `readings` are as for
    `judge`. They are returned packed, as `Stream.packed` has them. To count times, give them to `judge`, `find_pace`
    and `find_clock` in place of the readings, and to `judge_side` as `completed`. Judge chapters and ends by the
    readings themselves, since line 17 may have shown one.

    If the disc ran on within these fields, and the votes that were read wrongly weigh less than those that were read
    rightly, or less than 4, a field gets no other time than the one on the disc."""
    call = later_call("ldvbi_complete_times")
    number = system_number(system)
    check(call(number, None, 0, None, 0, None, 0))  # of no field the library tests the system alone
    packed, count = packed_of(readings)
    seen = ctypes.create_string_buffer(SIGHTINGS_BYTES * count)
    completed = ctypes.create_string_buffer(PACKED_FIELD.size * count)
    check(call(number, packed, count, seen, count, completed, count))
    return bytes(completed)


def judge_chapters(readings: Any) -> List[Number]:
    """The chapter of each field as a `Number`, in a list: `number` is the chapter, from 0 to 79, and `state` is never
    `due`. Most fields have no chapter code. They have `nothing`, and belong to the chapter that was believed
    last. `readings` are as for `judge`.

    If the chapter codes in the field, in the 24 fields before it and in the 24 after it that aren't what the disc has
    there weigh less than 10 (a word of pass 1 weighs 2, one of pass 2 or 3 weighs 1), a believed chapter is one that
    the disc has within these fields. And if the codes of one chapter weigh 10 or more before a field and 10 or more
    after it, no other chapter is believed there."""
    return _judged(readings, later_call("ldvbi_judge_chapters"))


def judge_stops(readings: Any) -> List[State]:
    """Whether each field has a picture stop, as a list of `State`: `believed` if line 16 or 17 shows a stop in pass 1,
    or both show it; `doubtful` if either shows it otherwise; else `nothing`. Each field is judged by itself. `readings`
    are as for `judge`.

    If the disc has no stop in a field, and one is believed there, a word of pass 1 was misread on its lines 16 and
    17, or both words were. A stop that the disc has is believed if one of the two was read right in pass 1, or if both
    were read right."""
    return _states(readings, later_call("ldvbi_judge_stops"), _STATES)


def judge_ends(readings: Any) -> List[End]:
    """Whether each field shows lead-in or lead-out, as a list of `End`: `lead_out` if line 17 or 18 shows it in pass 1,
    or if both do, in whatever pass; else `lead_in` likewise; else `doubtful` if a line shows either; else `none`. Each
    field is judged by itself. `readings` are as for `judge`."""
    return _states(readings, later_call("ldvbi_judge_ends"), _ENDS)


def _states(readings: Any, call: Callable[..., int], names: Dict[int, Any]) -> List[Any]:
    """What a call answers of each field by itself, by these names."""
    packed, count = packed_of(readings)
    states = ctypes.create_string_buffer(PACKED_STATE.size * count)
    check(call(packed, count, states, count))
    return [names.get(state, state) for state, in PACKED_STATE.iter_unpack(states)]


def _judged(readings: Any, call: Callable[..., int]) -> List[Number]:
    """What a call answers of each field, which takes the readings, and room for what is seen and for the answers."""
    packed, count = packed_of(readings)
    seen = ctypes.create_string_buffer(SIGHTINGS_BYTES * count)
    numbers = ctypes.create_string_buffer(PACKED_NUMBER.size * count)
    check(call(packed, count, seen, count, numbers, count))
    return numbers_of(numbers)


def numbers_of(packed: Any) -> List[Number]:
    """The answers for fields, as the library wrote them."""
    # as of most fields of a side, so that it has to be quick
    make, states = cast(Callable[..., Number], functools.partial(tuple.__new__, Number)), _STATES
    return [make((number, states.get(state, state))) if state else _NOTHING
            for number, state in PACKED_NUMBER.iter_unpack(packed)]


def _number_of(number, state):
    return Number(number if state else None, _STATES.get(state, state))


def find_pace(readings: Any, system: AnySystem, counted: Union[Counted, str] = Counted.pictures) -> Pace:
    """The `Pace` that `judge` takes for these readings if none is given: `Pace.film` if pictures of NTSC are counted,
    and over a tenth more of their numbers are believed by it than by that of video; else `Pace.video`."""
    call = later_call("ldvbi_find_pace")
    asked, pace = (system_number(system), counted_number(counted)), ctypes.c_uint32()
    check(call(*asked, None, 0, None, 0, ctypes.byref(pace)))  # as above
    packed, count = packed_of(readings)
    check(call(*asked, packed, count, ctypes.create_string_buffer(SIGHTINGS_BYTES * count), count, ctypes.byref(pace)))
    return Pace(pace.value)


def packed_of(readings: Any) -> Tuple[bytes, int]:
    """Readings as the library takes them, and the number of their fields."""
    packed = _in_one_piece(readings)
    count, rest = divmod(len(packed), PACKED_FIELD.size)
    if rest:
        raise ValueError("packed readings have %d bytes to a field, and these are %d"
                         % (PACKED_FIELD.size, len(packed)))
    return packed, count


def _in_one_piece(readings: Any) -> bytes:
    """What is packed, and a stream, as it is, others field by field."""
    if isinstance(readings, Stream):
        return b"".join(readings.packed(0, len(readings)))
    try:
        return bytes(memoryview(readings))
    except TypeError:
        pass
    try:
        looped = iter(readings)
    except TypeError:
        raise ValueError("readings are not those of fields, but of the type %s" % type(readings).__name__) from None
    return b"".join([_packed_field(number, field) for number, field in enumerate(looped)])


def _packed_field(number: int, readings: FieldReadings) -> bytes:
    try:
        first, second, third = readings
        return PACKED_FIELD.pack(*first, *second, *third)
    except (TypeError, ValueError, struct.error):
        raise ValueError("readings[%d] is not three readings" % number) from None


def first_of(numbers: Iterable[Number], number: int) -> Optional[int]:
    """The index, from 0, of the first field for which this number is believed or due; None if there is none.
    `numbers` is what `judge` or `judge_chapters` returned."""
    for field, (known, state) in enumerate(numbers):
        if known == number and state in (State.believed, State.due):
            return field
    return None
