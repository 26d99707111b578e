"""Finds where a number or a chapter is in a side and what is beside it, by few of its fields, and the next stop."""

import ctypes
import struct
import sys
from typing import NamedTuple, Optional, Union

from .judging import Number, State
from .library import Counted, Pace, check, count_of, counted_number, later_call, number_of, pace_number
from .stream import Stream, Use

_PACKED_SOUGHT = struct.Struct("@NIIIINIINII")  # LdvbiSought
_PACKED_PLACE = struct.Struct("@NN")  # LdvbiPlace


class Neighbour(NamedTuple):
    """A believed number beside the one that is sought, and its field, counted from 0."""
    number: int
    field: int


class Neighbours(NamedTuple):
    """The nearest lower number, in the last field that has it, and the nearest higher one, in the first; None if there
    is none among the fields in which the number was looked for."""
    before: Optional[Neighbour]
    after: Optional[Neighbour]


class Sought(NamedTuple):
    """Where a number was found. `field` is counted from 0, `number` is what `judge` answers for it at this `pace`, and
    `looked` is how many fields were read. `before` and `after` are as in `Neighbours`."""
    field: int
    number: Number
    pace: Pace
    looked: int
    before: Optional[Neighbour]
    after: Optional[Neighbour]


def seek(stream: Stream, number: int, counted: Union[Counted, str] = Counted.pictures,
         pace: Union[Pace, str] = Pace.find) -> Optional[Sought]:
    """Where a number is in a stream, or None if it wasn't found. At most 1,000 fields are read. The field has the
    number, and the field before it hasn't, as `judge` answers by what all fields of the stream show with recovered
    words. On the sides that were tried each number was found if the player runs on, with any lead-in and lead-out, and
    each line is read. Otherwise one may be missed: to be sure that it isn't there, judge the whole side. `counted` and
    `pace` are as for `judge`. `Pace.find` finds a pace by the few fields that are judged; it needn't be the one that
    `find_pace` answers for the side."""
    field, found, state, found_pace, looked, *beside = _sought(stream, number, counted, pace)
    if field == len(stream):
        return None
    return Sought(field, Number(found, State(state)), Pace(found_pace), looked, *_neighbours(beside))


def neighbours(stream: Stream, number: int, counted: Union[Counted, str] = Counted.pictures,
               pace: Union[Pace, str] = Pace.find) -> Neighbours:
    """The believed numbers beside one that is sought, whether `seek` finds it or not: what to show for a picture that
    the stream lacks. None of the fields in which it was looked for is believed to have a nearer one. These are at least
    24 in a row, or all. The arguments are those of `seek`, and so are the fields that are read."""
    return _neighbours(_sought(stream, number, counted, pace)[5:])


def _sought(stream, number, counted, pace):
    """The members of what the library's call answers."""
    call = later_call("ldvbi_seek")
    packed = ctypes.create_string_buffer(_PACKED_SOUGHT.size)
    with Use(stream):
        system, black, white, address, length = stream.arguments()
        check(call(system, black, white, counted_number(counted), pace_number(pace), address, length,
                   number_of("number", number), packed))
    return _PACKED_SOUGHT.unpack(packed)


def _neighbours(beside):
    """Those of two fields, each with its number and state."""
    return Neighbours(*(Neighbour(number, field) if state else None
                        for field, number, state in (beside[:3], beside[3:])))


def _place(stream: Stream, call: str, *asked: int) -> Optional[int]:
    """The field that a call of the library finds in the bytes of a stream."""
    asks, packed = later_call(call), ctypes.create_string_buffer(_PACKED_PLACE.size)
    with Use(stream):
        check(asks(*stream.arguments(), *asked, packed))
    field = _PACKED_PLACE.unpack(packed)[0]
    return None if field == len(stream) else field


def seek_chapter(stream: Stream, chapter: int) -> Optional[int]:
    """The field of a stream in which a chapter begins, or None if it wasn't found. At most 1,000 fields are read.
    `judge_chapters` believes the chapter of this field, and of none of the 72 fields before it, by what all fields of
    the stream show with recovered words. If chapters don't rise, or on a worn side, one may be missed."""
    return _place(stream, "ldvbi_seek_chapter", number_of("chapter", chapter))


def next_stop(stream: Stream, field: int = 0, most: int = sys.maxsize) -> Optional[int]:
    """The first field of a stream, from this one on, of which `judge_stops` believes a stop by what its lines show with
    recovered words; None if there is none. Fields are read one after the other up to that one, at most so many."""
    return _place(stream, "ldvbi_next_stop", count_of("field", field), count_of("most", most))
