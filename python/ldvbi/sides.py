"""The library's judge of sides: where the numbers of a side and its fields don't go on together, to which clock the
numbers keep, and whether the capture is whole."""

import ctypes
import enum
import struct
from typing import Any, List, NamedTuple, Optional, Sequence, Set, Tuple, Union

from .judging import PACKED_NUMBER, PACKED_STATE, SIGHTINGS_BYTES, End, Number, find_pace, numbers_of, packed_of
from .library import (Both, Counted, Pace, System, both_of, check, counted_number, later_call, number_of, pace_number,
                      system_number)
from .readings import AnySystem


class Verdict(enum.IntEnum):
    """Whether a capture is whole."""
    cannot_tell = 0
    whole = 1
    not_whole = 2


class Reason(enum.IntFlag):
    """Why a capture isn't whole (the first six, `is_inserted` and `is_padded`), or why that can't be told (if there are
    only others). One that a later library may have keeps its number."""
    is_lost = 1
    is_held = 2
    goes_back = 4
    is_joined = 8
    begins_late = 16
    is_swapped = 32
    is_off = 64
    no_numbers = 128
    end_unseen = 256
    begin_unseen = 512
    many_doubtful = 1024
    is_open = 2048
    is_inserted = 4096
    is_padded = 8192
    is_blank = 16384


class GapKind(enum.IntEnum):
    """What lies between two neighbouring numbers that don't go on. `lost`: fields of the disc are lost. `held`: there
    are more fields than the numbers count to. `back`: the numbers go back. `still`: the player stood still. `joined`:
    another side begins. `open`: the disc itself may skip there, or fields are lost or too many; on film, it may have
    video there. The last two are the kinds of detours: of two neighbouring gaps, over which the numbers around go on.
    `inserted`: as if fields between weren't there, where the player left and came back. `replaced`: over the fields
    between, whose numbers were misread, unless two cuts cancel each other."""
    lost = 1
    held = 2
    back = 3
    still = 4
    joined = 5
    open = 6
    inserted = 7
    replaced = 8


class Gap(NamedTuple):
    """A gap between two fields with numbers, counted from 0. `fields` is at least how many are lost or too many; how
    many a still has; for an open gap how many more or fewer there are than the numbers count to; for the first gap of a
    detour how many it inserts; else 0. `shown` are the fields between that show a number between these two, on both
    lines in pass 1. `from_` and `to` are the numbers of the two fields. If this module doesn't know the kind, which a
    later library may have, `kind` is its number."""
    after: int
    before: int
    fields: int
    shown: int
    from_: int
    to: int
    kind: GapKind


class Tally(NamedTuple):
    """The counts of a side's gaps, as LdvbiTally of ldvbi.h has them."""
    gaps: int
    lost: int
    held: int
    stood: int
    stills: int
    still_end: int
    back: int
    joined: int
    open_gaps: int
    lost_numbers: int
    undecided: int
    unread: int
    inserted: int


class ClockKind(enum.IntEnum):
    """Which numbers a disc leaves out. `plain`: none, or it isn't known which. `drop_frame`: the first two of each
    minute but each tenth. `one_in`: one in a period, those that leave its phase as their remainder."""
    plain = 0
    drop_frame = 1
    one_in = 2


class Clock(NamedTuple):
    """The clock to which the numbers of a disc keep. NTSC counts 30 pictures to a second, which has 29.97; to keep to
    the clock, CLV discs leave out numbers. `period` and `phase` are 0 if the kind isn't `one_in`. If this module
    doesn't know the kind, which a later library may have, `kind` is its number."""
    kind: ClockKind
    period: int = 0
    phase: int = 0

    def left_out_in(self, first: int, last: int) -> Set[int]:
        """The numbers from the first to the last that are left out, as far as that is known."""
        if self.kind == ClockKind.drop_frame:
            return {number for rest in (0, 1) for number in _with_rest(MINUTE, rest, first, last)
                    if number % TENTH_MINUTE >= 2}
        return set(_with_rest(self.period, self.phase, first, last)) if self.kind == ClockKind.one_in else set()

    def left_out_below(self, number: int) -> int:
        """How many numbers below this one are left out, as far as that is known."""
        if self.kind == ClockKind.drop_frame:
            return sum(len(range(rest, number, MINUTE)) - len(range(rest, number, TENTH_MINUTE)) for rest in (0, 1))
        return len(range(self.phase, number, self.period)) if self.kind == ClockKind.one_in else 0


def _with_rest(period, rest, first, last):
    """The numbers from the first to the last that leave this rest."""
    return range(first + (rest - first) % period, last + 1, period)


class JudgedSide(NamedTuple):
    """The library's answer for a whole side. `first` and `last` are the first and the last field with a believed
    number, `swap` is the first field of the reason `is_swapped`, and `blank` that of `is_blank`. Each is counted from
    0, and None if there is none. `padded` is how many fields are padding. `pace` is the one that the side was judged
    by, `on_both` says whether numbers were taken to be on both fields of a picture, and `numbers` is what `judge`
    answers at this pace, but for those that are set aside: the numbers of a `replaced` run are doubtful if on this side
    more numbers go on with those around it, and it has none of the numbers that are due there. `aside` are their
    fields, counted from 0. `clock` is the one that the side was judged by."""
    verdict: Verdict
    reasons: Reason
    first: Optional[int]
    last: Optional[int]
    swap: Optional[int]
    tally: Tally
    gaps: Tuple[Gap, ...]
    pace: Pace
    on_both: bool
    numbers: List[Number]
    clock: Clock
    padded: int
    blank: Optional[int]
    aside: Tuple[int, ...] = ()


_PACKED_GAP = struct.Struct("@NNQQIII0Q")  # LdvbiGap
_PACKED_SIDE = struct.Struct("@N4QN7QNNNNNII")  # LdvbiSide, whose first members are LdvbiTally
PACKED_CLOCK = struct.Struct("=III")  # LdvbiClock
_PACKED_RULE = struct.Struct("=4I12s")  # LdvbiSideRule, whose last member is an LdvbiClock
_PLAIN = bytes(PACKED_CLOCK.size)  # LDVBI_PLAIN
MINUTE, TENTH_MINUTE = 1800, 18000  # pictures, as NTSC counts them
_ROOM = 64  # gaps, at first: few sides have more
_KINDS = dict(enumerate(GapKind, 1))
_CLOCKS = dict(enumerate(ClockKind))


class _Fields(NamedTuple):
    """What was judged of the fields of a side: by what system and numbers, how many there are, at which pace, whether
    numbers are on both fields of a picture, and what the library wrote of each field."""
    asked: Tuple[int, int]
    length: int
    pace: Pace
    on_both: bool
    seen: Any
    numbers: Any
    ends: Any


def judge_side(readings: Any, system: AnySystem, counted: Union[Counted, str] = Counted.pictures,
               pace: Union[Pace, str] = Pace.find, both: Union[Both, str] = Both.find,
               may_end: bool = False, clock: Union[Clock, str, None] = None, completed: Any = None,
               padding: Optional[Sequence[bool]] = None) -> JudgedSide:
    """Judges a whole side: which number each field shows, where numbers and fields don't go on together, and whether
    the capture is whole. `readings`, `system`, `counted` and `pace` are as for `judge`. `both` is a `Both` or its name,
    and `may_end` says that the capture may end before the disc does. `clock` says which numbers the disc leaves out: a
    `Clock`, or "find" for the one that `find_clock` finds. None says that it leaves out none, or that it isn't known
    which; then an NTSC CLV disc has a gap at each of these places. `completed` is what `complete_times` makes of the
    readings: numbers are judged by it then, lead-in and lead-out by the readings themselves. `padding` says of each
    field whether it stands for one that the capture lacks, as `Metadata.pad` does; with such a field the capture isn't
    `whole`.

    If a capture of video is `whole`, its fields stand in the disc's order, the disc counts on (by the clock), the words
    misread around the first number and around the last weigh less than 10, and the clock leaves out no number within 12
    of these two, then no field of the disc is lost from 24 fields after the first to 24 before the last. Some faults go
    unseen: ldvbi.h says which."""
    call, packed = later_call("ldvbi_judge_side"), _packed_clock(clock)
    fields = _fields_of(readings, system, counted, pace, both, completed)
    _pad(fields, padding)
    rule = _rule_of(fields, packed or _found_clock(fields))
    count, side, room, is_told = fields.length, ctypes.create_string_buffer(_PACKED_SIDE.size), _ROOM, False
    while not is_told:
        gaps = ctypes.create_string_buffer(_PACKED_GAP.size * room)
        check(call(rule, bool(may_end), fields.seen, count, fields.numbers, count, fields.ends, count, gaps, room,
                   side))
        told = _PACKED_SIDE.unpack(side)
        is_told, room = told[0] <= room, told[0]
    judged = _side_of(told, _gaps_of(gaps, told[0]), fields, _clock_of(rule[-PACKED_CLOCK.size:]))
    return _without_aside(judged, fields, gaps, rule)


def find_clock(readings: Any, system: AnySystem, counted: Union[Counted, str] = Counted.times,
               pace: Union[Pace, str] = Pace.find, both: Union[Both, str] = Both.find) -> Clock:
    """The `Clock` that the believed numbers of a side tell, for `judge_side`, whose arguments these are. Drop-frame is
    tried, and one number left out in 1,000 or in 1,001. It is the one that explains most of the places at which numbers
    don't go on, if these are three or more, and at least twice as many as it speaks against. Else it is `plain`, as of
    PAL, of pictures, and of a side with two minutes or less."""
    later_call("ldvbi_find_clock")
    return _clock_of(_found_clock(_fields_of(readings, system, counted, pace, both)))


def _packed_clock(clock: Any) -> Optional[bytes]:
    """The clock as the library takes it, or None if it is to be found."""
    if clock == "find":
        later_call("ldvbi_find_clock")
        return None
    if clock is None:
        return _PLAIN
    if not isinstance(clock, tuple) or len(clock) != len(Clock._fields):
        raise ValueError("clock is no Clock, nor to be found")
    packed = PACKED_CLOCK.pack(*map(number_of, Clock._fields, clock))
    nothing = [None, 0] * 4  # of no field the library tests the rule alone
    rule = _PACKED_RULE.pack(System.NTSC, Counted.times, Pace.video, Both.on_one, packed)
    check(later_call("ldvbi_judge_side")(rule, 0, *nothing, ctypes.create_string_buffer(_PACKED_SIDE.size)))
    return packed


def _rule_of(fields: _Fields, clock: bytes) -> bytes:
    """The rule by which these fields are judged, as the library takes it."""
    return _PACKED_RULE.pack(*fields.asked, fields.pace, fields.on_both, clock)


def _fields_of(readings, system, counted, pace, both, completed=None):
    """What the library judges of the fields of a side: of the completed readings, if there are any, the numbers."""
    judge, judge_ends, find_both = map(later_call, ("ldvbi_judge", "ldvbi_judge_ends", "ldvbi_find_both"))
    asked = system_number(system), counted_number(counted)
    check(judge(*asked, pace_number(pace), None, 0, None, 0, None, 0))  # of no field the library tests these alone
    both = both_of(both)
    packed, count = packed_of(readings)
    shown, length = (packed, count) if completed is None else packed_of(completed)
    if length != count:
        raise ValueError("of %d fields there are %d completed ones" % (count, length))
    found = find_pace(shown, system, counted) if pace_number(pace) == Pace.find else Pace(pace_number(pace))
    seen, numbers, ends = (ctypes.create_string_buffer(size * count)
                           for size in (SIGHTINGS_BYTES, PACKED_NUMBER.size, PACKED_STATE.size))
    check(judge(*asked, found, shown, count, seen, count, numbers, count))
    check(judge_ends(packed, count, ends, count))
    # of film the library doesn't ask
    on_both = found == Pace.video and bool(find_both(numbers, count) if both == Both.find else both)
    return _Fields(asked, count, found, on_both, seen, numbers, ends)


def _pad(fields: _Fields, padding: Optional[Sequence[bool]]) -> None:
    """Says of these fields that they are padding, in the place of what their lines say of an end of the side."""
    if padding is not None and len(padding) != fields.length:
        raise ValueError("of %d fields there are %d marks of padding" % (fields.length, len(padding)))
    for place, is_padding in enumerate(padding or ()):
        if is_padding:
            PACKED_STATE.pack_into(fields.ends, PACKED_STATE.size * place, End.padding)


def _found_clock(fields: _Fields) -> bytes:
    """The clock that the judged numbers tell, as the library wrote it."""
    found = ctypes.create_string_buffer(PACKED_CLOCK.size)
    check(later_call("ldvbi_find_clock")(_rule_of(fields, _PLAIN), fields.numbers, fields.length, found))
    return bytes(found)


def _clock_of(packed):
    kind, period, phase = PACKED_CLOCK.unpack(packed)
    return Clock(_CLOCKS.get(kind, kind), period, phase)


def _without_aside(judged, fields, gaps, rule):
    """The answer, without the numbers that are set aside by this rule, of these gaps as the library wrote them."""
    if all(gap.kind != GapKind.replaced for gap in judged.gaps):
        return judged
    left, count = ctypes.create_string_buffer(PACKED_NUMBER.size * fields.length), ctypes.c_size_t()
    check(later_call("ldvbi_set_aside")(rule, gaps, len(judged.gaps), fields.numbers, fields.length, left,
                                        fields.length, ctypes.byref(count)))
    numbers = numbers_of(left)
    aside = (field for field, number in enumerate(numbers) if number != judged.numbers[field])
    return judged._replace(numbers=numbers, aside=tuple(aside)) if count.value else judged


def _gaps_of(packed, count):
    """The gaps in a room that has so many."""
    return tuple(Gap(*members, _KINDS.get(kind, kind))
                 for *members, kind in _PACKED_GAP.iter_unpack(bytes(packed)[:_PACKED_GAP.size * count]))


def _side_of(told, gaps, fields, clock):
    """The answer, of the members of an LdvbiSide, what was found besides, and the clock."""
    *tally, first, last, swap, padded, blank, verdict, bits = told
    reasons = Reason(bits)
    is_empty = bool(reasons & Reason.no_numbers)
    return JudgedSide(Verdict(verdict), reasons, None if is_empty else first, None if is_empty else last,
                      swap if reasons & Reason.is_swapped else None, Tally(*tally), gaps, fields.pace, fields.on_both,
                      numbers_of(fields.numbers), clock, padded, blank or None)
