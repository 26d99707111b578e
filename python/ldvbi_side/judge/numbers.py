"""The numbers of a side that are believed: pictures of a CAV disc, times of a CLV disc, or its minutes alone. A time is
joined of the minutes on lines 17 and 18 and of the second and picture on line 16.

The library says at which pace the numbers go on, and which it believes; numbers in the place of others are set aside
(detours.py). `anchored` chooses among the other readings, each in its own field. `with_speeds`, `with_turned` and
`with_swaps` then find what this takes for stills or breaks, or sets aside. Speeds come before swaps: a swap is found
between two numbers that fit, and those of another speed fit only then. Each step returns new `Numbers`, whose `off` and
`fit` say how two numbers stand to each other. docs/SIDES.md has the rules."""

from typing import Dict, List, NamedTuple, Optional

from ldvbi import Counted, JudgedSide, Kind, State
from .believed import Line, Numbers
from .chain import anchored, chain, judged_of, pace_of
from .detours import set_aside, without_rows
from .order import with_speeds, with_swaps, with_turned
from .paces import RATES, MinutePace, Unit
from .readings import ByField, Codes, Reading

SECOND = (16,)  # the line that has the second and the picture of a time
CARRIED = 1  # seconds that are lost at most if a minute is carried over although others were read


class Times(NamedTuple):
    """The two parts of a side's times. `minutes` has the values of each field with their lines. `parts` has the
    pictures from the start of the minute; a minute has `whole` of them."""
    codes: Codes
    rate: int
    whole: int
    minutes: ByField
    parts: Dict[int, int]

    def joined(self) -> List[Reading]:
        """Each second and picture with the minutes of its field, or else of the field after or before it."""
        readings = []
        for field, part in sorted(self.parts.items()):
            near = next((near for near in (field, field + 1) if near in self.minutes), field - 1)
            for value, lines in self.minutes.get(near, {}).items():
                # a number that is joined of two is as sure as the less sure one
                weight = min(self.codes.weight(near, lines), self.codes.weight(field, SECOND))
                readings.append(Reading(field, value * self.whole + part, weight,
                                        SECOND + lines if near == field else SECOND))
        return readings

    def with_voted(self, readings: List[Reading], judged: JudgedSide) -> List[Reading]:
        """These readings, and the times of fields without a minute to which the library gave one by vote."""
        more = [Reading(field, number, self.codes.weight(field, SECOND), SECOND)
                for field in self.parts.keys() - {one.field for one in readings}
                for number, state in [judged.numbers[field - 1]]
                if number is not None and state in (State.believed, State.doubtful)]
        return sorted(readings + more)

    def of_line(self, line: Line, fields: List[int]) -> List[Reading]:
        """The times of these fields of a line, in which only the second and the picture were read."""
        return [Reading(field, line.number_at(field), self.codes.weight(field, SECOND), SECOND) for field in fields
                if self.parts.get(field) == line.number_at(field) % self.whole]

    def completed_weight(self, field: int) -> int:
        """The weight of line 16, less that of any minute which the field itself says: it is another one."""
        against = [self.codes.weight(field, lines) for lines in self.minutes.get(field, {}).values()]
        return max(self.codes.weight(field, SECOND) - max(against, default=0), 0)


class Found(NamedTuple):
    """The believed numbers of a side, the readings from which they were chosen, and, for a CLV side, the times."""
    numbers: Numbers
    readings: List[Reading]
    times: Optional[Times] = None


def numbers_of(codes: Codes) -> Found:
    """The believed numbers of these codes."""
    return _times_of(codes) if codes.format == "clv" else _pictures_of(codes)


def _pictures_of(codes):
    """The picture numbers of a CAV side, or of one without codes of either format."""
    judged = judged_of(codes.fields, Counted.pictures)
    known = codes.readings(codes.kinds[Kind.picture])
    if not known:
        return Found(Numbers(Unit(None, RATES[codes.fields.system]), judged=judged), [])
    pace = pace_of(judged)
    readings = without_rows(known, set_aside(judged), judged, pace)
    # a field with a chapter is the second one of its picture, unless both have the number
    others = set() if pace.kind == "both" else codes.sure_fields(Kind.chapter)
    unit, believed = Unit("picture", RATES[codes.fields.system]), anchored(readings, pace, judged)
    numbers = Numbers(unit, pace, believed, others, judged=judged)
    numbers = with_turned(with_speeds(numbers, readings), readings)
    return Found(with_swaps(numbers, readings, {reading.field for reading in readings}), known)


# ---- Times

def _times_of(codes):
    """The times of a CLV side, or its minutes if no field has a second and picture that can be joined to them."""
    rate = RATES[codes.fields.system]
    parts = {field: second * rate + picture for field, values in codes.kinds[Kind.clv_picture].items()
             for second, picture in values if picture < rate}
    times = Times(codes, rate, 60 * rate, codes.minutes(), parts)
    readings = times.joined()
    return _believed(times, readings) if readings else _minutes_alone(times)


def _minutes_alone(times):
    """The minutes of a side without a second that can be joined to one."""
    fields, readings = times.codes.fields, times.codes.readings(times.minutes)
    if not readings:
        return Found(Numbers(Unit(None, times.rate), judged=judged_of(fields, Counted.times)), [], times)
    pace = MinutePace(fields.system)
    return Found(Numbers(Unit("minute", times.rate), pace, chain(readings, pace)), readings, times)


def _believed(times, readings):
    """The numbers of these times. Fields without a minute that is believed get the one that brings them nearest to the
    believed times around them, and the chain is drawn again."""
    codes = times.codes
    judged = judged_of(codes.fields, Counted.times)
    pace = pace_of(judged)
    others = set().union(*map(codes.sure_fields, (Kind.chapter, Kind.cx_on, Kind.cx_off)))
    readings = times.with_voted(readings, judged)
    known = without_rows(readings, set_aside(judged), judged, pace)
    believed = anchored(known, pace, judged)
    numbers = Numbers(Unit("time", times.rate), pace, believed, others, judged=judged)
    more = _completions(times, numbers, known)
    with_more = sorted(known + more, key=lambda one: one.field)
    if more:
        numbers = numbers._replace(believed=anchored(with_more, pace, judged))
    numbers = with_swaps(with_speeds(numbers, known, times.of_line), with_more, times.parts)
    completed = frozenset(reading.field for reading in numbers.believed if reading.lines == SECOND)
    return Found(numbers._replace(completed=completed), readings, times)


def _completions(times, numbers, readings):
    """The times of fields whose minute isn't believed, with the minute that brings them nearest to one beside them."""
    more, said = [], {(reading.field, reading.number) for reading in readings}
    most = CARRIED * times.rate
    for field in sorted(times.parts.keys() - numbers.taken.keys()):
        dues = [near.number + (field - near.field) // 2 for near in numbers.around(field) if near]
        found = {due - most + off for due in dues for off in [(times.parts[field] - due + most) % times.whole]
                 if off <= 2 * most}
        more += [Reading(field, number, times.completed_weight(field), SECOND) for number in sorted(found)
                 if number >= 0 and (field, number) not in said]
    return more
