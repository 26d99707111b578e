"""The two ends of a side: whether it has fields for the numbers before its first one, and how far it goes on without
numbers. This is judged by the answer's other members and the library's reasons."""

from typing import Any, Dict, List, NamedTuple, Optional, Tuple

from ldvbi import Clock, ClockKind, JudgedSide, Reason
from ..judge.believed import Numbers
from ..judge.clock import NO_CLOCK
from ..judge.paces import RATES, Unit
from .entries import Answer

# The last number, as a count, with which a disc may begin
FIRST: Dict[Optional[str], int] = {"picture": 1, "time": 1, "minute": 0}
LONGEST = 100  # fields without a number that may be a scratch
LEFT_OUT = 2  # numbers that the clock of an NTSC disc leaves out in a minute, at most, if it isn't known


class Begin(NamedTuple):
    """How a side begins whose first number isn't the disc's. `lacks` is the number before which it lacks fields,
    `fields` is how many these are by the numbers (by minutes alone, at least how many), and `after` and `before` are
    the two fields around the place; `after` is 0 at the start of the side. If that can't be told, `unread` has the
    first and the last of the fields there."""
    lacks: Any = None
    unread: Optional[Tuple[int, int]] = None
    fields: int = 0
    after: int = 0
    before: int = 0


def begin_of(answer: Answer, judged: Optional[JudgedSide], unit: Unit, is_strict: bool) -> Optional[Begin]:
    """How a side begins, by the library, or for minutes alone by the fields before the first one; None if there is
    nothing to say. With `is_strict` all numbers from the disc's first one on have to be read, too."""
    least = answer.numbers.least
    if least is None:
        return None
    clock = judged.clock if judged else NO_CLOCK
    number, field, _ = answer.showings[0]
    is_first = ordinal_of(least, unit.rate) <= FIRST[answer.unit]
    if judged and judged.first is not None:
        field, number = judged.first + 1, unit.text_of(judged.numbers[judged.first].number or 0)
    (fewest, most), there = _fields_before(number, answer, clock), fields_there(answer, field)
    if judged:
        is_open = bool(judged.reasons & (Reason.begins_late | Reason.begin_unseen))
        is_late = bool(judged.reasons & Reason.begins_late) and there < fewest
    else:
        is_open = not is_first
        is_late = is_open and there < fewest
    if is_late or is_strict and not is_first:
        lost = (fewest if answer.unit == "minute" else most) - there if is_late else 0
        return Begin(number, None, lost, field - 1 - there, field)
    return Begin(unread=(field - there, field - 1)) if is_open else None


def fields_there(answer: Answer, field: int) -> int:
    """How many fields stand before this one, from the lead-in on."""
    return field - 1 - max((one.last for one in answer.lead_in if one.last < field), default=0)


def end_of(answer: Answer) -> Optional[Tuple[int, int]]:
    """The first and the last field after the last number and before the lead-out, or before the end of the side; None
    if they are no more than a scratch has."""
    shown = answer.showings[-1].last if answer.showings else answer.fields
    after = fields_after(answer, shown)
    return (shown + 1, shown + after) if after > LONGEST else None


def fields_after(answer: Answer, field: int) -> int:
    """How many fields stand after this one, up to the lead-out; -1 if that begins in it."""
    return min((one.first - 1 for one in answer.lead_out if one.first >= field), default=answer.fields) - field


def unseen_between(numbers: Numbers) -> List[Tuple[int, int]]:
    """The first and the last field of each stretch between two numbers that fit, if it is longer than a scratch."""
    pairs = [numbers.believed[place - 1:place + 1] for place in numbers.odd_places]
    return [(before.field + 1, after.field - 1) for before, after in pairs
            if after.field - before.field > LONGEST + 1 and numbers.off(before, after) == 0]


def _fields_before(number: Any, answer: Answer, clock: Clock) -> Tuple[int, int]:
    """How many fields a disc has before this number, from the last one on with which it may begin, at least and at
    most: if no clock was found of an NTSC disc, it may leave out times."""
    rate, unit = RATES[answer.system], answer.unit
    begin, end = FIRST[unit], ordinal_of(number, rate)
    count = end - begin - clock.left_out_below(end) + clock.left_out_below(begin)
    if unit == "picture" or clock.kind != ClockKind.plain:
        fields = 5 * count // 2 if answer.pace == "film" else 2 * count
        return fields, fields
    times = 60 * rate * count if unit == "minute" else count
    left_out = LEFT_OUT * (times // (60 * rate) + 1) if answer.system == "NTSC" else 0
    return 2 * (times - left_out), 2 * times


def ordinal_of(number: Any, rate: int) -> int:
    """A number of the answer as a count: a picture as it is, a minute in minutes, a time in pictures from the disc's
    start, with `rate` pictures a second."""
    if isinstance(number, int):
        return number
    clock, _, picture = number.partition(".")
    total = sum(int(part) * 60 ** place for place, part in enumerate(reversed(clock.split(":"))))
    return total * rate + int(picture) if picture else total
