"""How a side ends whose last number is given, as a sleeve has it: what it lacks of the numbers up to that one."""

import math
import re
from typing import Any, Dict, List, NamedTuple, Optional, Tuple

from ldvbi import Clock, ClockKind
from ..judge.clock import DROP_FRAME
from ..judge.paces import MINUTE_FIELDS, Unit
from ..judge.places import Break
from .ends import ordinal_of
from .entries import Answer, Lost
from .missing import is_about

EVEN = 1000  # numbers to one that an even clock leaves out


class Last(NamedTuple):
    """The last number of the disc, as a count, and whether it `is_there`, or the side ends `beyond` it. `lacks` is what
    the side lacks up to it: fields that are too few, or numbers alone (`held`), or None; `lost` has the fields that are
    lost for sure."""
    number: int
    is_there: bool
    beyond: bool
    lacks: Optional[Break] = None
    lost: Optional[Lost] = None


def last_of(answer: Answer, unit: Unit, clock: Clock) -> Optional[Last]:
    """How a side ends whose last number is given; None if none is, or it is none of the side's."""
    given = _counts_of(answer.given_last, unit) if answer.given_last and answer.showings else None
    if given is None:
        return None
    first, last = given
    greatest = ordinal_of(answer.numbers.greatest, unit.rate)
    if greatest > last:
        return Last(last, False, True)
    own = next(one for one in reversed(answer.showings) if one.number == answer.numbers.greatest)
    # up to another number, an end of the disc, or the end of all there may be more of what follows
    ends: List[Any] = [*answer.showings, *answer.lead_in, *answer.lead_out]
    before = min((one.first for one in ends if one.first > own.last), default=answer.fields + 1)
    # at least how many fields the number has after the last one that shows it
    number, there, rest = max(first, greatest), before - own.last - 1, int(answer.pace in ("video", "film"))
    least, most = (max(fields - there, 0) for fields in _due(number, greatest, rest, answer, clock))
    lacks = lost = None
    # lead-out may begin with the last picture's other field
    if number > greatest or least and before > answer.fields:
        lacks = Break("lost" if least else "held", own.last + min(there, rest), before, greatest, number + 1, most)
        or_more = least != most or first != last or is_about(answer.pace)
        lost = Lost(lacks.after, before, least, "number", or_more) if least else None
    return Last(number, number == greatest, False, lacks, lost)


def _counts_of(text: str, unit: Unit) -> Optional[Tuple[int, int]]:
    """The first and the last number, as counts, that a text stands for; None if it is none of this unit."""
    count, *more = map(int, re.split("[:.]", text))
    if bool(more) == (unit.name == "picture") or any(
            part >= limit for part, limit in zip(more, (60, 60, unit.rate))):
        return None
    of_units: Dict[Optional[str], List[int]] = {"picture": [], "minute": [60], "time": [60, 60, unit.rate]}
    bases = of_units[unit.name]
    for part, base in zip(more, bases):
        count = count * base + part
    size = math.prod(bases[len(more):])
    return count * size, (count + 1) * size - 1


def _due(number: int, greatest: int, rest: int, answer: Answer, clock: Clock) -> Tuple[int, int]:
    """How many fields a disc has from those of its greatest number on to this one, at least and at most."""
    count = number - greatest
    if answer.unit == "minute":
        least, some, _ = MINUTE_FIELDS[answer.system]
        return (count - 1) * least + 1, count * some
    count -= len(clock.left_out_in(greatest + 1, number - 1))
    fields = rest + (5 * count // 2 if answer.pace == "film" else 2 * count)
    if answer.unit != "time" or answer.system != "NTSC" or clock.kind != ClockKind.plain:
        return fields, fields
    left_out = max(len(DROP_FRAME.left_out_in(greatest + 1, number - 1)), 1 + (count - 2) // EVEN)
    least = fields - 2 * left_out
    return least, fields if count - 1 > left_out else least
