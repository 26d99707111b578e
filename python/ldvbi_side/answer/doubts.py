"""What is set aside, as entries of the answer: doubtful numbers, lines that differ, and rows that weren't taken."""

import array
import functools
from typing import Any, Callable, Dict, List, Mapping, Optional, Tuple, cast

from ldvbi import Counted, Kind, Pace as JudgedPace, judge
from ldvbi.codes import LINES
from ..judge.believed import Numbers
from ..judge.chain import sure_in
from ..judge.numbers import Found
from ..judge.paces import minute_text, price
from ..judge.readings import Codes, Lines, Reading
from .entries import Conflict, Doubt, Numbered, SecondRow

WIDEST = price(1 << 18)  # more than the widest break of a side costs
SHARE = 10  # believed readings to one of a second row, at most
_doubt = cast(Callable[..., Doubt], functools.partial(tuple.__new__, Doubt))  # there may be many


# Why a number that is set aside is doubtful, and the believed readings around it, as the answer has them
Beside = Tuple[str, Optional[Numbered], Optional[Numbered]]
BesideOf = Callable[[int, bool], Beside]  # of a field, and whether its lines differ


def beside_in(numbers: Numbers) -> BesideOf:
    """What is beside a field, and why a number of it is set aside: because there is another one, or else because of the
    numbers around it. Between two believed readings it is the same, so it is kept."""
    text_of = numbers.unit.text_of

    @functools.lru_cache(maxsize=None)
    def between(before: Optional[Reading], after: Optional[Reading], is_conflict: bool) -> Beside:
        why = "lines" if is_conflict else "neighbours" if numbers.fit((before, after)) else "alone"
        return (why, before and Numbered(before.field, text_of(before.number)),
                after and Numbered(after.field, text_of(after.number)))

    return lambda field, is_conflict: between(*numbers.around(field), is_conflict)


def doubts_in(codes: Codes, found: Found) -> Tuple[List[Doubt], List[Conflict], List[SecondRow]]:
    """What is set aside of the numbers of these codes, the fields whose lines differ, and second rows of numbers."""
    numbers, readings, times = found
    if numbers.unit.name == "time":
        doubtful, conflicts = _times_aside(times, numbers)
    else:
        doubtful, conflicts = aside_of(codes, Kind.picture if numbers.unit.name == "picture" else Kind.time, readings,
                                       numbers.taken, beside_in(numbers), numbers.unit.text_of)
    if times is not None:  # minutes, seconds and pictures that no clock shows, and seconds beside minutes alone
        parts = codes.kinds[Kind.clv_picture].keys()
        off: List[Tuple[Kind, int, Lines, str]] = [
            (Kind.clv_picture, field, (16,), "clock") for field in parts - times.parts.keys()]
        off += [(Kind.time, field, values[None], "clock")
                for field, values in codes.kinds[Kind.time].items() if None in values]
        off += [(Kind.clv_picture, field, (16,), "minute") for field in times.parts if numbers.unit.name != "time"]
        doubtful = [one for kind, field, lines, why in off
                    for one in doubts_of(codes, kind, field, lines, None, (why, None, None))] + doubtful
    rest = [one for one in readings if numbers.taken.get(one.field) != one.number]
    rows = _second_rows(codes, numbers, rest) if numbers.judged else []
    return doubtful, conflicts, rows


def doubts_of(codes: Codes, kind: Kind, field: int, lines: Lines, text: Any, beside: Beside) -> List[Doubt]:
    """The words of these lines, which are of this kind and whose number is this text."""
    words, passes, (why, before, after) = codes.fields.words[field - 1], codes.fields.passes[field - 1], beside
    return [_doubt((field, line, words[line - LINES[0]], kind, passes[line - LINES[0]], why, text, before, after))
            for line in lines]


def aside_of(codes: Codes, kind: Kind, readings: List[Reading], taken: Mapping[int, int], beside: BesideOf,
             text_of: Callable[[int], Any] = int) -> Tuple[List[Doubt], List[Conflict]]:
    """The readings of a kind that aren't in `taken`, the believed ones by field, and the fields whose lines differ."""
    get, doubtful, conflicts = taken.get, [], []
    aside = {one.field for one in readings if get(one.field) != one.number}
    said: Dict[int, List[Reading]] = {}
    for one in readings if aside else ():
        if one.field in aside:
            said.setdefault(one.field, []).append(one)
    for field, ones in said.items():
        around = beside(field, len(ones) > 1)
        for one in ones:
            if one.number != get(field):
                doubtful += doubts_of(codes, kind, field, one.lines, text_of(one.number), around)
        if len(ones) > 1:
            of_line = {line: text_of(one.number) for one in ones for line in one.lines}
            right = text_of(taken[field]) if field in taken else None
            conflicts.append(Conflict(field, of_line.get(17), of_line.get(18), right))
    return doubtful, conflicts


def _second_rows(codes: Codes, numbers: Numbers, rest: List[Reading]) -> List[SecondRow]:
    """Readings that aren't believed, but of which the library believes a row if it is shown these alone: as of a
    line on which one digit is always read wrong, or of a second disc. Which of two rows is the right one isn't known
    if their weights are near. A few of many wrong numbers always fit, so a row weighs more than the widest break,
    and has at least a tenth of the readings that are believed beside it."""
    row = _row_of(codes, numbers, rest) if sum(one.weight for one in rest) > WIDEST else []
    weight = sum(one.weight for one in row)
    beside = numbers.believed[numbers.places_in(row[0].field, row[-1].field)] if row else []
    if weight <= WIDEST or SHARE * len(row) < len(beside):
        return []
    fields, text_of = {reading.field for reading in row}, numbers.unit.text_of
    return [SecondRow(text_of(row[0].number), text_of(row[-1].number), row[0].field, row[-1].field, len(row), weight,
                      sum(one.weight for one in beside if one.field in fields))]


def _row_of(codes, numbers, rest):
    """Those of these readings that the library believes of a side on which nothing else was read."""
    fields, lines = codes.fields, array.array("Q", codes.fields.packed)  # a line has eight bytes
    left = array.array("Q", bytes(len(fields.packed)))  # no line has a word
    for one in rest:
        begin = len(LINES) * (one.field - 1) - LINES[0]
        for line in one.lines:
            left[begin + line] = lines[begin + line]
    pace = JudgedPace.film if numbers.pace.kind == "film" else JudgedPace.video
    counted = Counted.pictures if numbers.unit.name == "picture" else Counted.times
    get = sure_in(judge(left, fields.system, counted, pace)).get
    return [one for one in rest if get(one.field) == one.number]


# ---- Times

def _times_aside(times, numbers):
    """The minutes and the seconds that aren't believed, each for itself, and the fields whose lines differ."""
    codes, taken, beside = times.codes, numbers.taken, beside_in(numbers)
    alone = sorted(times.parts.keys() - taken.keys())
    seconds = [one for field in alone for one in doubts_of(
        codes, Kind.clv_picture, field, (16,), "%02d.%02d" % divmod(times.parts[field], times.rate),
        beside(field, False))]
    minute_of = {field: number // times.whole for field, number in taken.items()}
    said = {field: values for field, values in times.minutes.items() if list(values) != [minute_of.get(field)]}
    right = {field: minute_of[field] for field, values in said.items() if minute_of.get(field) in values}
    minutes, conflicts = aside_of(codes, Kind.time, codes.readings(said), right, beside, minute_text)
    # between two pictures a field without a number may belong to either, so that either's minute is right there
    due = {(field, minute_text((near.number + (field - near.field + off) // 2) // times.whole))
           for field in said.keys() - taken.keys() for near in numbers.around(field) if near for off in (0, 1)}
    return seconds + [one for one in minutes if (one.field, one.number) not in due], conflicts
