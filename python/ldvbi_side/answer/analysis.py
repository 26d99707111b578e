"""What the words of a side mean: its numbers, what is missing, lost, repeated or doubtful, and where. It takes plain
data, and returns an `Answer` (entries.py). docs/SIDES.md has the rules, and share/schema/ldvbi-side.schema.json the
form that as_json.py gives the answer. Every output is a view of it.

The rules of docs/SIDES.md are in these modules: 1 in paces.py, 2 in readings.py, 3 in chain.py and detours.py, 4 in
chain.py, 5 in numbers.py and places.py, 6 in order.py, 7 in parts.py and readings.py, 8 in places.py, missing.py and
confirmed.py, 9 in clock.py. gaps.py takes in what the library says of the side."""

import operator
from typing import Any, Dict, List, NamedTuple, Optional

from ldvbi import Clock, Kind
from ldvbi.collector import paused
from ..as_json import as_json
from ..judge.numbers import numbers_of
from ..judge.order import pairs_of
from ..judge.places import Break, Places, Showing, places_of
from ..judge.readings import Codes, Fields, codes_of
from .confirmed import with_confirmed
from .doubts import doubts_in
from .ends import Begin, begin_of, unseen_between
from .entries import Answer, Conflict, Doubt, Extent, Lost, Numbered, Speed, Unread
from .gaps import Gaps, gaps_of
from .last import Last, last_of
from .lines import bad_lines_of, levels_of, rates_of
from .missing import is_about, lost_fields, missing_of, own_breaks, repeated_of
from .parts import chapters_of, ends_of, padding_of, status_of, stops_of, users_of
from .whole import YES, reasons_of, whole_of

VERSION = 3  # of the answer's form


class Analysis(NamedTuple):
    """The answer, the breaks between the numbers believed in it (more than the library's), the library's clock, and how
    the side begins if its first number isn't the disc's."""
    answer: Answer
    breaks: List[Break]
    clock: Clock
    begin: Optional[Begin]


def analyse(fields: Fields) -> Dict[str, Any]:
    """The answer for these fields of a side, as plain data."""
    return as_json(analysed(fields).answer)


@paused()
def analysed(fields: Fields) -> Analysis:
    """The analysis of these fields of a side."""
    codes = codes_of(fields)
    found = numbers_of(codes)
    numbers, (doubtful, conflicts, second_rows) = found.numbers, doubts_in(codes, found)
    places = with_confirmed(places_of(numbers, codes), fields.nearest_word)
    gaps = gaps_of(places, codes.kinds[Kind.picture], codes.sure_fields(Kind.lead_out))
    frame_begin = 2 if fields.first and not fields.first[0] else 1
    bad, rates = bad_lines_of(fields), rates_of(fields)
    answer = Answer(
        version=VERSION, system=fields.system, format=codes.format, unit=numbers.unit.name, fields=len(fields.words),
        cut_field=fields.cut, frame_begin=frame_begin, pace=numbers.pace.kind if numbers.pace else None,
        bad_lines=bad, lines=rates, levels=levels_of(rates, bad, fields), metadata_fields=fields.expected,
        sequential_fields=fields.sequential, open_end=fields.may_end, given_last=fields.given_last,
        padding=padding_of(fields), missing=[], left_out=[], lost=[], second_rows=second_rows,
        **_of_numbers(places, gaps, doubtful), **_of_parts(codes, places, doubtful, conflicts, frame_begin))
    begin = begin_of(answer, gaps.judged, numbers.unit, fields.is_strict)
    last = last_of(answer, numbers.unit, numbers.clock)
    answer = _with_losses(answer, places, gaps, codes, begin, last)
    reasons = reasons_of(answer, gaps, begin, fields.is_strict, unseen_between(numbers), last)
    whole = whole_of(reasons)
    answer = answer._replace(whole=whole, reasons=reasons, levels=None if whole == YES else answer.levels)
    return Analysis(answer, _breaks(places, own_breaks(places)), numbers.clock, begin)


def _of_numbers(places: Places, gaps: Gaps, doubtful: List[Doubt]) -> Dict[str, Any]:
    """The numbers, and where they stand: these members of the answer."""
    text_of, showings = places.numbers.unit.text_of, places.showings
    # of each field the first word that is set aside: what was read instead of a number that is due there
    read = {one.field: one for one in reversed(doubtful)}
    numbers = {one.number for one in showings}
    return {
        "numbers": Extent(len(numbers), *(text_of(end(numbers)) if numbers else None for end in (min, max))),
        "showings": [Showing(text_of(number), first, last) for number, first, last in showings],
        "completed": sorted(places.numbers.completed), "confirmed": list(places.confirmed),
        "unread": [Unread(text_of(number), field, read[field].said() if field in read else None)
                   for number, field in places.due],
        "breaks": _breaks(places, gaps.breaks), "detours": _breaks(places, gaps.detours),
        "stills": [one._replace(number=text_of(one.number)) for one in places.stills],
        "repeated": repeated_of(places),
        "speeds": [Speed(one.first, one.last, one.line.name()) for one in places.numbers.speeds],
        "swapped": [Numbered(begin, places.number_at(field))
                    for begin, field in pairs_of(places.numbers.swapped).items()]}


def _breaks(places: Places, breaks: List[Any]) -> List[Any]:
    """Breaks, or detours, with the texts of their numbers."""
    text_of = places.numbers.unit.text_of
    return [one._replace(from_=text_of(one.from_), to=text_of(one.to)) for one in breaks]


def _with_losses(answer: Answer, places: Places, gaps: Gaps, codes: Codes, begin: Optional[Begin],
                 last: Optional[Last]) -> Answer:
    """The answer with what isn't there: also before the side's first number, if that is the least one."""
    missing, left_out = missing_of(places, gaps, codes, begin, last.lacks if last else None)
    lost = lost_fields(places, gaps, (codes.fields.first or ())[:answer.fields])
    if begin and begin.fields > 0 and (begin.before, begin.lacks) == (answer.showings[0].first, answer.numbers.least):
        lost = [Lost(begin.after, begin.before, begin.fields, "number", is_about(answer.pace))] + lost
    if last and last.lost:
        lost = sorted([*lost, last.lost], key=operator.attrgetter("after"))
    return answer._replace(missing=missing, left_out=left_out, lost=lost)


def _of_parts(codes: Codes, places: Places, doubtful: List[Doubt], conflicts: List[Conflict], begin: int
              ) -> Dict[str, Any]:
    """The chapters and the disc's other parts, and all that is set aside: these members of the answer."""
    chapters, doubtful_chapters, chapter_conflicts = chapters_of(codes, places, begin)
    lead_in, stray_in = ends_of(codes, Kind.lead_in, places.numbers)
    lead_out, stray_out = ends_of(codes, Kind.lead_out, places.numbers)
    stops, unsure_stops, stray_stops = stops_of(codes, places, begin)
    return {
        "doubtful": sorted(doubtful + doubtful_chapters), "conflicts": sorted(conflicts),
        "chapter_conflicts": chapter_conflicts, "chapters": chapters, "stops": stops, "unsure_stops": unsure_stops,
        "lead_in": lead_in, "lead_out": lead_out, "stray": sorted(codes.stray + stray_in + stray_out + stray_stops),
        "unknown": codes.unknown, "programme_status": status_of(codes), "users": users_of(codes)}
