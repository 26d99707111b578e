"""Numbers that no field has, each lost or unread, by whether there are fields for it; fields that are lost, by the
gaps; and numbers that are shown again."""

import bisect
import itertools
import operator
from typing import Any, Dict, Iterator, List, Optional, Sequence, Tuple

from ldvbi import ClockKind
from ..judge.believed import stretch_at
from ..judge.order import pairs_of
from ..judge.paces import Pace
from ..judge.places import Break, Places, Showing
from ..judge.readings import Codes
from .ends import FIRST, Begin, ordinal_of
from .entries import Lost, Missing, Repeated
from .gaps import Between, Gaps

FAR = 10  # numbers passed over to one that fields may be there for: from here on most of them are sure to be lost
Spans = List[Tuple[str, List[Tuple[int, int]]]]


def missing_of(places: Places, gaps: Gaps, codes: Codes, begin: Optional[Begin], end: Optional[Break] = None
               ) -> Tuple[List[Missing], List[Missing]]:
    """The numbers that no field has, in stretches of one reason: those between the least and the greatest, those that
    are lost before the least one, as `begin` says, and those between the greatest one and the `end`; and those that the
    disc's clock left out. A number is lost only in a gap that lacks fields."""
    unit, breaks, unshown = places.numbers.unit, places.breaks, set(places.unshown)
    firsts = {one.number: one.first for one in reversed(places.showings)}
    lost = [(one.after, one.before) for one in gaps.breaks + gaps.at_speed if one.kind == "lost"]
    others = [(one.from_, one.to) for one in gaps.at_speed]
    if begin and begin.fields > 0:
        number, start, least = ordinal_of(begin.lacks, unit.rate), FIRST[unit.name] - 1, min(firsts)
        is_first = (number, begin.before) == (least, firsts[least])
        if is_first:  # as if the number before the disc's first one stood before the lost fields
            breaks = [Break("lost", begin.after, begin.before, start, number, begin.fields)] + breaks
            unshown |= places.numbers.clock.left_out_in(start, number)
            firsts[start] = begin.after
        if is_first or places.numbers.clock.kind != ClockKind.plain or codes.fields.system != "NTSC" or (
                unit.name != "time"):  # else an unknown clock may have left out some
            lost.append((begin.after, begin.before))
            others.append((min(firsts), number))
    if end:
        breaks, firsts = breaks + [end], {**firsts, end.to: end.before}
        lost += [(end.after, end.before)] * (end.kind == "lost")
        unshown |= places.numbers.clock.left_out_in(end.from_, end.to)
    losses = Between(lost)
    passed = _passed_over(places, breaks, losses, codes)
    unread = places.without_field.union([number for number, _ in places.due])
    known = (("clock", places.left_out), ("unread", unread), ("unshown", unshown))
    whys = PassedOver([*((why, [(one, one) for one in ones]) for why, ones in known), *passed, ("lost", others)])
    numbers = sorted(firsts)
    stretches: List[List[Any]] = []
    for one, other in zip(numbers, numbers[1:]):
        ends = firsts[one], firsts[other]
        for first, last, why in whys.parts(one + 1, other - 1) if other - one > 1 else ():
            if why == "lost" and ends[0] < ends[1] and not losses.meet(*ends):
                why = "undecided"
            if stretches and stretches[-1][1:] == [first - 1, why, ends]:
                stretches[-1][1] = last
            elif why != "unshown":
                stretches.append([first, last, why, ends])
    missing = [Missing(unit.text_of(first), unit.text_of(last), last - first + 1, why, *ends)
               for first, last, why, ends in stretches]
    return [one for one in missing if one.why != "clock"], [one for one in missing if one.why == "clock"]


# ---- Lost or unread

def fates(first: int, last: int, spare: int, is_lost: Optional[bool]) -> Iterator[Tuple[str, int, int]]:
    """Why numbers aren't there that are passed over between two fields, each reason with the first and the last number.
    For `spare` of them there are fields between in which they may stand. `is_lost` says whether enough fields are lost
    that one of them may be lost, too; it is None if that isn't known."""
    yield "lost", first, last
    if not is_lost:
        yield "undecided" if is_lost is None else "unread", first, last
    elif FAR * spare > last - first + 1:
        yield "undecided", first, last
    else:  # beside a wide jump only the numbers next to it can have been there
        yield "undecided", first, first + spare - 1
        yield "undecided", last - spare + 1, last


class PassedOver:
    """Why numbers aren't there, by spans of numbers in the order of their weight: one field for a number is enough. If
    it is in no span, as what is only between two sides, that isn't known."""

    def __init__(self, spans: Spans) -> None:
        ends = sorted((number, place, count) for place, (_, ones) in enumerate(spans) for first, last in ones
                      if first <= last for number, count in ((first, 1), (last + 1, -1)))
        # from each of `begins` to the next one all numbers have one reason
        self.begins, self._whys, inside = [], ["undecided"], [0] * len(spans)
        for begin, changes in itertools.groupby(ends, operator.itemgetter(0)):
            for _, place, count in changes:
                inside[place] += count
            self.begins.append(begin)
            self._whys.append(next((why for (why, _), count in zip(spans, inside) if count), "undecided"))

    def parts(self, first: int, last: int) -> Iterator[Tuple[int, int, str]]:
        """The numbers from the first to the last in parts of one reason each."""
        begin, end = bisect.bisect(self.begins, first), bisect.bisect(self.begins, last)
        cuts = [first, *self.begins[begin:end], last + 1]
        for place, (cut, other) in enumerate(zip(cuts, cuts[1:]), begin):
            yield cut, other - 1, self._whys[place]


def _passed_over(places: Places, breaks: List[Break], losses: Between, codes: Codes) -> Spans:
    """Why numbers aren't there that were passed over between two believed ones, or between two sides: lost only in a
    gap that lacks fields, unless a field in it shows them in pass 1 on both lines."""
    spans: Dict[str, List[Tuple[int, int]]] = {
        "unread": [], "undecided": [(one, one) for one in places.open], "lost": []}
    for one in breaks:
        if one.from_ < one.to and (one.kind == "held" or losses.meet(one.after, one.before)):
            for why, first, last in fates(one.from_ + 1, one.to - 1, *_fate(one, places.numbers, codes.fields)):
                spans[why].append((first, last))
            shown = map(codes.sure_picture, range(one.after, one.before))
            spans["undecided"] += [(number, number) for number in shown if number is not None]
    between = (sorted((before.number, after.number)) for before, after in places.joins)  # these two are shown
    return [*spans.items(), ("unshown", [(low, high) for low, high in between])]


def _fate(one, numbers, fields):
    """For how many of the numbers that are passed over at a break there may be fields, and whether some are lost. Where
    no field is too few, something was read or seen in one for each: else the player may have searched in the dark."""
    between = range(one.after + 1, one.before)
    passed = one.to - one.from_ - 1 - len(numbers.clock.left_out_in(one.from_ + 1, one.to - 1))
    if one.kind == "held":
        seen = sum(field not in numbers.others and set(fields.causes[field - 1]) != {"blank"}
                   for field in between)
        return passed, False if seen >= passed else None
    is_lost = one.fields >= numbers.pace.least
    if all(field in numbers.others for field in between):  # so that each number was in a field that is lost
        return 0, is_lost if one.fields >= passed else None
    return passed - numbers.pace.numbers_in(one.fields), is_lost


# ---- Lost fields

def lost_fields(places: Places, gaps: Gaps, first: Sequence[bool]) -> List[Lost]:
    """Where fields are lost: by the gaps, and, between the first number and the last, by two fields of one parity in a
    row. If the numbers go on there, this is undecided: one was shown again, or the metadata is wrong, or fields were
    lost and others shown again. `first` says of each field whether it is the first one of its frame."""
    or_more = is_about(places.numbers.pace.kind if places.numbers.pace else None)
    lost = sorted([Lost(one.after, one.before, one.fields, by, or_more)
                   for by, ones in (("number", gaps.breaks), ("undecided", gaps.open))
                   for one in ones if one.kind == "lost"], key=lambda one: one.after)
    numbers, sides = places.numbers, Between([(before.field, after.field) for before, after in places.joins] +
                                             [(one.after, one.before) for one in gaps.joins])
    alike = {field for field, (before, after) in enumerate(zip(first, first[1:]), 2) if before == after}
    # two swapped fields make the first of them, and the one after both, look like the field before
    swapped = {field for begin in pairs_of(numbers.swapped) if {begin, begin + 2} <= alike
               for field in (begin, begin + 2)}
    # minutes alone don't show whether the numbers go on between a field and the one before it
    shows = isinstance(numbers.pace, Pace)
    return _with_parity(lost, [
        (field, "undecided" if shows and numbers.fit(numbers.around(field, field - 1)) else "parity")
        for field in sorted(alike - swapped)
        if numbers.fields and numbers.fields[0] < field <= numbers.fields[-1] and not sides.meet(field - 1, field)])


def is_about(pace: Optional[str]) -> bool:
    """Whether more fields may be lost than numbers of this pace show: a picture of film has two or three, both fields
    of a picture have its number, or all of a minute."""
    return pace in ("film", "both", "minute")


def own_breaks(places: Places) -> List[Break]:
    """The breaks of the numbers that are believed here. If a picture was read in one of its two fields, it isn't known
    in which. So if one field is lost, such pictures before the loss may stand after it, if their field is taken for the
    first one. (The chain of numbers has the break as late as it can be.)"""
    pace = places.numbers.pace
    if not pace or pace.kind != "both":
        return places.breaks
    return [one._replace(after=_first_after(places.numbers, one.after)) if one.kind == "lost" and one.fields == 1
            else one for one in places.breaks]


def _first_after(numbers, after):
    """The first field after which the one may be lost that is lost after this one."""
    place = bisect.bisect(numbers.fields, after) - 1
    # one before them was read in its second field: else all of these would be taken for that, and none would be lost
    while numbers.believed[place].variant == 0 and numbers.off(
            numbers.believed[place - 1], numbers.believed[place]) == 0:
        place -= 1
    return numbers.fields[place]


def _with_parity(lost, fields):
    """What is lost by numbers, with these fields, each of which has the parity of the one before, and how it is known
    that something is lost between them if the numbers don't show that."""
    found, place = [], 0
    for field, by in fields:
        while place < len(lost) and lost[place].before < field:
            place += 1
        if place == len(lost) or lost[place].after >= field:
            found.append(Lost(field - 1, field, None, by))
        elif lost[place].by == "number":
            one = lost[place]
            after, before = (field - 1, field) if one.fields == 1 else (one.after, one.before)
            lost[place] = Lost(after, before, one.fields, "both", one.or_more)
    return sorted(lost + found, key=lambda one: one.after)


# ---- Shown again

def repeated_of(places: Places) -> List[Repeated]:
    """Numbers that are shown again, in stretches. A number that is due in a damaged field counts as shown there, so
    damage doesn't break a stretch."""
    shown = places.showings + [Showing(number, field, field) for number, field in places.due]
    if places.numbers.pace and places.numbers.pace.kind == "both":  # of a swapped pair the pictures' other fields count
        shown = [one for one in shown if one.first not in places.numbers.swapped]
    if len(shown) == len({one.number for one in shown}):  # as mostly
        return []
    seen: Dict[int, int] = {}
    stretches: List[Repeated] = []
    # whether the last stretch may go on with greater numbers, or with any at the other speed at which it was played
    goes_on, speed = False, None
    speeds = places.numbers.speeds
    for number, first, last in sorted(shown, key=lambda showing: showing.first):
        played = stretch_at(speeds, first)
        if number not in seen:
            seen[number] = first
            goes_on = goes_on and played is not None
        elif goes_on and played == speed and (played or number >= stretches[-1].last):
            stretches[-1] = stretches[-1]._replace(last=number, last_field=last)
        else:
            stretches.append(Repeated(number, number, first, last, seen[number]))
            goes_on, speed = True, played
    text_of = places.numbers.unit.text_of
    return [one._replace(first=text_of(one.first), last=text_of(one.last)) for one in stretches]
