"""Whether captures are whole together, as a capture alone is judged: by what none of them has."""

from typing import Iterator, List, Optional, Sequence, Set, Tuple

from ..answer.ends import end_of, ordinal_of
from ..answer.entries import Ground
from ..answer.last import Last, last_of
from ..answer.whole import NO, OPEN, YES, whole_of
from ..join.captures import DUE, NEIGHBOURS, Capture
from ..join.entries import Lacking, Source
from ..join.lacking import LOST, UNDECIDED
from ..texts import UNITS, counted
from .plan import Plan
from .said import numbers_text

# Reasons of a capture that count if all have them, and those that count if any has
_OF_ALL = ("numbers", "off", "unseen", "minutes", "order", "doubtful")
_OF_ANY = ("joined", "format", "last")
Found = Iterator[Tuple[str, str, str]]  # reasons: the word, what it makes of the captures, and the text


def lasts_of(captures: Sequence[Capture]) -> List[Last]:
    """How the captures end whose last number is given."""
    found = (last_of(one.answer, one.unit(), one.clock) for one in captures)
    return [one for one in found if one]


def grounds_of(captures: Sequence[Capture], made: Plan, taken: Sequence[Source], missing: Sequence[Lacking]
               ) -> List[Ground]:
    """Why captures aren't whole together, or why that can't be told, in order of weight. `missing` are the numbers that
    none has. If a capture that is whole has all numbers, there is nothing to say."""
    least, greatest = min(min(one.first) for one in captures), max(max(one.first) for one in captures)
    begins = [one for one in captures if min(one.first) == least]
    ends = [one for one in captures if max(one.first) == greatest]
    if any(one.answer.whole == YES and one in ends for one in begins):
        return []
    found = [Ground(why, whole, text) for why, whole, text in (
        *_lacking(captures, made, taken, missing), *_ends(captures, begins, ends, made, taken),
        *_shared(captures))]
    return sorted(found, key=lambda one: one.whole != NO)


def _lacking(captures: Sequence[Capture], made: Plan, taken: Sequence[Source], missing: Sequence[Lacking]) -> Found:
    """Numbers that no capture has, or whose picture none has whole."""
    for why, name, whole in (("missing", LOST, NO), ("undecided", UNDECIDED, OPEN)):
        count = sum(one.count_ for one in missing if one.why == name)
        if count:
            yield why, whole, "%s %s" % (counted(count, made.unit), name)
    for why, whole, text in (("lost", NO, numbers_text(made, made.partial, "lacks fields", "lack fields")),
                             ("unsure", OPEN, numbers_text(made, made.unsure, *2 * ["may have another's field"]))):
        if text:
            yield why, whole, text
    read = {place.number for one in captures for place in one.places if place.how != NEIGHBOURS}
    rate = made.count_unit().rate
    unread = sum(one.how == NEIGHBOURS and ordinal_of(one.number, rate) not in read for one in taken)
    unread += sum(one.count_ for one in missing if one.why == DUE)
    if unread and any(_of(one, "unread") for one in captures):  # which only a strict judge says
        yield "unread", NO, counted(unread, made.unit) + " unread"
    if set.intersection(*map(_open_places, captures)):
        yield "open", OPEN, "in all of them fields may be lost at the same place"


def _open_places(capture: Capture) -> Set[int]:
    """The numbers after which fields may be lost, or none."""
    fields = {one.after for one in capture.answer.lost if one.by == "undecided"}
    return {place.number for place in capture.places if not fields.isdisjoint(range(place.field, place.last + 1))}


def _ends(captures: Sequence[Capture], begins: Sequence[Capture], ends: Sequence[Capture], made: Plan,
          taken: Sequence[Source]) -> Found:
    """How those begin that have the first number, and those end that have the last one."""
    unit = UNITS[made.unit][:-1]
    lacks = [one.begin.lacks for one in begins if one.begin]
    if len(lacks) == len(begins):
        is_known = None not in lacks
        text = "begins at %s %s" if is_known else "numbers before %s %s may be lost"
        yield "begins" if is_known else "ends", NO if is_known else OPEN, text % (unit, taken[0].number)
    if all(_of(one, "lead-in") for one in captures):
        yield "lead-in", NO, "no lead-in"
    lead_outs = [ground for one in ends for ground in [_of(one, "lead-out")] if ground]
    if len(lead_outs) == len(ends):
        yield "lead-out", whole_of(lead_outs), "no lead-out after %s %s" % (unit, taken[-1].number)
    elif all(end_of(one.answer) for one in ends) and not lasts_of(ends):
        yield "ends", OPEN, "numbers after %s %s may be lost" % (unit, taken[-1].number)


def _shared(captures: Sequence[Capture]) -> Found:
    """Reasons that any capture has, or all."""
    found = {why: [(one.name, ground) for one in captures for ground in [_of(one, why)] if ground]
             for why in _OF_ANY + _OF_ALL}
    for why in _OF_ANY:
        for name, ground in found[why][:1]:
            yield why, ground.whole, "%s: %s" % (name, ground.text)
    for why in _OF_ALL:
        if len(found[why]) == len(captures):
            yield why, OPEN, found[why][0][1].text


def _of(capture: Capture, why: str) -> Optional[Ground]:
    """The reason of a capture that has this word."""
    return next((one for one in capture.answer.reasons if one.why == why), None)
