"""Where two captures disagree about a number. Between two breaks each capture has its numbers at the disc's own pace.
So two of them can only disagree if one of them says something else of the same fields:

- `detour`: the numbers before and after some fields leave these for numbers that the other capture has, and other
  numbers were read there;
- `clock`: one says that the disc's clock leaves out a number, and the other one has it;
- `distance`: numbers are farther from those before them in one capture than in the other, and neither says why."""

import bisect
import itertools
import operator
from typing import Iterator, List, NamedTuple, Set, Tuple

from .captures import NEIGHBOURS, Capture, Place

DETOUR, CLOCK, DISTANCE = "detour", "clock", "distance"


class Part(NamedTuple):
    """What one capture says: the numbers from the first to the last, and the fields that have them. If it leaves the
    numbers out, these are the fields around them."""
    name: str
    first: int
    last: int
    field: int
    last_field: int


class Disagreement(NamedTuple):
    """Two captures that disagree, and why. The first is the one that has the detour, or leaves numbers out."""
    why: str
    one: Part
    other: Part


def disagreements_of(captures: List[Capture]) -> List[Disagreement]:
    """Where any two of the captures disagree."""
    found: List[Disagreement] = []
    for one, other in itertools.permutations(captures, 2):
        found += _detours(one, other)
        found += _left_out(one, other)
    for one, other in itertools.combinations(captures, 2):
        found += _distances(one, other)
    return found


def disputed_in(found: List[Disagreement]) -> Set[Tuple[str, int]]:
    """The captures' names and the fields whose numbers belong in another place, according to what is around them and to
    another capture."""
    return {(one.one.name, field) for one in found if one.why == DETOUR
            for field in range(one.one.field, one.one.last_field + 1)}


def _part(capture, places):
    """What a capture says in these places, which ascend by field."""
    numbers = [place.number for place in places]
    return Part(capture.name, min(numbers), max(numbers), places[0].field, places[-1].last)


# ---- Detours

def _detours(one: Capture, other: Capture) -> Iterator[Disagreement]:
    """Numbers of a capture in the place of others, if the other capture has those. A copy of the capture has the same
    detour."""
    known = set(other.answer.detours)
    detours = [detour for detour in one.answer.detours if detour.kind == "replaced" and detour not in known]
    by_number = sorted(place for place in other.places if place.how != NEIGHBOURS) if detours else []
    fields, numbers_read = [place.field for place in one.places], [place.number for place in by_number]
    for detour in detours:
        before = one.places[bisect.bisect_left(fields, detour.first) - 1]
        after = one.places[bisect.bisect(fields, detour.last)]
        read = sorted(by_number[bisect.bisect(numbers_read, before.number):
                                bisect.bisect_left(numbers_read, after.number)], key=operator.attrgetter("field"))
        if read:
            numbers = one.ordinal(detour.from_), one.ordinal(detour.to)
            yield Disagreement(DETOUR, Part(one.name, *numbers, detour.first, detour.last), _part(other, read))


# ---- Numbers that the clock leaves out

def _left_out(one: Capture, other: Capture) -> Iterator[Disagreement]:
    for stretch in one.answer.left_out:
        first, last = one.ordinal(stretch.first), one.ordinal(stretch.last)
        places = [other.first[number] for number in range(first, last + 1) if number in other.first]
        if places:
            yield Disagreement(CLOCK, Part(one.name, first, last, stretch.after, stretch.before),
                               _part(other, sorted(places, key=lambda place: place.field)))


# ---- Distances

def _distances(one: Capture, other: Capture) -> Iterator[Disagreement]:
    """Numbers of both that are further from those before them in one of the captures, up to where either says that its
    fields don't follow each other. A field more or less may be one that both have of a picture, so it says nothing."""
    paces = one.answer.pace, other.answer.pace
    if "minute" in paces:
        return
    slack = 2 if "both" in paces else 1
    ones = [(capture, _told_before(capture)) for capture in (one, other)]
    before = None
    disputed: List[int] = []
    for number in sorted(one.first.keys() & other.first.keys()):
        apart = one.first[number].field - other.first[number].field
        if before is None or any(_is_told(capture.first[before], capture.first[number], told)
                                 for capture, told in ones):
            yield from _differing(one, other, disputed)
            disputed, offset = [], apart
        elif disputed or abs(apart - offset) > slack:
            disputed.append(number)
        before = number
    yield from _differing(one, other, disputed)


def _differing(one, other, numbers):
    if numbers:
        parts = [_part(capture, [capture.first[number] for number in numbers]) for capture in (one, other)]
        yield Disagreement(DISTANCE, *parts)


def _is_told(before: Place, after: Place, told: List[int]) -> bool:
    """Whether the capture says that the fields of these two places don't follow each other as the disc's."""
    return after.field < before.field or told[after.field] > told[before.field]


def _told_before(capture: Capture) -> List[int]:
    """Of each field how many before it the capture says something of: a break, a loss, numbers shown again, another
    speed, swapped fields, or a number that the clock leaves out."""
    answer, told = capture.answer, [0] * (capture.answer.fields + 2)
    spans = [(lost.after, lost.before) for lost in answer.lost]
    spans += [(one.after, one.before) for one in capture.breaks]
    spans += [(out.after, out.before) for out in answer.left_out]
    spans += [(speed.first, speed.last) for speed in answer.speeds]
    for first, last in spans:
        for field in range(first + 1, last + 1):
            told[field] = 1
    for again in answer.repeated:
        told[again.field] = 1
    for pair in answer.swapped:
        told[pair.field + 1] = 1
    return list(itertools.accumulate(told))
