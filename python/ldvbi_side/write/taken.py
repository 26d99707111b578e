"""Which field each number is taken from, by the plan of the file that `write` makes of the captures."""

import bisect
from typing import Dict, Iterator, List, NamedTuple, Set, Tuple

from ..join.captures import NEIGHBOURS, Capture
from .plan import Plan
from .stretches import Stretch


class Taken(NamedTuple):
    """A number with the capture to take it from, its first field there and in the output, and how it is known there."""
    number: int
    capture: Capture
    field: int
    written: int
    how: str


def taken_of(made: Plan, captures: List[Capture]) -> List[Taken]:
    """Each number that isn't padding, ascending."""
    left_out = set(made.left_out)
    begins = [[place.field for place in capture.places] for capture in captures]
    found: Dict[int, Taken] = {}
    for one in made.stretches:
        if one.source is None:
            continue
        assert one.field is not None
        capture = captures[one.source]
        for number, field, how in (*_shown(one, capture, begins[one.source]),
                                   *_others(one, made.first_field, left_out)):
            found.setdefault(number, Taken(number, capture, field, one.out + field - one.field, how))
    return [found[number] for number in sorted(found)]


def _shown(one: Stretch, capture: Capture, begins: List[int]) -> Iterator[Tuple[int, int, str]]:
    """The numbers of a stretch that its capture shows there, or that are due."""
    assert one.field is not None and one.first is not None and one.last is not None
    first, end = (bisect.bisect_left(begins, field) for field in (one.field, one.field + one.fields))
    for place in capture.places[first:end]:
        if one.first <= place.number <= one.last:
            yield place.number, place.field, place.how


def _others(one: Stretch, first_field: Dict[int, int], left_out: Set[int]) -> Iterator[Tuple[int, int, str]]:
    """All numbers of a stretch, each with the field in which it begins as planned; if that comes before, the first."""
    assert one.field is not None and one.first is not None and one.last is not None
    field = one.field
    for number in range(one.first, one.last + 1):
        if number in first_field:
            field = one.field + max(first_field[number] - one.out, 0)
        if number not in left_out:
            yield number, field, NEIGHBOURS
