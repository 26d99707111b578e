"""Chapters and picture stops of captures together: each by its number, in the capture from which that is taken."""

import bisect
from collections import defaultdict
from typing import Any, Iterator, List, NamedTuple, Sequence, Tuple

from ..answer.entries import frame_of
from ..join.captures import Capture
from ..join.entries import ChapterAt, StopAt
from ..judge.paces import Unit
from .taken import Taken


class _Said(NamedTuple):
    """A chapter that begins at a number, and how many fields after that one's first it is shown."""
    number: int
    chapter: int
    offset: int


def chapters_at(captures: Sequence[Capture], taken: Sequence[Taken], unit: Unit) -> List[ChapterAt]:
    """Where each stretch of a chapter begins: at the least number of those that captures have for it."""
    said = sorted(one for capture in captures for one in _Beside(capture).chapters())
    of_number = {one.number: one for one in taken}
    firsts = [one for before, one in zip([None, *said], said) if before is None or before.chapter != one.chapter]
    return [ChapterAt(one.chapter, unit.text_of(one.number), *_place(of_number[one.number], one.offset),
                      max(of_number[one.number].written + one.offset, 1))
            for one in firsts if one.number in of_number]


def stops_at(captures: Sequence[Capture], taken: Sequence[Taken], unit: Unit) -> List[StopAt]:
    """Where each number with a picture stop is, once for each of its fields that any capture shows with one. It is
    unsure if it is so in each of these."""
    of_number = {one.number: one for one in taken}
    said, sure = ({one for capture in captures for one in _Beside(capture).stops(is_sure)} for is_sure in (False, True))
    return [StopAt(unit.text_of(number), *_place(of_number[number], offset),
                   "read" if (number, offset) in sure else "unsure")
            for number, offset in sorted(said | sure) if number in of_number]


def _place(one: Taken, offset: int) -> Tuple[str, int, int]:
    """The capture's name, the field and its frame of what is shown so many fields after a number's first."""
    answer = one.capture.answer
    field = min(max(one.field + offset, 1), answer.fields)
    return one.capture.name, field, frame_of(field, answer.frame_begin)


class _Beside:
    """What stands beside the numbers of a capture."""

    def __init__(self, capture: Capture) -> None:
        self._capture, self._fields = capture, defaultdict(list)  # type: ignore[var-annotated]
        for place in capture.places:
            self._fields[place.number].append(place.field)

    def chapters(self) -> Iterator[_Said]:
        for one in self._capture.answer.chapters:
            for number, offset in self._said(one.number, one.field):
                yield _Said(number, one.chapter, offset)

    def stops(self, is_sure: bool) -> Iterator[Tuple[int, int]]:
        for one in self._capture.answer.stops if is_sure else self._capture.answer.unsure_stops:
            yield from self._said(one.number, one.field)

    def _said(self, number: Any, field: int) -> Iterator[Tuple[int, int]]:
        """This number, beside which something stands in a field, and how many fields after its first one that is;
        nothing if none is near."""
        if number is not None:
            count = self._capture.ordinal(number)
            fields = self._fields[count]
            place = bisect.bisect_left(fields, field)  # beside which is the nearest one
            yield count, min((field - one for one in fields[max(place - 1, 0):place + 1]), key=abs)
