"""Numbers and their ranks: the next picture of a disc has the next rank, whatever numbers its clock leaves out."""

import bisect
from typing import List, Sequence, Set

from ldvbi import ClockKind
from ..join.lacking import CLOCK, LOST, UNDECIDED, between, lacking_in
from .sources import Source


class Ranks:
    """The rank of a number is the number less the count of those before it that the disc's clock leaves out."""

    def __init__(self, left_out: Set[int]) -> None:
        self._left_out = sorted(left_out)

    def left_out(self) -> List[int]:
        """The numbers that the disc leaves out."""
        return self._left_out

    def of(self, number: int) -> int:
        return number - bisect.bisect_left(self._left_out, number)

    def number(self, rank: int) -> int:
        number = rank
        while True:
            more = rank + bisect.bisect(self._left_out, number)
            if more == number:
                return number
            number = more


def ranks_of(sources: Sequence[Source]) -> Ranks:
    """The ranks of a disc's numbers. A number that no capture has, and that isn't known to be left out, is so, too, if
    a clock that the library found leaves it out, or if a capture's fields go on in its place."""
    captures = [source.capture for source in sources]
    alike, *_ = captures
    lacking = lacking_in(captures, between(sorted(set().union(*(one.first for one in captures)))))
    left_out = alike.numbers_of((one.first, one.last) for one in lacking if one.why == CLOCK)
    if alike.kind() != ("time", "NTSC"):
        return Ranks(left_out)
    lost = alike.numbers_of((one.first, one.last) for one in lacking if one.why in (LOST, UNDECIDED))
    clock = next((one.clock for one in captures if one.clock.kind != ClockKind.plain), None)
    if clock and lost:
        left_out |= lost & clock.left_out_in(min(lost), max(lost))
    return Ranks(left_out.union(*(lost & _passed_by(source) for source in sources)))


def _passed_by(source: Source) -> Set[int]:
    """The numbers that a capture lacks between two fields that go on, if the clock may have left them out, or if the
    colour's phase couldn't go on had their fields been lost."""
    return source.capture.numbers_of(
        (one.first, one.last) for one in source.answer.missing
        if one.after and one.before <= source.answer.fields
        and (one.why == UNDECIDED or 2 * one.count_ % source.period())
        and all(source.goes_on(field, field + 1) for field in range(one.after, one.before)))


def spans_of(numbers: Sequence[int]) -> List[List[int]]:
    """Ascending numbers as stretches, each with its first and its last one."""
    spans: List[List[int]] = []
    for number in numbers:
        if spans and spans[-1][1] == number - 1:
            spans[-1][1] = number
        else:
            spans.append([number, number])
    return spans
