"""Numbers that no capture has, and why, and numbers in stretches of which the same is said."""

from typing import Any, Callable, Dict, Iterable, List, Set, Tuple

from ..judge.paces import Unit
from .captures import DUE, Capture
from .entries import Lacking

CLOCK, LOST, UNDECIDED = "clock", "lost", "undecided"
# Why a number is missing that no capture has, the surest first: one that a capture has a field for isn't lost
WHYS = (CLOCK, DUE, UNDECIDED)


def lacking_in(captures: List[Capture], numbers: Iterable[int]) -> List[Lacking]:
    """These numbers, which ascend and which no capture has, with why."""
    whys = _whys_of(captures)
    return [Lacking(*one) for one in stretches_with(numbers, lambda number: whys.get(number, LOST),
                                                    captures[0].unit(), set())]


def between(numbers: List[int]) -> List[int]:
    """The numbers between these, which ascend."""
    return [number for one, other in zip(numbers, numbers[1:]) for number in range(one + 1, other)]


def _whys_of(captures: List[Capture]) -> Dict[int, str]:
    """Why numbers are missing in some captures, but for those that are lost. A number for which a capture has fields
    before its first number, or after its last one, is undecided."""
    whys = {number: UNDECIDED for capture in captures for number in capture.may_have()}
    for why in reversed(WHYS):
        for capture in captures:
            stretches = [(one.first, one.last) for ones in (capture.answer.missing, capture.answer.left_out)
                         for one in ones if one.why == why]
            whys.update(dict.fromkeys(capture.numbers_of(stretches), why))
    return whys


def stretches_with(numbers: Iterable[int], said_of: Callable[[int], Any], unit: Unit,
                   left_out: Set[int]) -> List[Tuple[Any, Any, int, Any]]:
    """Ascending numbers in stretches of which the same is said: the first and the last one, their count, and that."""
    stretches: List[List[Any]] = []
    for number in numbers:
        said = said_of(number)
        if stretches and stretches[-1][3] == said and _follows(stretches[-1][1], number, left_out):
            stretches[-1][1:3] = number, stretches[-1][2] + 1
        else:
            stretches.append([number, number, 1, said])
    return [(unit.text_of(first), unit.text_of(last), count, said) for first, last, count, said in stretches]


def _follows(before: int, number: int, left_out: Set[int]) -> bool:
    """Whether the disc has no number between these two."""
    return all(one in left_out for one in range(before + 1, number))
