"""Which capture shows each number better than others."""

import enum
from typing import Dict, List, NamedTuple, Set, Tuple

from .captures import Capture, Place

Rank = Tuple[bool, bool, int, int]  # of a place: the least one is shown best


class How(enum.Enum):
    """How a number stands in a capture: no other has it, this one shows it better than any other, or another one shows
    it as well."""
    ALONE = enum.auto()
    BETTER = enum.auto()
    ALIKE = enum.auto()


class Standing(NamedTuple):
    """How a number stands, and the name of the capture that shows it best."""
    how: How
    capture: str


def standings_of(captures: List[Capture], disputed: Set[Tuple[str, int]]) -> Dict[int, Standing]:
    """How each number stands that a capture has. It is shown best where it was read on more lines, and then with more
    lines of pass 1. A place that is disputed, or has lost a field, comes after all others."""
    having: Dict[int, List[Tuple[Rank, str]]] = {}
    for capture in captures:
        best: Dict[int, Rank] = {}
        for place in capture.places:
            rank = _rank_of(capture, place, disputed)
            best[place.number] = min(best.get(place.number, rank), rank)
        for number, rank in best.items():
            having.setdefault(number, []).append((rank, capture.name))
    return {number: _standing(ones) for number, ones in having.items()}


def _standing(ones: List[Tuple[Rank, str]]) -> Standing:
    (rank, name), *others = sorted(ones, key=lambda one: one[0])
    return Standing(How.ALONE if not others else How.BETTER if rank < others[0][0] else How.ALIKE, name)


def _rank_of(capture: Capture, place: Place, disputed: Set[Tuple[str, int]]) -> Rank:
    return (capture.name, place.field) in disputed, not place.is_whole, -place.lines, -place.sure
