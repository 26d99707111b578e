"""How many fields the numbers have on the disc."""

import enum
from typing import Callable, Dict, List, Optional, Sequence

from .blocks import Block
from .following import Followed

NEARBY = 8  # numbers before or after one of film whose cadence counts for it


class Cadence(enum.Enum):
    """Which pictures of film have three fields: those with an odd number, those with an even one, or none."""
    ODD = enum.auto()
    EVEN = enum.auto()
    NONE = enum.auto()


class Lengths:
    """The fields of each number: the most that a capture shows, since fields get lost and not made; else, of film, by
    its cadence. A number of video has two."""

    def __init__(self, captures: Sequence[Followed]) -> None:
        paces = {one.source.answer.pace for one in captures}
        self.is_film = "film" in paces
        self._known: Dict[int, int] = {}
        for capture in captures if paces != {"video"} else ():  # of which each number has two
            self._add(capture)

    def _add(self, capture: Followed) -> None:
        """Takes in what a capture shows."""
        for part in capture.parts:
            for one, other in zip(part, part[1:]):
                fields = other.field - one.field
                if other.rank == one.rank + 1 and capture.going.takes_turns(one.field, fields + 1):
                    self._known[one.rank] = max(self._known.get(one.rank, fields), fields)

    def of(self, rank: int, step: int = -1) -> int:
        """The fields of a number; if no capture shows it, by the cadence before it, or after it (step 1), or else by
        that on its other side."""
        if rank in self._known:
            return self._known[rank]
        return _fields_by(self._cadence(rank, step) or self._cadence(rank, -step), rank)

    def is_known(self, rank: int, step: int = -1) -> bool:
        """Whether a number's fields are known, by a capture or by the cadence on that side."""
        return not self.is_film or rank in self._known or self._cadence(rank, step) is not None

    def is_short(self, block: Block) -> bool:
        """Whether a number has fewer fields in a block than another capture shows."""
        fields = block.lead + block.fields + block.trail
        return fields < self._known.get(block.rank, fields)  # never of several numbers, which have more

    def between(self, first: int, end: int, fits: Callable[[int], bool]) -> int:
        """How many fields the numbers from the first one to before the end have, none of which is shown: of film, the
        nearest count to the cadence on either side that `fits` what comes after."""
        count = end - first
        if not self.is_film:
            return 2 * count
        guesses = [sum(_fields_by(one, rank) for rank in range(first, end))
                   for one in (self._cadence(first, -1), self._cadence(end - 1, 1)) if one]
        guesses = guesses or [5 * count // 2]
        near = sorted(range(2 * count, 3 * count + 1), key=lambda one: min(
            (abs(one - guess), place, -one) for place, guess in enumerate(guesses)))
        return next(filter(fits, near), guesses[0])

    def _cadence(self, rank: int, step: int) -> Optional[Cadence]:
        """The cadence by the known pictures before a rank (step -1) or after it (1); None if nothing near says it."""
        seen: List[int] = []
        for at in range(rank + step, rank + step * (NEARBY + 1), step):
            if at in self._known:
                if self._known[at] == 3:
                    return _cadence_of_three(at)
                seen.append(at)
            if len(seen) == 2:
                break
        return Cadence.NONE if len(seen) == 2 and abs(seen[0] - seen[1]) == 1 else None


def _cadence_of_three(rank: int) -> Cadence:
    """The cadence in which this picture has three fields."""
    return Cadence.ODD if rank % 2 else Cadence.EVEN


def _fields_by(cadence: Optional[Cadence], rank: int) -> int:
    """The fields of a picture by its cadence; two if that isn't known."""
    return 3 if cadence == _cadence_of_three(rank) else 2
