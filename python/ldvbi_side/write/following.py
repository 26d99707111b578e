"""How far fields go on from a number that a capture reads, and what shows that they do."""

from typing import List, NamedTuple, Sequence, Set, Tuple

from ..answer.ends import LONGEST
from .blocks import Anchor, Aside, anchored
from .going import Going
from .ranks import Ranks
from .sources import Source

AGREEING = 2  # captures that have the same last number, so that it is the disc's


class End(NamedTuple):
    """What stands beside the first or the last number of a capture: its rank, how many fields go on with it, whether
    lead-in or lead-out comes next, and whether nothing says otherwise: a number, or a field that doesn't go on."""
    rank: int
    fields: int
    is_marked: bool
    is_seen: bool


class Followed(NamedTuple):
    """A capture with its numbers in parts in which numbers and fields go on together, and what its fields are followed
    by."""
    source: Source
    parts: List[List[Anchor]]
    going: Going
    aside: Aside

    def first(self) -> Anchor:
        """Its first number."""
        return self.parts[0][0]

    def last(self) -> Anchor:
        """Its last number."""
        return self.parts[-1][-1]

    def gaps(self) -> List[Tuple[Anchor, Anchor]]:
        """Between each two parts the last number of the one and the first of the other."""
        return [(one[-1], other[0]) for one, other in zip(self.parts, self.parts[1:])]

    def is_on_both(self) -> bool:
        """Whether both fields of a picture have its number."""
        return self.source.answer.pace == "both"

    def reach(self, anchor: Anchor, step: int, most: int = LONGEST) -> int:
        """How many fields after a number (step 1) or before it (-1) go on with it, at most so many, up to one that
        shows a number to which they don't go on: a player may have jumped before that, by as many fields as the
        colour's phase takes to be the same again."""
        count = self.going.count(anchor.field, step, most)
        return next((place for place in range(count)
                     if not self.aside.fits(anchor, anchor.field + step * (place + 1))), count)

    def shown(self, anchor: Anchor, step: int, count: int) -> int:
        """How many of these fields, all within its reach, are shown to be the disc's next ones by more than their
        frames and the colour: up to the last one that shows a number, even if that isn't believed."""
        own = range(anchor.field, anchor.last + 1)
        fields = [anchor.field + step * (1 + place) for place in range(count)]
        return max((abs(one - anchor.field) for one in fields if one in own or one in self.aside.all), default=0)

    def end(self, step: int) -> End:
        """What stands after its last number (step 1), or before its first one (-1)."""
        anchor = self.last() if step > 0 else self.first()
        count = self.reach(anchor, step)
        there = anchor.field + step * (count + 1)
        is_seen = count == LONGEST or self.going.is_end(there) or self.going.is_pad(there)
        return End(anchor.rank, count, self.going.is_marked(there), is_seen)


def followed(source: Source, ranks: Ranks) -> Followed:
    """The capture, as its fields are followed."""
    return Followed(source, anchored(source, ranks), Going(source), Aside(source, ranks))


def agreed(ends: Sequence[Anchor]) -> Set[int]:
    """The ranks that two captures or more have last, or first, of all that they have there."""
    ranks = [one.rank for one in ends]
    return {one for one in ranks if ranks.count(one) >= AGREEING}
