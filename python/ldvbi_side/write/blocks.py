"""The numbers that a capture shows, in runs: as long as numbers and fields go on together, the fields between two
numbers that are read are taken with the first of these, whatever they show. What is taken together is a block."""

import bisect
from typing import Dict, List, NamedTuple, Optional, Set, Tuple

from ldvbi import Kind
from ..answer.entries import Answer
from ..judge.paces import Pace
from .ranks import Ranks
from .sources import Source, straightened


KNOWN, SEEN, OPEN = range(3)  # how well it is known that a block has the fields of its numbers


class Block(NamedTuple):
    """Numbers that are taken together: `ranks` of them from a rank on, in `fields` consecutive fields from a field on.
    The capture lacks `lead` fields of the first one and `trail` of the last one. The fields are `KNOWN` to be these
    numbers' by the next one, or are `SEEN` to be by their frames and the colour alone; it is `OPEN` if one may be
    another number's."""
    rank: int
    ranks: int
    field: int
    fields: int
    lead: int = 0
    trail: int = 0
    doubt: int = KNOWN

    @property
    def is_sure(self) -> bool:
        return self.doubt != OPEN

    def end(self) -> int:
        """The rank after it."""
        return self.rank + self.ranks


class Run(NamedTuple):
    """Blocks of a capture that follow each other, in its fields and on the disc. `source` is the capture's index."""
    source: int
    blocks: List[Block]

    def first(self) -> int:
        """Its first rank."""
        return self.blocks[0].rank

    def end(self) -> int:
        """The rank after it."""
        return self.blocks[-1].end()


class Anchor(NamedTuple):
    """A number that is read: its rank, and the first and the last field that show it, as if swapped fields stood
    right. The capture lacks `lead` fields of it before these."""
    rank: int
    field: int
    last: int
    lead: int = 0


def anchored(source: Source, ranks: Ranks) -> List[List[Anchor]]:
    """The numbers that are read, in the order of their fields, in parts in which numbers and fields go on together."""
    answer, pairs = source.answer, straightened(source.answer)
    shown = sorted((Anchor(ranks.of(source.capture.ordinal(number)), pairs.get(first, first), pairs.get(last, last))
                    for number, first, last in answer.showings), key=lambda one: one.field)
    afters = _afters(source)
    parts: List[List[Anchor]] = []
    befores: List[int] = []
    for one in shown:
        last = parts[-1][-1] if parts else None
        if last and (one.rank, one.field) == (last.rank, last.last + 1) and {one.field, last.last} & pairs.keys():
            parts[-1][-1] = last._replace(last=one.last)  # the fields of a picture, of which one was swapped
        elif last and (_fits(answer, last, one, afters) or _is_next(source, last, one)):
            parts[-1].append(one)
        else:
            parts.append([one])
            befores.append(max(afters[:bisect.bisect_left(afters, one.field)], default=0))
    if answer.pace != "both":
        return parts
    seconds = _seconds(source, [one for part in parts for one in part])
    return [_aligned(part, before, seconds) for before, part in zip(befores, parts)]


def _afters(source: Source) -> List[int]:
    """The fields after which the capture doesn't go on, ascending: those before breaks, before fields of padding, and
    at the end of lead-in or lead-out, after which another side may begin; and those before a lost field where numbers
    don't show it."""
    capture, first, pairs = source.capture, source.facts.first, straightened(source.answer)
    found = {place for place, is_pad in enumerate(source.facts.pad or ()) if is_pad}
    found.update(one.before - 1 for one in capture.breaks)
    found.update(one.last for one in capture.answer.lead_in + capture.answer.lead_out)
    if first and capture.answer.pace == "both":  # whose numbers don't show the loss of one field
        turns = list(enumerate(first, 1))
        found.update(field for (field, one), (after, other) in zip(turns, turns[1:])
                     if one == other and pairs.keys().isdisjoint((field, after)))
    return sorted(found)


def _fits(answer: Answer, one: Anchor, other: Anchor, afters: List[int]) -> bool:
    """Whether two numbers are as many fields apart as on the disc, and nothing says that they don't go on."""
    step, fields, pace = other.rank - one.rank, other.field - one.field, answer.pace
    if step <= 0 or bisect.bisect_left(afters, one.field) < bisect.bisect_left(afters, other.field):
        return False
    if pace == "minute":
        return step == 1
    return _is_apart(pace, one.rank, step, fields)


def _is_next(source: Source, one: Anchor, other: Anchor) -> bool:
    """Whether two fields have the next picture each and go on, so that a break between them is one of the clock. They
    don't over padding."""
    pad = source.facts.pad
    return (source.answer.pace == "video" and (other.rank - one.rank, other.field - one.field) == (1, 2)
            and not (pad and pad[one.field])
            and all(source.goes_on(field, field + 1) for field in (one.field, one.field + 1)))


def _seconds(source: Source, anchors: List[Anchor]) -> Set[int]:
    """The fields of anchors that are second ones of their pictures, by the frames of those that have both."""
    first, pairs = source.facts.first, straightened(source.answer)
    if not first:
        return set()
    turns = [first[pairs.get(one.field, one.field) - 1] for one in anchors]
    begins = {turn for turn, one in zip(turns, anchors) if one.last > one.field}
    return {one.field for turn, one in zip(turns, anchors) if begins and turn not in begins}


def _aligned(part: List[Anchor], before: int, seconds: Set[int]) -> List[Anchor]:
    """Anchors of a disc with numbers on both fields, each of which has its picture's first field. A picture whose
    second field alone was read is known by its neighbours, or by the frames. If its first field isn't there, since a
    field `before` it is another number's, it is no anchor unless it is the only one."""
    row = min(one.field - (one.field in seconds) - 2 * one.rank for one in part)
    found = [one._replace(field=row + 2 * one.rank) for one in part if row + 2 * one.rank > before]
    return found or [one._replace(lead=1) for one in part]


def blocks_of(anchors: List[Anchor]) -> List[Block]:
    """The blocks of a run: each goes to the next number that is read. The last number has none as yet."""
    return [Block(one.rank, other.rank - one.rank, one.field, other.field - one.field)
            for one, other in zip(anchors, anchors[1:])]


class Aside:
    """The numbers of a capture that aren't believed. `all` has the ranks of those that a field shows; `sure` those that
    it shows on two lines in pass 1, as a field does that a player jumped to."""

    def __init__(self, source: Source, ranks: Ranks) -> None:
        self.all: Dict[int, Set[int]] = {}
        self.sure: Dict[int, Set[int]] = {}
        seen: Set[Tuple[int, int]] = set()
        self._pace = source.answer.pace
        for one in source.answer.doubtful:
            # of a time a line may show no more than a part
            if one.kind == Kind.chapter or not (isinstance(one.number, int) or "." in str(one.number)):
                continue
            rank = ranks.of(source.capture.ordinal(one.number))
            self.all.setdefault(one.field, set()).add(rank)
            if one.pass_ == 1 and (one.field, rank) in seen:
                self.sure.setdefault(one.field, set()).add(rank)
            if one.pass_ == 1:
                seen.add((one.field, rank))
        self._sure_fields = sorted(self.sure)

    def fits(self, anchor: Anchor, field: int) -> bool:
        """Whether a field shows nothing else than it would if it went on to this number, or from it."""
        return field not in self.all or any(
            _is_apart(self._pace, anchor.rank, one - anchor.rank, field - anchor.field) for one in self.all[field])

    def is_in(self, block: Block) -> bool:
        """Whether a field of a block, but for its first one, surely shows a number that isn't believed."""
        fields = self._sure_fields
        return bisect.bisect(fields, block.field) < bisect.bisect_left(fields, block.field + block.fields)


def _is_apart(pace: Optional[str], rank: int, step: int, fields: int) -> bool:
    """Whether two numbers are as many fields apart as on the disc."""
    if pace == "film":
        return Pace("film").least_off(fields, rank, step) == 0
    return abs(fields - 2 * step) <= (pace == "both")
