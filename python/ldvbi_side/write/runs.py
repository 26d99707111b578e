"""The runs of a capture with all their fields: those between two numbers that are read, and those at the ends of a run,
as far as these are seen to be the disc's next ones, or may be."""

import bisect
import math
from typing import Iterator, List, NamedTuple, Optional, Sequence, Set, Tuple

from ..answer.ends import LONGEST
from ..answer.entries import Speed
from ..judge.paces import MINUTE_FIELDS
from .blocks import KNOWN, OPEN, SEEN, Anchor, Block, Run, blocks_of
from .following import End, Followed
from .going import Going
from .lengths import Lengths
from .ranks import Ranks


class Known(NamedTuple):
    """What is known of the disc beside one capture: the ranks of its numbers, how many fields they have, the ranks from
    the first one to before the one after the last that any capture reads, and the ranks that two captures have first or
    last."""
    ranks: Ranks
    lengths: Lengths
    extent: range
    begins: Set[int]
    ends: Set[int]


class _Own(NamedTuple):
    """How many fields after its last number, or before its first one, a run gets, and how many of these surely."""
    fields: int
    sure: int


def runs_of(place: int, capture: Followed, known: Known, disputed: Set[int], is_sure: bool = False) -> List[Run]:
    """The runs of a capture, in the order of its fields; `place` is the capture's index. A run with a number in a field
    that is `disputed` is left out: another capture has what belongs there. With `is_sure`, so is what isn't sure."""
    answer, gaps = capture.source.answer, capture.gaps()
    runs: List[Run] = []
    for anchors, before, after in zip(capture.parts, [None, *(last for last, _ in gaps)],
                                      [*(first for _, first in gaps), None]):
        if any(one.field in disputed for one in anchors):
            continue
        if answer.pace == "minute":
            blocks = _minute_blocks(anchors, capture.going, MINUTE_FIELDS[answer.system][0])
        else:
            blocks = _with_end(blocks_of(anchors), anchors[-1], after, capture, known, is_sure)
            blocks = _with_begin(blocks, anchors[0], before, capture, known)
        blocks = [one if _is_sure(one, capture, known) else one._replace(doubt=OPEN) for one in blocks
                  if one.field not in disputed]
        runs += _sure_runs(place, blocks) if is_sure else [Run(place, blocks)]
    return runs


def set_aside(place: int, capture: Followed, known: Known, runs: Sequence[Run], having: Set[int]) -> Iterator[Run]:
    """A run for each number that no capture has in full, though a field of this one shows it clearly: between two jumps
    its place doesn't say that it is right. It may be wrong, and so isn't sure; `having` has the ranks of the others."""
    wanted = [(field, rank) for field, ranks in sorted(capture.aside.sure.items()) for rank in ranks
              if rank in known.extent and rank not in having]
    taken = [block for run in runs for block in run.blocks if block.is_sure]
    begins, ends = sorted(one.field for one in taken), sorted(one.field + one.fields for one in taken)
    for field, rank in wanted:
        anchor, lengths = Anchor(rank, field, field), known.lengths
        fields = 1 + capture.reach(anchor, 1, lengths.of(rank) - 1)
        if bisect.bisect_left(begins, field + fields) == bisect.bisect(ends, field):  # in none of these fields
            yield Run(place, [Block(rank, 1, field, fields, trail=lengths.of(rank) - fields, doubt=OPEN)])


def _is_sure(block: Block, capture: Followed, known: Known) -> bool:
    """Whether nothing speaks against it that a block has the fields of its numbers."""
    return (capture.going.takes_turns(block.field, block.fields) and not known.lengths.is_short(block)
            and not capture.aside.is_in(block) and not _is_at_speed(capture.source.answer.speeds, block.field))


def _is_at_speed(speeds: Sequence[Speed], field: int) -> bool:
    """Whether a field is in one of these stretches at another speed, which ascend."""
    place = bisect.bisect(speeds, (field, math.inf)) - 1
    return place >= 0 and field <= speeds[place].last


def _sure_runs(place: int, blocks: List[Block]) -> List[Run]:
    """The runs of those of the blocks that are sure."""
    runs: List[Run] = []
    for one, before in zip(blocks, [None, *blocks]):
        if one.is_sure and before is not None and before.is_sure:
            runs[-1].blocks.append(one)
        elif one.is_sure:
            runs.append(Run(place, [one]))
    return runs


def _shared(last: Anchor, first: Anchor, capture: Followed, lengths: Lengths) -> Tuple[_Own, _Own]:
    """What two runs get of the fields between them. By its frame and the colour alone none of these is surely a run's:
    a player may have jumped by as many fields as look the same again, and have left others out. Some may go on from
    either run: then both get them, and none surely. Those that show the first run's last number are its own."""
    fields = first.field - last.field - 1
    after, before = capture.reach(last, 1, fields), capture.reach(first, -1, first.field - last.last - 1)
    own_after, own_before = min(after, fields - before), min(before, fields - after)
    own = last.lead + 1 + own_after
    return (_Own(min(own_after + _whole_fields(last.rank, own, lengths) - own, after),
                 capture.shown(last, 1, own_after)),
            _Own(before, capture.shown(first, -1, own_before)))


def _is_seen(end: End, is_agreed: bool, due: int, capture: Followed, known: Known) -> bool:
    """Whether the fields after the last number of a capture, or before its first one, are seen to be the disc's: it cut
    no frame elsewhere, or it `is_agreed` that another one has the same number there. They aren't if another one has so
    many numbers more that their fields, those that are `due` here, may be lost, and leave it looking the same."""
    if not end.is_seen or not is_agreed and _cuts_frames(capture, known.lengths):
        return False
    return not end.is_marked or due - end.fields < capture.source.period()


def _cuts_frames(capture: Followed, lengths: Lengths) -> bool:
    """Whether a capture lost fields from within a frame on, or up to within one, between two numbers, so that it may
    have where it isn't seen. If neither frames nor the colour are known, any loss may be one."""
    return any(_cuts_one(last, first, capture, lengths) for last, first in capture.gaps())


def _cuts_one(last: Anchor, first: Anchor, capture: Followed, lengths: Lengths) -> bool:
    """The same of a loss between two numbers, if there is one."""
    fields = first.field - last.field
    if _fields_of(range(last.rank, first.rank), fields, lengths) <= fields:
        return False
    after = 1 + capture.reach(last, 1, fields - 1)
    before = capture.reach(first, -1, fields - after)
    return (capture.source.period() == 1 or _whole_fields(last.rank, after, lengths) != after
            or _whole_fields(first.rank - 1, before, lengths, -1) != before)


def _fields_of(ranks: range, most: int, lengths: Lengths) -> int:
    """How many fields these numbers have; of more than the most the first ones alone, which have more fields than
    that."""
    return sum(map(lengths.of, ranks[:most]))


def _whole_fields(rank: int, fields: int, lengths: Lengths, step: int = 1) -> int:
    """As many fields from a number on (step 1), or up to its end (-1), or the few more that make the last picture of
    them whole."""
    whole = 0
    while whole < fields:
        whole += lengths.of(rank, -step)
        rank += step
    return whole


def _after_last(capture: Followed, known: Known) -> Tuple[_Own, int]:
    """The fields after the last number of a capture, and the most numbers that these may have."""
    end = capture.end(1)
    more = end.fields
    if end.is_marked and more and not known.lengths.is_film:
        more -= 1 - more % 2  # lead-out has fields that aren't read, too
    due = _fields_of(range(end.rank, known.extent.stop), LONGEST, known.lengths) - 1  # its own first one is there
    is_seen = _is_seen(end, end.rank in known.ends, due, capture, known)
    seen = more if is_seen else capture.shown(capture.last(), 1, more)
    if capture.source.period() == 1 and not end.is_marked:
        seen = min(seen, known.lengths.of(end.rank) - 1)  # of other numbers nothing is seen
    return _Own(more, seen), LONGEST if end.is_marked else known.extent.stop - end.rank


def _before_first(capture: Followed, known: Known) -> Tuple[_Own, int]:
    """The fields before the first number of a capture, and the most numbers that these may have."""
    end = capture.end(-1)
    more = end.fields
    if end.is_marked and not known.lengths.is_film:
        more -= more % 2  # lead-in has fields that aren't read, too
    due = _fields_of(range(known.extent.start, end.rank), LONGEST, known.lengths)
    is_seen = (capture.source.period() > 1 or end.is_marked) and _is_seen(
        end, end.rank in known.begins, due, capture, known)
    return _Own(more, more * is_seen), end.rank - known.extent.start


def _with_end(blocks: List[Block], last: Anchor, after: Optional[Anchor], capture: Followed, known: Known,
              is_taken_surely: bool) -> List[Block]:
    """The blocks with all fields of the last number, and, if these are seen to be there, of numbers after it that
    aren't read."""
    lengths, is_on_both = known.lengths, capture.is_on_both()
    if after is None:
        own, room = _after_last(capture, known)
    else:
        own, _ = _shared(last, after, capture, lengths)
        room = after.rank - last.rank if after.rank > last.rank else known.extent.stop - last.rank
    sure = 1 + own.sure
    left, field, lead, found = sure if is_taken_surely else 1 + own.fields, last.field, last.lead, blocks
    for rank in range(last.rank, last.rank + room):
        if not left:
            break
        want = lengths.of(rank) - lead
        fields = min(left, want)
        # fields beyond the greatest number that is read may be lead-out's
        is_sure = field + fields - last.field <= sure and (
            rank == last.rank or rank < known.extent.stop and lengths.is_known(rank))
        if is_on_both and fields < want:
            is_sure = False  # it may be the second field
        is_known = field + fields == last.field + 1 and not is_on_both
        doubt = KNOWN if is_known else SEEN if is_sure else OPEN
        found.append(Block(rank, 1, field, fields, lead, want - fields, doubt))
        field, left, lead = field + fields, left - fields, 0
    return found


def _with_begin(blocks: List[Block], first: Anchor, before: Optional[Anchor], capture: Followed, known: Known
                ) -> List[Block]:
    """The blocks with what is there, or may be, of numbers before the first one that aren't read."""
    lengths = known.lengths
    if before is None:
        own, room = _before_first(capture, known)
    else:
        _, own = _shared(before, first, capture, lengths)
        room = first.rank - (before.rank + 1 if before.rank < first.rank else known.extent.start)
    left, field, found = own.fields, first.field, blocks
    for rank in range(first.rank - 1, first.rank - 1 - room, -1):
        if not left:
            break
        want = lengths.of(rank, 1)
        fields = min(left, want)
        field, left = field - fields, left - fields
        is_sure = first.field - field <= own.sure and lengths.is_known(rank, 1)
        found = [Block(rank, 1, field, fields, want - fields, 0, SEEN if is_sure else OPEN), *found]
    return found


def _minute_blocks(anchors: List[Anchor], going: Going, shortest: int) -> List[Block]:
    """The blocks of minutes alone. The first minute and the last one of a run may be there in part."""
    blocks = []
    ends: List[Optional[Anchor]] = [*anchors[1:], None]
    for one, other in zip(anchors, ends):
        end = other.field if other else one.last + 1
        if other is None:
            more = going.count(one.last, 1, LONGEST)
            end += more if going.is_end(one.last + more + 1) else 0
        blocks.append(Block(one.rank, 1, one.field, end - one.field,
                            doubt=KNOWN if end - one.field >= shortest else OPEN))
    return blocks
