"""The plan by which a side is written: which fields of which capture stand where in the output, and what is padding.
It is pure: no file is read. docs/ANSWER.md has its rules."""

import bisect
from typing import Dict, Iterator, List, NamedTuple, Optional, Sequence, Set, Tuple

from ldvbi.collector import paused
from ..answer.ends import FIRST
from ..join.captures import Capture
from ..join.disagreements import Disagreement, disagreements_of, disputed_in
from ..join.entries import UNSURE, WHOLE
from ..join.others import refuse_other_discs
from ..judge.paces import MINUTE_FIELDS, RATES, Unit
from .blocks import Block, Run
from .choice import CHANGE, Choice, Node
from .following import Followed, agreed, followed
from .lengths import Lengths
from .padding import Layout
from .ranks import Ranks, ranks_of
from .runs import Known, runs_of, set_aside
from .sources import Source
from .stretches import PADDING, Seam, Stretch, seams_of

MOST_PADDING = 10  # fields of the output to one of padding, at least, and
FEW = 1000  # fields of padding that are never too many, if nothing else is said


class Wanted(NamedTuple):
    """What is asked of a plan: the price of a change in samples of dropouts, the number with which the output begins
    (None: the least one that a capture has), whether lead-in and lead-out come along, whether what may be another
    picture's becomes padding, whether lead-in or lead-out between the numbers of a capture is the same side's, and how
    many fields of padding there may be at most."""
    change: int = CHANGE
    start: Optional[int] = None
    ends: bool = False
    sure: bool = False
    one_side: bool = False
    most_padding: Optional[int] = None


class Plan(NamedTuple):
    """All fields of the output. `padded` are the numbers that are padding as a whole, `partial` those of which some
    fields are, `unsure` those with a field that may be another's, and `left_out` those that the disc's clock leaves
    out. `first_field` has the first field of each number in the output."""
    system: str
    unit: str
    stretches: List[Stretch]
    seams: List[Seam]
    padded: List[int]
    partial: List[int]
    unsure: List[int]
    left_out: List[int]
    first_field: Dict[int, int]
    fields: int

    def count_unit(self) -> Unit:
        """What its numbers count."""
        return Unit(self.unit, RATES[self.system])

    def padding(self) -> int:
        """How many fields are padding."""
        return sum(one.fields for one in self.stretches if one.source is None)


@paused()
def plan(sources: Sequence[Source], wanted: Wanted = Wanted()) -> Plan:
    """The plan by which a side is written from these captures. A ValueError if they can't be of one disc, or if too
    much would be padding."""
    captures = [source.capture for source in sources]
    refuse_other_discs(captures)
    made = planned(sources, disagreements_of(captures), wanted)
    refuse_unwritable(captures, made, wanted)
    return made


def refuse_unwritable(captures: Sequence[Capture], made: Plan, wanted: Wanted = Wanted()) -> None:
    """Raises a ValueError if captures may have two sides, or too much would be padding."""
    for capture in captures:
        _refuse_two_sides(capture, wanted.one_side)
    _refuse_padding(made, wanted.most_padding)


def planned(sources: Sequence[Source], disagreements: Sequence[Disagreement], wanted: Wanted = Wanted()) -> Plan:
    """The same of captures that are known to be of one disc, and disagree so, however much would be padding."""
    known, runs = _known_runs(sources, disagreements, wanted)
    first = min(run.first() for run in runs)
    if wanted.start is not None:
        first = min(first, known.ranks.of(wanted.start))
    nodes = Choice(runs, sources, wanted.change, known.lengths).nodes(
        range(first, max(run.end() for run in runs)))
    return _Making(runs, sources, known).made(nodes, wanted.ends)


def _known_runs(sources: Sequence[Source], disagreements: Sequence[Disagreement], wanted: Wanted
                ) -> Tuple[Known, List[Run]]:
    """What is known of the disc, and the runs of all captures. What they come from, which is much of a long side, isn't
    kept."""
    captures = [source.capture for source in sources]
    disputed = disputed_in([one for one in disagreements if _is_elsewhere(one)])
    ranks = ranks_of(sources)
    following = [followed(source, ranks) for source in sources]
    known = Known(ranks, Lengths(following), _extent_of(captures, disputed, ranks, wanted.start),
                  agreed([one.first() for one in following]), agreed([one.last() for one in following]))
    return known, _runs_of(following, known, disputed, wanted.sure)


def _runs_of(captures: Sequence[Followed], known: Known, disputed: Set[Tuple[str, int]], is_sure: bool) -> List[Run]:
    """The runs of all captures."""
    found = [runs_of(place, one, known, {field for name, field in disputed if name == one.source.capture.name}, is_sure)
             for place, one in enumerate(captures)]
    runs = [run for ones in found for run in ones]
    if not runs:
        raise ValueError("no number is sure enough to be taken")
    if is_sure:
        return runs
    # one outside of all others would have padding up to them
    known = known._replace(extent=range(min(run.first() for run in runs), max(run.end() for run in runs)))
    having = {rank for run in runs for block in run.blocks if not block.lead + block.trail
              for rank in range(block.rank, block.end())}
    return runs + [run for place, one in enumerate(captures)
                   for run in set_aside(place, one, known, found[place], having)]


def _refuse_two_sides(capture: Capture, is_one_side: bool) -> None:
    """Refuses a capture in which another side may begin, or which has codes of both formats."""
    for reason in capture.answer.reasons:
        if reason.why == "joined" and not is_one_side:
            raise ValueError("%s: lead-in or lead-out stands between its numbers: two sides? (--one-side says that it "
                             "is one)" % capture.name)
        if reason.why == "format":
            raise ValueError("%s has codes of CAV and of CLV" % capture.name)


def _refuse_padding(made: Plan, most: Optional[int]) -> None:
    padding = made.padding()
    if padding > (max(made.fields // MOST_PADDING, FEW) if most is None else most):
        raise ValueError("%d of %d fields would be padding; see --most-padding" % (padding, made.fields))


def _is_elsewhere(found: Disagreement) -> bool:
    """Whether the numbers of a capture are far from those that another one has in their place. If a player jumps, and
    back by as much, they are near, and right."""
    one, other = found.one, found.other
    return max(one.first - other.last, other.first - one.last) > one.last - one.first + 1


def _extent_of(captures: List[Capture], disputed: Set[Tuple[str, int]], ranks: Ranks, start: Optional[int]) -> range:
    """The ranks from the disc's first one, or the one with which the output begins, to the last that is read."""
    unit, *_ = (capture.unit() for capture in captures)
    read = [place.number for capture in captures for place in capture.places
            if (capture.name, place.field) not in disputed]
    begin = FIRST[unit.name] if unit.name != "time" else 0
    return range(ranks.of(min(begin, min(read), *([] if start is None else [start]))), ranks.of(max(read)) + 1)


class _Making:
    """The plan as it is laid out, from the runs that were chosen."""

    def __init__(self, runs: Sequence[Run], sources: Sequence[Source], known: Known) -> None:
        self._runs, self._sources, self._known = runs, sources, known
        self._layout = Layout(sources, known.lengths.is_film)
        self._first_field: Dict[int, int] = {}
        self._owners: Dict[Tuple[int, int], int] = {}  # of captures' fields that may be of several numbers, the rank

    def made(self, nodes: List[Node], has_ends: bool) -> Plan:
        """The plan of these nodes."""
        layout, stops = self._layout, [*(node.begin for node in nodes[1:]), None]
        if has_ends:
            self._take_lead_in(nodes[0])
        blocks = [self._blocks(node, stop) for node, stop in zip(nodes, stops)]
        self._share([one for ones in blocks for one in ones])
        for place, (node, stop) in enumerate(zip(nodes, stops)):
            if node.run is None:
                assert stop is not None  # the last rank is a run's
                self._pad(node.begin, stop, nodes[place + 1])
            for source, block in blocks[place]:
                self._take(source, block)
        if has_ends:
            self._take_lead_out(nodes[-1])
        off = int(self._begins_within_a_frame())
        if off:
            layout.shift()
        answer, *_ = (source.answer for source in self._sources)
        left_out = self._known.ranks.left_out()

        def numbers(how: str) -> Set[int]:
            found = {number for one in layout.stretches if one.how == how for number in one.numbers()}
            return found.difference(left_out)

        padding, unsure = numbers(PADDING), numbers(UNSURE)
        taken = unsure | numbers(WHOLE)
        first_field = {self._known.ranks.number(rank): field + off for rank, field in self._first_field.items()}
        return Plan(answer.system, str(answer.unit), layout.stretches, seams_of(layout.stretches, self._sources),
                    sorted(padding - taken), sorted(padding & taken), sorted(unsure), left_out, first_field,
                    layout.out - 1)

    def _take(self, source: int, block: Block) -> None:
        layout, number = self._layout, self._known.ranks.number
        first, last = number(block.rank), number(block.end() - 1)
        block = self._free(source, block)
        layout.pad(block.lead, first, first)
        how = WHOLE if block.is_sure else UNSURE
        for rank, begin, end in self._parts(block):
            layout.take(source, begin, end - begin, number(rank), how)
        for step in range(block.ranks if not self._known.lengths.is_film else 1):
            self._first_field[block.rank + step] = layout.out - block.fields - block.lead + 2 * step
        layout.pad(block.trail, last, last)

    @staticmethod
    def _parts(block: Block) -> Iterator[Tuple[int, int, int]]:
        """The numbers of a block, each with its first field and the one after its last: if the capture has swapped
        fields, those of each number stand in stretches of their own."""
        for step in range(block.ranks):
            begin, end = (block.field + block.fields * one // block.ranks for one in (step, step + 1))
            yield block.rank + step, begin, end

    def _blocks(self, node: Node, stop: Optional[int]) -> List[Tuple[int, Block]]:
        """The blocks that are taken for a node's ranks, which end before `stop`, each with its capture."""
        if node.run is None:
            return []
        source, blocks = self._runs[node.run]
        end = len(blocks) if stop is None else bisect.bisect_left(blocks, (stop,))
        return [(source, block) for block in blocks[bisect.bisect_left(blocks, (node.begin,)):end]]

    def _share(self, taken: List[Tuple[int, Block]]) -> None:
        """Gives each field that may be of several numbers to the one that begins first: a player jumps from the end of
        a picture rather than from its middle."""
        for source, block in sorted((one for one in taken if not one[1].is_sure), key=lambda one: one[1].field):
            for field in range(block.field, block.field + block.fields):
                self._owners.setdefault((source, field), block.rank)

    def _free(self, source: int, block: Block) -> Block:
        """A block without those fields that another one has got, either of which they may belong to."""
        if block.is_sure:
            return block
        fields = [field for field in range(block.field, block.field + block.fields)
                  if self._owners[source, field] == block.rank]
        if not fields:  # of one number, since others have got all of them
            return block._replace(lead=block.lead + block.fields + block.trail, fields=0)
        lead = fields[0] - block.field
        return block._replace(field=fields[0], fields=len(fields), lead=block.lead + lead,
                              trail=block.trail + block.fields - lead - len(fields))

    def _pad(self, first: int, stop: int, after: Node) -> None:
        """Adds padding for the ranks before `stop`, to which a run comes."""
        layout, lengths = self._layout, self._known.lengths
        source, block = self._first_of(after)
        answer = self._sources[source].answer
        if answer.pace == "minute":
            fields = MINUTE_FIELDS[answer.system][1] * (stop - first)
        else:
            fields = lengths.between(first, stop, lambda count: layout.fits(
                source, block.field, count + block.lead))
        if not lengths.is_film:
            each = fields // (stop - first)
            self._first_field.update((rank, layout.out + each * (rank - first)) for rank in range(first, stop))
        layout.pad(fields, self._known.ranks.number(first), self._known.ranks.number(stop - 1))

    def _first_of(self, node: Node) -> Tuple[int, Block]:
        """The capture, and the block there, with which a node begins."""
        assert node.run is not None
        source, blocks = self._runs[node.run]
        return source, blocks[bisect.bisect_left(blocks, (node.begin,))]

    def _begins_within_a_frame(self) -> bool:
        """Whether the output's fields of odd numbers are second fields: frames begin with first ones."""
        one = next(one for one in self._layout.stretches if one.source is not None)
        assert one.source is not None and one.field is not None
        first = self._sources[one.source].facts.first
        return first is not None and first[one.field - 1] != (one.out % 2 == 1)

    def _take_lead_in(self, node: Node) -> None:
        """Adds the lead-in right before the first number, if its capture has one: an even count of fields."""
        if node.run is None:
            return
        source, block = self._first_of(node)
        field = block.field
        for one in self._sources[source].answer.lead_in:
            count = (field - one.first) // 2 * 2
            if one.last == field - 1:
                self._layout.take(source, field - count, count, None, WHOLE)

    def _take_lead_out(self, node: Node) -> None:
        assert node.run is not None
        run = self._runs[node.run]
        end = run.blocks[-1].field + run.blocks[-1].fields
        for one in self._sources[run.source].answer.lead_out:
            if one.first == end:
                self._layout.take(run.source, end, one.last - end + 1, None, WHOLE)
