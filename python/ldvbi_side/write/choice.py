"""Which run each rank is taken from: the cheapest way from the first rank to the last."""

from typing import Dict, List, NamedTuple, Optional, Sequence

from .blocks import OPEN, SEEN, Block, Run
from .lengths import Lengths
from .sources import Source

CHANGE = 100000  # samples in dropouts that a change of the capture costs as much as
BAD_LINE = 500  # the same of a bad line, if not each capture has dropouts


class Price(NamedTuple):
    """What ways cost, by weight: fields of padding, then pictures that may have another's field, then those whose
    fields only their frames and the colour show, then samples in dropouts, and changes from run to run as samples."""
    padding: int
    open: int
    seen: int
    samples: int

    def plus(self, other: "Price") -> "Price":
        return Price(self.padding + other.padding, self.open + other.open, self.seen + other.seen,
                     self.samples + other.samples)


class Node(NamedTuple):
    """Ranks that are taken from one run, given by its index, or are padding (None), from `begin` on; and what comes
    before."""
    run: Optional[int]
    begin: int
    before: Optional["Node"]


class _Way(NamedTuple):
    """A way to some rank: what it costs, its last node, and the rank after its last block."""
    cost: Price
    node: Optional[Node]
    end: int


class Choice:
    """The cheapest ways to each rank in turn. There is one for each run in which it may end, and one that ends in
    padding. A run is entered and left between two blocks alone."""

    def __init__(self, runs: Sequence[Run], sources: Sequence[Source], change: int, lengths: Lengths) -> None:
        """`change` is the price of a change in samples."""
        self._runs, self._change, self._lengths = runs, change, lengths
        self._damage = [damage_of(source, _have_dropouts(sources)) for source in sources]
        self._begins: Dict[int, List[int]] = {}
        for place, run in enumerate(runs):
            self._begins.setdefault(run.first(), []).append(place)
        self._ways: Dict[Optional[int], _Way] = {}
        self._next: Dict[int, int] = {}  # of each run that has a rank, the block that begins next

    def nodes(self, ranks: range) -> List[Node]:
        """The nodes of the cheapest way through these ranks."""
        self._ways[None] = _Way(Price(*4 * [0]), None, ranks.start)
        for rank in ranks:
            self._step(rank)
        node = self._cheapest(ranks.stop).node
        nodes: List[Node] = []
        while node is not None:
            nodes.append(node)
            node = node.before
        return nodes[::-1]

    def _cheapest(self, rank: int) -> _Way:
        """The cheapest way that comes to a rank between two blocks. One that ends in padding always does."""
        return min((one for one in self._ways.values() if one.end <= rank), key=lambda one: one.cost)

    def _step(self, rank: int) -> None:
        """Goes on over a rank."""
        for place in self._begins.get(rank, ()):
            self._next[place] = 0
        cost, node, end = cheapest = self._cheapest(rank)
        padding = node if node is not None and node.run is None else Node(None, rank, node)
        ways: Dict[Optional[int], _Way] = {
            None: _Way(cost._replace(padding=cost.padding + self._lengths.of(rank)), padding, end)}
        for place in list(self._next):
            blocks, index = self._runs[place].blocks, self._next[place]
            if index < len(blocks) and blocks[index].rank == rank:
                ways[place] = self._entered(place, blocks[index], cheapest)
                self._next[place] += 1
            else:
                ways[place] = self._ways[place]
            if rank + 1 >= self._runs[place].end():
                del self._next[place]
        self._ways = ways

    def _entered(self, place: int, block: Block, cheapest: _Way) -> _Way:
        """The cheapest way that ends in this block of a run: from within the run, or from the cheapest way."""
        way, enter = self._ways.get(place), cheapest.cost
        # a change is paid for the first run, too, which each way has
        enter = enter._replace(samples=enter.samples + self._change)
        cost, node = way[:2] if way and way.cost <= enter else (enter, Node(place, block.rank, cheapest.node))
        return _Way(cost.plus(self._price(self._runs[place], block)), node, block.end())

    def _price(self, run: Run, block: Block) -> Price:
        sums = self._damage[run.source]
        return Price(block.lead + block.trail, block.doubt == OPEN, block.doubt == SEEN,
                     sums[block.field + block.fields - 1] - sums[block.field - 1])


def _have_dropouts(sources: Sequence[Source]) -> bool:
    return all(source.facts.damage is not None for source in sources)


def damage_of(source: Source, has_dropouts: bool) -> List[int]:
    """How much is damaged of a capture up to the end of each field, from 0 on: samples in dropouts, or bad lines that
    stand for them. A place where the colour's phase doesn't go on counts, too; swapped fields, which all captures may
    have, don't."""
    sums = [0] * (source.answer.fields + 1)
    if has_dropouts:
        assert source.facts.damage is not None
        sums[1:] = source.facts.damage
    else:
        for one in source.answer.bad_lines:
            sums[one.field] += BAD_LINE
    if source.facts.phase:
        for field in range(2, len(sums)):
            if not source.goes_on(field - 1, field):
                sums[field] += 2 * CHANGE
    total = 0
    for field, count in enumerate(sums):
        total += count
        sums[field] = total
    return sums
