"""Fields of the output, in stretches, and the seams between them."""

from typing import List, NamedTuple, Optional, Sequence, Tuple

from .sources import PHASES, Source

PADDING = "padding"


class Stretch(NamedTuple):
    """Fields of the output: `fields` of them from field `out` on. They show, or stand for, the numbers from the first
    to the last one, which are None for lead-in and lead-out. `source` is the index of the capture that they are taken
    from, and `field` the first field there; both are None for padding. `how` is `whole`, `unsure` (a field may be
    another number's), or `padding`."""
    out: int
    fields: int
    first: Optional[int]
    last: Optional[int]
    source: Optional[int]
    field: Optional[int]
    how: str

    def outs(self) -> range:
        """Its fields of the output."""
        return range(self.out, self.out + self.fields)

    def taken(self) -> range:
        """Its fields of the capture; none for padding."""
        return range(0) if self.field is None else range(self.field, self.field + self.fields)

    def numbers(self) -> Sequence[int]:
        """Its numbers; none for lead-in and lead-out."""
        if self.first is None:
            return ()
        assert self.last is not None
        return range(self.first, self.last + 1)


class Seam(NamedTuple):
    """Two fields of the output that can't follow each other on the disc: `parity` if both or neither begin a frame,
    `phase` if the colour's phase doesn't go on. They have padding between them if they aren't neighbours."""
    kind: str
    after: int
    before: int


def seams_of(stretches: Sequence[Stretch], sources: Sequence[Source]) -> List[Seam]:
    """The seams of an output, in its order."""
    firsts: List[Tuple[int, int]] = []  # fields of the output, each with what is known of it
    phases: List[Tuple[int, int]] = []
    for one in stretches:
        if one.source is None:
            continue
        assert one.field is not None
        facts, begin = sources[one.source].facts, one.field - 1
        if facts.first:
            firsts += zip(one.outs(), map(int, facts.first[begin:begin + one.fields]))
        if facts.phase:
            phases += [pair for pair in zip(one.outs(), facts.phase[begin:begin + one.fields]) if pair[1]]
    count = PHASES[sources[0].answer.system]
    # a frame's first field is 1: so from one field to the next it goes on by one, modulo 2
    found = [Seam("parity", *pair) for pair in _breaks(firsts, 2)]
    found += [Seam("phase", *pair) for pair in _breaks(_without_lone(phases, count), count)]
    return sorted(found, key=lambda one: one.after)


def _breaks(known: List[Tuple[int, int]], count: int) -> List[Tuple[int, int]]:
    """The pairs of fields from one to the next of which it doesn't go on by one for each field, modulo a count."""
    return [(one[0], other[0]) for one, other in zip(known, known[1:])
            if (other[1] - one[1] - other[0] + one[0]) % count]


def _without_lone(known: List[Tuple[int, int]], count: int) -> List[Tuple[int, int]]:
    """Known fields without those between two that go on: one that is off there, alone, is misread."""
    offs = [(phase - field) % count for field, phase in known]
    kept: List[int] = []
    for place in range(len(known)):
        if not kept or offs[place + 1:place + 2] != [offs[kept[-1]]]:
            kept.append(place)
    return [known[place] for place in kept]
