"""What each field of an output gets of its metadata."""

from typing import Dict, Iterator, Mapping, NamedTuple, Optional, Sequence

from .plan import Plan
from .sources import PHASES, Source
from .told import SOUNDS


class Kept(NamedTuple):
    """A field of the output: the capture's index and the field there that it is taken from, each None for padding; and
    whether it begins a frame, and its place in the colour's sequence, which run on over padding."""
    out: int
    source: Optional[int]
    field: Optional[int]
    is_first: bool
    phase: int


def fields_of(made: Plan, sources: Sequence[Source]) -> Iterator[Kept]:
    """Each field of the output. What is padding at the beginning runs up to the first field that isn't."""
    phases = PHASES[made.system]
    start = next(one for one in made.stretches if one.source is not None)
    assert start.source is not None and start.field is not None
    facts = sources[start.source].facts
    is_first = (facts.first[start.field - 1] if facts.first else True) == (start.out % 2 == 1)
    phase = ((facts.phase[start.field - 1] if facts.phase else 1) - start.out) % phases
    for one in made.stretches:
        for step, out in enumerate(one.outs()):
            field = None if one.field is None else one.field + step
            is_first, phase = is_first, phase % phases + 1
            if one.source is not None:
                assert field is not None
                facts = sources[one.source].facts
                is_first = facts.first[field - 1] if facts.first else is_first
                phase = facts.phase[field - 1] or phase if facts.phase else phase
            yield Kept(out, one.source, field, is_first, phase)
            is_first = not is_first


def counts_at(kept: Kept, sizes: Mapping[str, Sequence[int]]) -> Dict[str, int]:
    """How many values a field has of each file of sound, by the members of a field's entry; 0 if there is no such
    file."""
    return {sound.member: sizes[sound.end][kept.out - 1] // sound.size if sound.end in sizes else 0
            for sound in SOUNDS}
