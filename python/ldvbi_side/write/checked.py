"""The finished plan beside what each capture shows: whether it is one that may be written."""

from typing import Dict, Iterator, List, NamedTuple, Optional, Sequence, Tuple

import ldvbi
from ldvbi import Fault, Rule, Spacing, State
from ldvbi.judging import PACKED_NUMBER
from ..join.disagreements import disagreements_of, disputed_in
from .following import agreed, followed
from .lengths import Lengths
from .plan import Plan
from .ranks import Ranks
from .runs import Known, runs_of
from .sources import Source, straightened
from .stretches import Stretch


def refuse_wrong(made: Plan, sources: Sequence[Source]) -> None:
    """Raises a ValueError unless a plan is right: the library says that it is done, and what the plan says of itself,
    which numbers are padding and where each begins, is so."""
    shown = _Shown(made, sources)
    why = _disorder(made) or _fault(made, shown) or next(_wrong_numbers(made, shown), None)
    if why:
        raise ValueError("the plan is wrong: " + why)


def _disorder(made: Plan) -> Optional[str]:
    """Where fields of the output, or numbers, don't follow each other by what the plan says of its stretches."""
    out, left_out = 1, set(made.left_out)
    last: Optional[int] = None
    for one in made.stretches:
        if one.out != out or one.fields < 1:
            return "field %d is planned as field %d" % (out, one.out)
        out += one.fields
        if one.first is None:
            continue
        assert one.last is not None
        if last is not None and (one.first < last or one.last < one.first or not left_out.issuperset(
                range(last + 1, one.first))):
            return "%s comes after %s" % (made.count_unit().text_of(one.first), made.count_unit().text_of(last))
        last = one.last
    return None if out == made.fields + 1 else "it has %d fields" % (out - 1)


# ---- As the library checks it

# That of video last: a few numbers look like its, whatever disc they are of
_SPACINGS = (("film", Spacing.film), ("both", Spacing.both), ("minute", Spacing.rising), ("video", Spacing.video))


class _Shown:
    """What each capture shows: of each field, counted from 1, its number as a rank. Numbers of swapped fields count
    nowhere, nor do those that the plan left aside."""

    def __init__(self, made: Plan, sources: Sequence[Source]) -> None:
        self.sources, self.ranks = sources, Ranks(set(made.left_out))
        paces = {one.answer.pace for one in sources}
        self.spacing = next(spacing for pace, spacing in _SPACINGS if pace in paces)
        self.places: List[Dict[int, int]] = []
        for source in sources:
            pairs, showings = straightened(source.answer), source.answer.showings
            swapped = {number for number, field, _ in showings if field in pairs}
            self.places.append({field: source.capture.ordinal(number) for number, field, _ in showings
                                if number not in swapped})

    def packed(self) -> Iterator[bytes]:
        """The numbers of each capture as the library has them."""
        for source, places in zip(self.sources, self.places):
            room = bytearray(PACKED_NUMBER.size * source.answer.fields)
            for field, number in places.items():
                PACKED_NUMBER.pack_into(room, PACKED_NUMBER.size * (field - 1), self.ranks.of(number), State.believed)
            yield room

    def set_aside(self, made: Plan, begun: "_Begun") -> None:
        """Leaves out the numbers of fields that aren't taken, of which it isn't sure that they are these numbers', or
        whose run another capture disputes."""
        taken = {(one.source, field) for one in made.stretches for field in one.taken()}
        captures = [source.capture for source in self.sources]
        disputed = disputed_in(disagreements_of(captures))
        following = [followed(source, self.ranks) for source in self.sources]
        known = Known(self.ranks, Lengths(following), range(begun.rank, begun.end), set(),
                      agreed([one.last() for one in following]))
        for place, (one, places) in enumerate(zip(following, self.places)):
            runs = runs_of(place, one, known, {field for name, field in disputed if name == one.source.capture.name})
            sure = {block.field for run in runs for block in run.blocks if block.is_sure}
            for field in [field for field in places if (place, field) not in taken and field not in sure]:
                del places[field]

    def of(self, one: Stretch) -> Iterator[Tuple[int, int]]:
        """Each number that the fields of a stretch show, and that field of the output."""
        for out, field in zip(one.outs(), one.taken()):
            assert one.source is not None  # padding has no fields of a capture
            number = self.places[one.source].get(field)
            if number is not None:
                yield number, out


class _Begun(NamedTuple):
    """Where the numbers of a plan begin: the first one's rank, its field of the output, and the rank after the last."""
    rank: int
    out: int
    end: int


def _begun(made: Plan, ranks: Ranks) -> _Begun:
    of_numbers = [one for one in made.stretches if one.first is not None]
    first, last = of_numbers[0].first, of_numbers[-1].last
    assert first is not None and last is not None
    return _Begun(ranks.of(first), made.first_field.get(first, of_numbers[0].out), ranks.of(last) + 1)


def _stretches(made: Plan, shown: _Shown, begun: _Begun) -> List[ldvbi.Stretch]:
    """The stretches as the library has them. Each stands for the numbers from its own to before that of the next one:
    one of padding for those that are padding as a whole."""
    found: List[ldvbi.Stretch] = []
    rank, before = begun.rank, None
    for one in made.stretches:
        if one.first is not None:
            begins = shown.ranks.of(one.first)
            if before is not None and before.source is not None and one.first in before.numbers():
                begins += 1  # padding goes on with it, or a swapped pair cuts it
            rank, before = max(rank, begins), one
        elif before is not None:
            rank = begun.end
        found.append(ldvbi.Stretch(one.source, one.taken().start - 1, one.fields, rank))  # no matter which of padding
    return found


def _fault(made: Plan, shown: _Shown) -> Optional[str]:
    """What the library finds wrong. Padding may hide what isn't sure, or what another capture disputes."""
    begun = _begun(made, shown.ranks)
    stretches, spacing = _stretches(made, shown, begun), shown.spacing
    found = ldvbi.check_plan(shown.packed(), stretches, begun.end, spacing, begin=begun.out - 1)
    if found and found.rule == Rule.hidden:
        shown.set_aside(made, begun)
        found = ldvbi.check_plan(shown.packed(), stretches, begun.end, spacing, begin=begun.out - 1)
    return found and _text_of(found, made, shown)


def _text_of(found: Fault, made: Plan, shown: _Shown) -> str:
    """What is said of a fault."""
    one, text = made.stretches[found.stretch], made.count_unit().text_of
    name = "" if one.source is None else shown.sources[one.source].capture.name
    if found.rule == Rule.not_there:
        return "%s has no field %d" % (name, one.taken()[-1])
    if found.rule == Rule.twice:
        return "field %d of %s is taken twice" % (one.taken().start, name)
    if found.rule == Rule.misplaced:
        return next(_misplaced(one, made, shown), "a number of fields %d to %d is out of its place" % (
            one.out, one.outs()[-1]))
    if found.rule == Rule.hidden:
        assert one.first is not None and one.last is not None
        return "%s to %s are padding, and a capture has one of them" % (text(one.first), text(one.last))
    return "fields %d to %d stand for more numbers than they have fields" % (one.out, one.outs()[-1])


# ---- What the plan says of itself

def _misplaced(one: Stretch, made: Plan, shown: _Shown) -> Iterator[str]:
    """What is said of each number of a stretch that is elsewhere than the plan says."""
    text, is_on_both = made.count_unit().text_of, shown.spacing == Spacing.both
    for number, out in shown.of(one):
        wanted = made.first_field.get(number)
        if wanted is None:
            yield "%s stands in field %d, where another number is" % (text(number), out)
        elif out - wanted not in ((0, 1) if is_on_both else (0,)):
            yield "%s stands in field %d, not %d" % (text(number), out, wanted)


def _wrong_numbers(made: Plan, shown: _Shown) -> Iterator[str]:
    """What is said of numbers that stand elsewhere than the plan says, or that it says are padding though they are
    shown."""
    padded = set(made.padded)
    for one in made.stretches:
        yield from _misplaced(one, made, shown)
        for number, _ in shown.of(one):
            if number in padded:
                yield "%s is padding" % made.count_unit().text_of(number)
