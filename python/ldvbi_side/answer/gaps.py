"""What the library says of the side: where numbers and fields don't go on together, and whether the capture is whole.
It counts by the clock of an NTSC disc, if it finds that (rule 9). A gap is left out if it is explained by what is found
here besides: another speed (rule 6), or which field of a picture was read if both have its number."""

import bisect
import itertools
from typing import Dict, Iterable, List, NamedTuple, Optional, Set, Tuple, Union, cast

from ldvbi import Gap, GapKind, JudgedSide, Pace as JudgedPace, Reason, State
from ..judge.detours import KINDS, Detour, detour_of, pairs_of
from ..judge.order import TURNED
from ..judge.places import Break, Places
from ..judge.readings import ByField

# Reasons of gaps, which say why the first number and the last don't count to each other
_BY_GAPS = Reason.is_lost | Reason.is_held | Reason.goes_back | Reason.is_joined
_KINDS = {GapKind.lost: "lost", GapKind.held: "held", GapKind.back: "back"}


class Gaps(NamedTuple):
    """Where numbers and fields don't go on together, as breaks with numbers as counts. `judged` is the library's
    answer, or None for minutes alone, which it doesn't judge. `breaks` are lost fields, fields too many, and jumps
    back. `open` are gaps where the disc itself may skip, or doesn't where its clock would, and breaks at an end, for
    which the library knows no gap. `joins` are gaps between two sides. Another speed explains those `at_speed`: there
    the breaks are those of the numbers that are believed here.

    `more` is None unless the library reports without a gap that numbers don't count to each other, and nothing here
    explains it. Then it is how many more fields there are than the first number and the last count to, or, negative,
    fewer: 0 if only a stretch between these two is off."""
    judged: Optional[JudgedSide]
    breaks: List[Break]
    more: Optional[int] = None
    open: List[Break] = []
    joins: List[Break] = []
    at_speed: List[Break] = []
    detours: List[Detour] = []


class Between:
    """Stretches, each given by the field before it and the one after it."""

    def __init__(self, ends: Iterable[Tuple[int, int]]) -> None:
        both = sorted(ends)
        self.after = [after for after, _ in both]
        # of each and those that begin before it the end of that which goes on the longest
        self.before: List[int] = list(itertools.accumulate((before for _, before in both), max))

    def meet(self, after: int, before: int) -> bool:
        """Whether one of them has something of what lies between these two fields."""
        place = bisect.bisect_left(self.after, before) - 1
        return place >= 0 and after < self.before[place]

    def hold(self, after: int, before: int) -> bool:
        """Whether one of them has all that lies between these two fields."""
        place = bisect.bisect(self.after, after) - 1
        return place >= 0 and before <= self.before[place]


def gaps_of(places: Places, shown: ByField, lead_out: Set[int]) -> Gaps:
    """The gaps that the library reports, without those that are explained; for minutes alone the breaks that are known
    here. `shown` has the picture numbers that fields show, with their lines; `lead_out` has the fields of lead-out."""
    judged = places.numbers.judged
    if judged is None:
        return Gaps(None, places.breaks)
    found: Dict[str, List[Break]] = {name: [] for name in ("breaks", "open", "joins", "at_speed")}
    known = _Known(places, judged, shown)
    pairs = [pair for pair in pairs_of(judged.gaps) if not any(map(known.is_at_speed, pair))]
    away = {gap for pair in pairs for gap in pair}
    for gap in judged.gaps:
        fate = None if gap in away else known.fate(gap)
        if fate:
            _add(found[fate], _entry(places, gap, judged.on_both))
    at_speed = Between((gap.after, gap.before) for gap in found["at_speed"])
    found["breaks"] += [one for one in places.breaks if at_speed.meet(one.after, one.before)]
    if judged.reasons & Reason.no_numbers:
        # What this package believes besides may show a loss, if too little for the library was read.
        found["breaks"], found["open"] = ([one for one in places.breaks if known.may_skip(one) == is_open]
                                          for is_open in (False, True))
    found["open"] += [one for one in places.breaks if is_outside(judged, one)]
    more = None
    is_uneven = _is_uneven(places) if judged.on_both else _is_odd(places, judged, lead_out)
    if (judged.reasons & Reason.is_off or is_uneven) and not judged.reasons & _BY_GAPS:
        explained = Between([(one.after, one.before) for one in found["open"]] + list(map(_around, away)))
        off = [one for one in _off_in(places, judged) if not explained.hold(one.after, one.before)]
        found["breaks"] += off
        is_explained = not is_uneven and _is_explained(places, judged, lead_out)
        more = None if off or is_explained else _more(places.numbers)
    for name in ("breaks", "open"):
        found[name].sort(key=lambda one: one.after)
    return Gaps(judged, more=more, detours=[detour_of(*pair) for pair in pairs], **found)


def _around(gap: Gap) -> Tuple[int, int]:
    """The field before a gap and the one after it, counted from 1."""
    return gap.after + 1, gap.before + 1


class _Known:
    """What is known here of the places of the library's gaps."""

    def __init__(self, places: Places, judged: JudgedSide, shown: ByField) -> None:
        self.places, self.judged, self.shown = places, judged, shown
        self.is_time = places.numbers.unit.name == "time"
        self.joins = {(one.field, other.field) for one, other in places.joins}
        self.speeds = Between((one.first, one.last) for one in places.numbers.speeds)
        self.open = sorted(places.open)
        # on both fields the library doesn't say where a number stays
        self.begins = {one.first: one.last for one in places.stills}
        self.ends = {one.last: one.first for one in places.stills}
        self.turns = Between((one.after - TURNED, one.before + TURNED) for one in judged.gaps
                             if one.kind == GapKind.back)

    def is_at_speed(self, gap: Gap) -> bool:
        """Whether some of its fields were played at another speed."""
        return self.speeds.meet(*_around(gap))

    def may_skip(self, gap: Union[Gap, Break]) -> bool:
        """Whether an unknown clock may leave out some of its numbers."""
        return bisect.bisect(self.open, gap.from_) < bisect.bisect_left(self.open, gap.to)

    def fate(self, gap: Gap) -> Optional[str]:
        """Which of the lists of `Gaps` has it; None of a still. An open one of times is a loss, unless an unknown clock
        may have left out its numbers."""
        # the library takes a number that is the same before and after lead-out for one that stays
        if gap.kind == GapKind.joined or _around(gap) in self.joins:
            return "joins"
        if gap.kind == GapKind.still:
            return None
        if self.is_at_speed(gap):
            return "at_speed"
        explained = (self._is_clocks, self._are_rows, self._is_video, self._is_still)
        is_open = gap.kind in KINDS or any(may_be(gap) for may_be in explained)
        if gap.kind == GapKind.open:
            is_open = not self.is_time or self.may_skip(gap)
        return "open" if is_open else "breaks"

    def _is_clocks(self, gap):
        """Whether it has just the fields of the numbers that the clock leaves out, or may be what a clock leaves out
        that the library didn't find: with numbers on both fields it takes that for lost."""
        return (gap.kind == GapKind.held and gap.fields == 2 * self.places.numbers.left_out(gap.from_, gap.to) or
                gap.kind == GapKind.lost and self.judged.on_both and self.is_time and self.may_skip(gap))

    def _are_rows(self, gap):
        """Whether lines 17 and 18 have numbers of their own there, and the one row goes on: then the gap may be no more
        than the place from which on the library believes the other row."""
        if gap.kind not in (GapKind.lost, GapKind.held):
            return False
        first, last = _around(gap)
        rows = [(number, gap.to) for number in self.shown.get(first, ())]
        rows += [(gap.from_, number) for number in self.shown.get(last, ())]
        least_off = self.places.numbers.pace.least_off  # in which field of its picture each stands isn't known
        return any(least_off(last - first, one, other - one) == 0 for one, other in rows)

    def _is_video(self, gap):
        """Whether a film may have video there, with two fields to each picture: it has fields for all of that. If a
        number stands between that is one off, it looks like a still with the one before or after it."""
        if self.judged.pace != JudgedPace.film or gap.kind != GapKind.lost:
            return False
        count, (after, before) = 2 * (gap.to - gap.from_), _around(gap)
        spans = self.begins.get(before, after) - after, before - self.ends.get(after, before)
        return before - after >= count or count in spans

    def _is_still(self, gap):
        """Whether a picture that stands still beside it may have stood longer than its number was read: by whole
        pictures, but on film, and with numbers on both fields, it isn't known of which field of a picture one is. Where
        the disc is turned by hand, it shows each picture as long as it likes, and passes over others."""
        after, before = _around(gap)
        is_beside = gap.from_ == gap.to or after in self.ends or before in self.begins
        is_odd = gap.fields % 2 and self.judged.pace == JudgedPace.video and not self.judged.on_both
        is_turned = self.turns.meet(gap.after, gap.before)
        return gap.kind == GapKind.held and is_beside and not (self.is_time or is_odd or is_turned)


def _is_explained(places, judged, lead_out):
    """Whether something explains that numbers don't count to each other. A player that stands still shows both fields
    of a picture equally often; if its number stands beside lead-out, the second one may show nothing but that."""
    if judged.on_both:
        return all((one.last - one.first) % 2 or lead_out.issuperset((one.last, one.last + 1)) for one in places.stills)
    return not _shifts(judged)


def _is_uneven(places):
    """Whether a field is too few or too many in what the library takes for a still: of the other pictures, which show
    their number on both fields, not all first fields are odd ones, or even ones."""
    stills, swapped = {one.number for one in places.stills}, places.numbers.swapped
    begins = {(one.field - one.variant) % 2 for one in places.numbers.believed
              if one.number not in stills and one.field not in swapped}
    return len(begins) > 1 and not places.joins


def _is_odd(places, judged, lead_out):
    """Whether a number is shown again an odd count of fields later, of a video disc that has it on one field of its
    picture: a player that stands still repeats both. The field after it may show it, too, and so may lead-out."""
    numbers = places.numbers
    return judged.pace == JudgedPace.video and any(
        (other - one) % 2 and other != one + 1 and lead_out.isdisjoint(range(one, other))
        for still in places.stills for fields in [numbers.fields[numbers.places_in(still.first, still.last)]]
        for one, other in zip(fields, fields[1:]))


def is_outside(judged: JudgedSide, one: Break) -> bool:
    """Whether a break stands before the first number that the library believes, which has fields for all numbers before
    it, or after the last one. The library knows of no gap there."""
    return judged.first is not None and (one.after > cast(int, judged.last) or
                                         one.before <= judged.first + 1 and not judged.reasons & Reason.begins_late)


def _off_in(places, judged):
    """The breaks that are known here of numbers that go on to within a field: which field of a picture was read if both
    have its number, and where all numbers of film stand a field off from there on."""
    if judged.on_both:
        return places.breaks
    shifts = Between(_shifts(judged))
    return [one for one in places.breaks if shifts.meet(one.after, one.before)]


def _shifts(judged):
    """The fields before and after each place at which film isn't merely cut. At a cut two pictures of two or of three
    fields follow each other: then the even numbers stand a field off, or the odd ones. If a field is lost, all do."""
    rows = [[], []]
    for field, (number, state) in enumerate(judged.numbers, 1):
        if state == State.believed:
            rows[number % 2].append((field, 2 * field - 5 * number))
    steps = sorted((before, after, abs(later - phase)) for row in rows
                   for (before, phase), (after, later) in zip(row, row[1:]) if later != phase)
    return [(one[0], other[1]) for one, other in zip(steps, steps[1:]) if other[0] < one[1]] + [
        (before, after) for before, after, off in steps if off != 2]


def _more(numbers):
    """How many fields there are more than the first number and the last count to, or, negative, fewer."""
    judged = numbers.judged
    first, last = (judged.numbers[end].number for end in (judged.first, judged.last))
    count = last - first - numbers.left_out(first, last)
    fields = 5 * count // 2 if judged.pace == JudgedPace.film else 2 * count
    away = sum(gap.fields for gap in judged.gaps if gap.kind == GapKind.inserted)
    return judged.last - judged.first - judged.tally.stood - away - fields


def _add(entries, one):
    """Adds an entry. A field that was frozen is one, of all its fields too many."""
    last = entries[-1] if entries else None
    if last and last.before == one.after and last.from_ == one.from_ == one.to:
        entries[-1] = last._replace(before=one.before, fields=last.fields + one.fields)
    else:
        entries.append(one)


def _entry(places, gap, is_on_both):
    """A gap as a break of the answer."""
    after, before = _around(gap)
    # how many fields are too many, or, negative, too few, as far as is known without their neighbours
    step = gap.to - gap.from_ - places.numbers.left_out(gap.from_, gap.to)
    off = before - after - places.numbers.pace.between(gap.from_, step, 0, 0)
    kind = _KINDS.get(gap.kind) or ("lost" if off < 0 else "held")
    fields = off if kind == "back" or gap.kind in KINDS else gap.fields
    fields = is_on_both and _off_on_both(places.numbers, gap) or fields
    return Break(kind, after, before, gap.from_, gap.to, abs(fields))


def _off_on_both(numbers, gap):
    """How many fields are too many, or, negative, too few, if both fields of a picture have its number. The library
    doesn't ask which of the two was read. If that isn't known here either, it is None, or 0."""
    ends = [one for field in _around(gap) for one in numbers.believed[numbers.places_in(field, field)]]
    return numbers.off(*ends) if len(ends) == 2 else None
