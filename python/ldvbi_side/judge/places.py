"""What lies between each believed number and the next: nothing, fields in which a number is due, a break, or the end of
one side and the start of another."""

import bisect
from collections import Counter
from typing import Any, Dict, List, NamedTuple, Optional, Set, Tuple

from ldvbi import ClockKind, Kind
from .believed import Numbers, off_at_speed, passed_between
from .clock import open_in
from .paces import MinutePace, Pace
from .readings import Codes, Reading

NEAR = (-3, -2, -1, 1, 2, 3)  # fields from a number to those before and after it
LEAST = 8  # steps from one number to the next of a disc that shows it on each k-th picture alone
Due = List[Tuple[int, int]]


class Showing(NamedTuple):
    """A number that is shown, or that stays, as a count or as the answer has it, and its first and last field."""
    number: Any
    first: int
    last: int


class Break(NamedTuple):
    """Two fields, one after the other, whose numbers (counts, or as the answer has them) don't go on together: `lost`
    if there are `fields` too few between them, `held` if there are these too many, `back` if the numbers go back."""
    kind: str
    after: int
    before: int
    from_: Any
    to: Any
    fields: int


class Places(NamedTuple):
    """Where the numbers of a side are. `showings`, `breaks` and `stills` have them as counts. `joins` are the readings
    between which another side begins. `due` are pairs of a number that isn't there and the field that it belongs in.
    `without_field` are missing numbers whose field is unknown although no field was lost. Of those that are `open` only
    other codes were seen in their place, or an unknown clock may leave them out; `unshown` are those that the disc
    doesn't show, `left_out` those that its clock leaves out. `number_of` has the number of each field that shows one or
    in which one is due. `confirmed` are the fields whose number was due and is the nearest word of their lines."""
    numbers: Numbers
    showings: List[Showing]
    breaks: List[Break]
    joins: List[Tuple[Reading, Reading]]
    stills: List[Showing]
    due: Due
    without_field: Set[int]
    open: Set[int]
    unshown: Set[int]
    left_out: Set[int]
    number_of: Dict[int, int]
    confirmed: Tuple[int, ...] = ()

    def number_at(self, field: int) -> object:
        """The number of the picture that a field belongs to, read or due: its own, or that of a field just before it,
        else that of the field after it. None if none of these has one."""
        longest = 3 if self.numbers.pace and self.numbers.pace.kind == "film" else 2
        near = [*range(field, field - longest, -1), field + 1]
        return next((self.numbers.unit.text_of(self.number_of[one]) for one in near if one in self.number_of), None)


class _Step(NamedTuple):
    """Two believed readings, one after the other, of which `place` is that of the second. `kind` is `same` (one
    showing of a number), `still` (it is shown again), `next` (they fit), `speed` (they fit at another speed), `join`
    (another side begins between them) or `break`; `off` are the fields that are too many or too few, if any may be."""
    place: int
    before: Reading
    after: Reading
    kind: str
    off: Optional[int] = None


def places_of(numbers: Numbers, codes: Codes) -> Places:
    """The places of these numbers."""
    lead_in = codes.sure_fields(Kind.lead_in)
    ends = sorted(lead_in | codes.sure_fields(Kind.lead_out))
    # of all other believed readings the next one is that of the next number
    steps = [_step(numbers, place) for place in numbers.odd_places]
    begins, values = sorted(lead_in), numbers.values
    # from this place on no number but the last one is shown (None is none): that may stay beside lead-out
    last = max(place for place, number in enumerate([None, *values]) if values[-1:] != [number])
    # another side begins between two readings that don't fit, if one of these ends stands there
    joined = [step for step in steps if step.kind in ("still", "break") and _is_between(
        ends if step.place <= last else begins, step.before.field, step.after.field)]
    # where the numbers go back, it stays a break, too
    away = {step.place for step in joined if step.after.number >= step.before.number}
    steps = [step._replace(kind="join") if step.place in away else step for step in steps]
    due, without_field, unshown, unseen = _due(numbers, steps, codes)
    unseen |= _open(numbers, steps) if codes.fields.system == "NTSC" and numbers.unit.name == "time" else set()
    showings = _showings(numbers, steps)
    breaks = [_break(numbers, step.before, step.after, step.off) for step in steps if step.kind == "break"]
    if isinstance(numbers.pace, MinutePace):
        breaks += minute_breaks(numbers.pace, showings, ends)
    left_out = set().union(*(numbers.clock.left_out_in(before.number, after.number)
                             for _, before, after, kind, _ in steps if kind in ("next", "break")))
    number_of = {**{field: number for number, field in due}, **numbers.taken}
    return Places(numbers, showings, sorted(breaks, key=lambda one: one.after),
                  [(step.before, step.after) for step in joined], _stills(showings, steps), due, without_field, unseen,
                  unshown, left_out, number_of)


def _is_between(ends, after, before):
    """Whether one of these fields, which ascend, stands between two others."""
    return bisect.bisect(ends, after) < bisect.bisect_left(ends, before)


def _step(numbers, place):
    before, after = numbers.believed[place - 1:place + 1]
    # that of the second field of the same picture
    is_second = after.variant > before.variant and (after.field, after.number) == (before.field + 1, before.number)
    if numbers.speeds and not is_second and off_at_speed(numbers, before, after) == 0:
        return _Step(place, before, after, "speed")
    if before.number == after.number:
        kind = numbers.pace.kind
        return _Step(place, before, after, "same" if kind == "minute" or kind == "both" and is_second else "still")
    off = numbers.off(before, after)
    return _Step(place, before, after, "break" if off else "next", off)


def _showings(numbers, steps):
    same, fields = {step.place for step in steps if step.kind == "same"}, numbers.fields
    begins = [place for place in range(len(fields)) if place not in same]
    ends = [place - 1 for place in begins[1:] + [len(fields)]]
    return [Showing(numbers.values[first], fields[first], fields[last]) for first, last in zip(begins, ends)]


def _stills(showings, steps):
    """The numbers that stand still, each with its fields."""
    stays, stills = {step.after.field for step in steps if step.kind == "still"}, []
    for before, one in zip(showings, showings[1:]):
        if one.first in stays and stills and stills[-1].last == before.last:
            stills[-1] = stills[-1]._replace(last=one.last)
        elif one.first in stays:
            stills.append(Showing(one.number, before.first, one.last))
    return stills


def _due(numbers, steps, codes):
    """The numbers between those that fit, each with the field in which it is due; those that no field is for; those
    that the disc doesn't show; and those in whose place nothing was seen but other codes."""
    found, due, spacing = [], [], _spacing_of(numbers)
    without_field, unshown, unseen = set(), set(), set()
    for _, before, after, kind, _ in steps:
        passed = range(before.number + 1, after.number)
        if kind == "speed":
            found += passed_between(numbers, before, after)
        elif kind == "next" and passed:
            if isinstance(numbers.pace, Pace):
                between = _due_between(numbers, before, after, passed)
                empty = {number for number, field in between if (number - before.number) % spacing and
                         codes.fields.causes[field - 1][0] == "blank"}
                unshown |= empty
                between = [one for one in between if one[0] not in empty]
                # film that is turned by hand fits by chance more often, as its pictures have 2 fields or 3
                if numbers.pace.kind == "film" and numbers.others.issuperset(range(before.field + 1, after.field)):
                    unseen.update(number for number, _ in between)
                else:
                    found += between
            else:  # of a minute that wasn't read no field is the first one
                without_field.update(passed)
    for number, field in found:
        # none is due if both lines show another number surely, or the field a code in the place of a number
        said, is_other = codes.sure_picture(field), field in numbers.others
        if _is_beside(numbers, codes, number, field):
            unseen.add(number)
        elif said is None and not is_other:
            due.append((number, field))
        else:
            (unseen if not is_other and _is_played(codes, field, said) else without_field).add(number)
    return due, without_field, unshown, unseen


def _is_beside(numbers, codes, number, field):
    """Whether a field beside its own shows the second and the picture of a time, as swapped fields do. If they are read
    in pass 2, the time isn't believed there. A side of pictures has no such codes."""
    rate, parts = numbers.unit.rate, codes.kinds[Kind.clv_picture]
    part = divmod(number % (60 * rate), rate)
    return any(part in parts.get(near, ()) for near in (field - 1, field + 1))


def _is_played(codes, field, said):
    """Whether a number was played in its field, as when a disc is turned by hand: it is at most one off what a field
    beside it shows. Else it is misread."""
    return any(abs(said - number) <= 1 for near in NEAR for number in codes.kinds[Kind.picture].get(field + near, ()))


def _due_between(numbers, before, after, passed):
    pace = numbers.pace
    # of a picture with its number on both fields the first one is meant
    variant = 0 if pace.kind == "both" else after.variant
    begin = numbers.place_of(before)
    left_out = numbers.clock.left_out_in(before.number, after.number)
    kept = [number for number in passed if number not in left_out]
    found = [(number, begin + pace.between(before.number, step, before.variant, variant))
             for step, number in enumerate(kept, 1)]
    # there is no field for the last one if the number before is one that the clock leaves out
    return [one for one in found if one[1] < numbers.place_of(after)]


def _open(numbers, steps):
    """The numbers of gaps that a clock may have left out, if none was found."""
    singles, pairs = ([range(before.number + 1, after.number) for _, before, after, kind, off in steps
                       if kind == "break" and off == few] for few in (-2, -4))
    if not singles and not pairs or numbers.clock.kind != ClockKind.plain:
        return set()
    ends = [(step.before.number, step.after.number) for step in steps if step.kind not in ("same", "next")]
    # from the first to the last number of each stretch of believed ones that go on from one to the next
    return open_in(singles, pairs, list(map(
        range, [numbers.values[0], *(after for _, after in ends)],
        [*(before + 1 for before, _ in ends), numbers.values[-1] + 1])))


def _break(numbers, before, after, off):
    kind = "lost" if off < 0 else "held"
    if after.number < before.number and off_at_speed(numbers, before, after) is None:
        kind = "back"
    elif isinstance(numbers.pace, MinutePace):
        off = numbers.pace.least_wrong(after.field - before.field, after.number - before.number)
    return Break(kind, before.field, after.field, before.number, after.number, abs(off))


# ---- Discs of another kind

def _spacing_of(numbers: Numbers) -> int:
    """How many pictures apart the numbers of the disc are: 1 unless most of the steps from one believed time to the
    next are longer, and all as long. If numbers aren't read by chance, more of them are one apart than two."""
    if numbers.unit.name != "time":
        return 1
    pairs = zip(numbers.believed, numbers.believed[1:])
    steps = Counter(after.number - before.number for before, after in pairs
                    if after.field - before.field == 2 * (after.number - before.number))
    return next((step for step, count in steps.items() if count >= LEAST and 2 * count > sum(steps.values())), 1)


def minute_breaks(pace: MinutePace, showings: List[Showing], ends: List[int]) -> List[Break]:
    """The minutes that show more fields than they have, and those that have room for fewer: between two others, or of
    minute 0 between lead-in and minute 1. At `ends`, fields with lead-in or lead-out, another side may begin."""
    found = [Break("held", first, last, number, number, last - first + 1 - pace.longest)
             for number, first, last in showings if last - first >= pace.longest]
    for (before, _, last), (number, _, _), (after, first, _) in zip(showings, showings[1:], showings[2:]):
        few = pace.shortest - (first - last - 1)
        if after - number == number - before == 1 and few > 0:
            found.append(Break("lost", last, first, before, after, few))
    for (number, first, _), (after, begin, _) in zip(showings, showings[1:]):
        end = ends[bisect.bisect(ends, first) - 1] if ends and ends[0] < first else None
        if end is not None and (number, after) == (0, 1) and begin - end - 1 < pace.shortest:
            found.append(Break("lost", end, begin, number, after, pace.shortest - (begin - end - 1)))
    return [one for one in found if not _is_between(ends, one.after, one.before)]
