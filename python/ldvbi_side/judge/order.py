"""Numbers that the chain sets aside, or takes for stills or breaks, since they come in another order than the disc's:
turned by hand; played at another speed, in other steps, backwards, or three times each; and in fields that a capture
has written in each other's place, so that a number stands one field before or after its own."""

import bisect
import itertools
import math
import operator
from collections import Counter
from typing import Callable, Collection, Dict, List, Mapping, Sequence

from .believed import APART, SLOW, Line, Numbers, Stretch, line_from
from .paces import price
from .readings import WEIGHTS, Reading

LEAST = 8  # readings of a stretch
FEWEST = 3  # different numbers of it
STEPS = (2, 3, -1, -2, -3)  # numbers from one picture to the next
# By hand: numbers from one that is shown to the next, fields in which there are so many breaks and such numbers beside
TURN, TURNED, SIGNS = 5, 40, 3


# ---- Turned by hand

def with_turned(numbers: Numbers, readings: List[Reading]) -> Numbers:
    """These numbers, and those that a disc showed while it was turned by hand: near those before and after them, among
    breaks that are as near. The chain passes over them if two others fit by chance."""
    aside = numbers.aside(readings) if numbers.believed else []
    near = [one for one in aside if _is_turned(one, *numbers.around(one.field))]
    if not near:
        return numbers
    marks = sorted([one.field for one in near] + _turns(numbers))
    more = {one.field: one for one in near if
            bisect.bisect(marks, one.field + TURNED) - bisect.bisect_left(marks, one.field - TURNED) > SIGNS}
    return numbers._replace(believed=sorted([*numbers.believed, *more.values()])) if more else numbers


def _turns(numbers):
    """The fields of believed readings that don't go on from the one before, and whose numbers are near."""
    turns, still = [], None  # the place of the last number that stayed
    for place in numbers.odd_places:
        before, after = numbers.believed[place - 1:place + 1]
        off = numbers.off(before, after)
        if abs(after.number - before.number) <= TURN and (off or off is None and still != place - 1):
            turns.append(after.field)
        still = place if off is None else None
    return turns


def _is_turned(one, *around):
    """Whether a number is near those believed around it, and is read in pass 1 or on two lines, or is one of these."""
    others = [other for other in around if other]
    return all(abs(one.field - other.field) <= TURNED and abs(one.number - other.number) <= TURN
               for other in others) and (
        one.weight >= WEIGHTS[1] or any(one.number == other.number for other in others))


# ---- Other speeds

def with_speeds(numbers: Numbers, readings: List[Reading],
                complete: Callable[[Line, List[int]], List[Reading]] = lambda line, fields: []) -> Numbers:
    """These numbers, with the stretches at another speed that weigh more than what was believed in their fields.
    `readings` ascend by field. `complete` finds more readings of a line in fields that have none."""
    assert numbers.pace is not None
    kind = numbers.pace.kind
    if kind == "film":
        return numbers
    loose, stays = _loose(numbers, readings)
    lines = _lines(loose, kind == "both") + _slow_lines(stays)
    if not lines:
        return numbers
    fields, numbers = [one.field for one in readings], numbers._replace(believed=list(numbers.believed))
    for line, ones in sorted(lines, key=lambda found: -sum(one.weight for one in found[1])):
        stretch = _stretch_of(numbers, line, ones)
        if is_free(numbers.speeds, stretch):
            near = readings[bisect.bisect_left(fields, stretch.first):bisect.bisect(fields, stretch.last)]
            read = {one.field for one in near}
            near += complete(line, [field for field in range(stretch.first, stretch.last + 1) if field not in read])
            if kind == "both":
                near = [one._replace(variant=(one.field - line.field) % 2) for one in near]
            numbers = _with_stretch(numbers, stretch, sorted(one for one in near if line.has(one)))
    return numbers._replace()


def is_free(speeds: Sequence[Stretch], stretch: Stretch) -> bool:
    """Whether none of these stretches is in more fields of another one than the first or the last."""
    place = bisect.bisect(speeds, (stretch.first, math.inf))
    return (place == 0 or speeds[place - 1].last <= stretch.first) and (
        place == len(speeds) or speeds[place].first >= stretch.last)


def _with_stretch(numbers, stretch, ones):
    """These numbers, with those readings of a stretch, if they weigh more than what was believed in its fields and two
    changes of the speed cost. Their lists are changed: to copy these for each stretch would take long."""
    places = numbers.places_in(stretch.first, stretch.last)
    inside, fields = numbers.believed[places], [one.field for one in ones]
    known = set(fields)
    if 2 * sum(one.weight for one in inside if one.field not in known) > sum(one.weight for one in ones):
        return numbers  # as when a disc is turned by hand: it showed other numbers, too
    before, after = numbers.beside(places)
    place = bisect.bisect(numbers.speeds, stretch)
    changed = numbers._replace(speeds=numbers.speeds[:place] + (stretch,) + numbers.speeds[place:])
    if _worth(changed, before, ones, after) - 2 * price(1) <= _worth(numbers, before, inside, after):
        return numbers
    changed.fields = numbers.fields
    changed.believed[places], changed.fields[places] = ones, fields
    return changed


def _worth(numbers, before, ones, after):
    """What these readings weigh less the price of the breaks between them and those around."""
    row = [one for one in [before] + ones + [after] if one]
    total = sum(one.weight for one in ones)
    for one, other in zip(row, row[1:]):
        off = numbers.off(one, other)
        total -= price(other.field - one.field if off is None else off)
    return total


def _loose(numbers, readings):
    """The readings that fit no neighbour at the disc's own speed, and the believed ones whose number stays."""
    believed = numbers.believed
    begins, values = [one.field - one.variant for one in believed], numbers.values
    steps = zip(map(operator.sub, begins[1:], begins), map(operator.sub, values[1:], values))
    goes_on = [place for place, (apart, step) in enumerate(steps) if step != 0 and apart == 2 * step]
    fits = {numbers.fields[place + on] for place in goes_on for on in (0, 1)}
    stays = {one for pair in zip(believed, believed[1:]) if pair[0].number == pair[1].number and
             pair[1].variant <= pair[0].variant for one in pair}
    return [one for one in readings if one.field not in fits], sorted(stays)


def _lines(loose, is_both):
    """The lines on which enough of these readings are, each with its readings."""
    found = []
    for step, phase in itertools.product(STEPS, (0, 1)):
        # if both fields of a picture have its number, it begins with an odd one or with an even one
        near = loose if is_both else [one for one in loose if one.field % 2 == phase]
        for ones in _groups(near, [one.number - step * ((one.field - phase) // 2) for one in near]):
            found.append((Line(step, 2, ones[0].field - (ones[0].field - phase) % 2, ones[0].number), ones))
    return found


def _groups(readings, keys):
    """The readings that are on a line, as those with the same key are, in groups that are large enough."""
    often = {key for key, count in Counter(keys).items() if count >= LEAST}
    last, groups = {}, []
    for one, key in [pair for pair in zip(readings, keys) if pair[1] in often] if often else ():
        if key not in last or one.field - last[key][-1].field > APART:
            last[key] = []
            groups.append(last[key])
        last[key].append(one)
    return [ones for ones in groups if _is_enough(ones)]


def _is_enough(ones):
    return len(ones) >= LEAST and len({one.number for one in ones}) >= FEWEST


def _slow_lines(stays):
    """The lines of numbers that are shown for three pictures each, among the readings that stay."""
    found, low, high = [], 0, 0  # the first and the last field in which 0 would begin
    for one in stays:
        begin = one.field - one.variant - SLOW * one.number
        if found and one.field - found[-1][-1].field <= APART and max(high, begin) - min(low, begin) < SLOW:
            low, high = min(low, begin), max(high, begin)
            found[-1].append(one)
        else:
            low = high = begin
            found.append([one])
    begins = [min(one.field - one.variant - SLOW * one.number for one in ones) for ones in found]
    return [(Line(1, SLOW, begin + SLOW * ones[0].number, ones[0].number), ones)
            for begin, ones in zip(begins, found) if _is_enough(ones)]


def _stretch_of(numbers, line, ones):
    """The stretch with these readings of a line, up to the pictures in which the speed changes."""
    first, last = ones[0].field, ones[-1].field
    before, after = numbers.around(first, last)
    if line.fields == SLOW:
        return Stretch(first, last, line)
    if before:
        turn = line_from(numbers, before).meeting(line, before, ones[0])
        first = first if turn is None else turn
    if after:
        turn = line.meeting(line_from(numbers, after), ones[-1], after)
        last = last if turn is None else turn
    return Stretch(first, last, line)


# ---- Swapped fields

def with_swaps(numbers: Numbers, readings: List[Reading], shown: Collection[int]) -> Numbers:
    """These numbers, and each one that was read in pass 1 or on two lines and stands one field off between two that
    fit, if no number was read in the field in which it is due. `shown` are the fields in which a number was read."""
    assert numbers.pace is not None
    sure = [one for one in readings if one.weight >= WEIGHTS[1]]
    if numbers.pace.kind == "both":
        found = _of_both(numbers, sure)
    else:
        found = {one.field: (one, due) for one, due in _off_by_one(numbers, numbers.aside(sure)) if due not in shown}
    if not found:
        return numbers
    kept = [one for one in numbers.believed if one.field not in found] + [one for one, _ in found.values()]
    swapped = {field: due for field, (_, due) in found.items() if field != due}
    return numbers._replace(believed=sorted(kept), swapped=swapped)


def _off_by_one(numbers, aside):
    """The numbers that stand one field off between two that fit each other, each with the field in which it is due."""
    believed = numbers.believed
    places = [place for place in numbers.odd_places if place + 1 < len(believed)]
    threes = [(one, before, after) for before, one, after in (believed[place - 1:place + 2] for place in places)
              if one.field - before.field != 2 * (one.number - before.number)]
    for one, before, after in threes + [(one, *numbers.around(one.field)) for one in aside]:
        if before and after and before.number < one.number < after.number and before.variant == after.variant and (
                numbers.fit((before, after))):
            one = one._replace(variant=after.variant)
            off = numbers.off(before, one)
            if abs(off) == 1:
                yield one, one.field - off


def _of_both(numbers, sure):
    """Where each field of a picture has its number: the second field of one and the first of the next, each of which
    shows the other's, and the other field of either picture, with the field in which each is due."""
    found, shown = {}, {(one.field, one.number): one for one in sure}
    for (field, number), one in shown.items():
        other = shown.get((field + 1, number - 1))
        inside = numbers.places_in(field - 1, field + 2)
        around = [near for near in numbers.beside(inside) if near]
        if other is None or len(around) == 2 and numbers.off(*around):
            continue
        base = min(around, default=one)
        begin = base.field - base.variant
        places = {field: other.field, other.field: field}
        ones = [near for near in numbers.believed[inside] if near.field not in places]
        ones = [(near, places.get(near.field, near.field)) for near in ones + [one, other]]
        if all(near.number == base.number + (due - begin) // 2 for near, due in ones):
            found.update((near.field, (near._replace(variant=(due - begin) % 2), due)) for near, due in ones)
    return found


def pairs_of(swaps: Mapping[int, int]) -> Dict[int, int]:
    """The first fields of the pairs in order, each with the field that shows a number, or else with the first one."""
    pairs: Dict[int, int] = {}
    for field, due in sorted(swaps.items()):
        pairs.setdefault(min(field, due), field)
    return pairs
