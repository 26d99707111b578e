"""Which readings are believed. Those that the library believes are: they are the anchors of a side (`anchored`). Where
the library leaves it open, at most one reading a field is chosen, so that their weight less the price of their breaks
is greatest. Such a choice is a chain, drawn from one anchor to the next (`chosen`). Chapters are chosen in this way,
too, and so are minutes, of which the library believes none:

    field    1   3    5   7   9     each number weighs 4, as a word on two lines does
    number   1   2  903   4   5     without 903 the chain is worth 16, with it 20 less two breaks of 12

The price of a step depends only on its two readings, so one pass over these finds a best chain that ends with each. Of
the earlier ones only some are asked (`_earlier`), so a better chain may be missed. What a pace leaves open of a number,
its variant, is found last. docs/SIDES.md has the rules."""

import contextlib
import functools
import itertools
import math
from typing import Dict, Iterator, List, Mapping, Tuple

from ldvbi import ClockKind, Counted, JudgedSide, Number, Pace as JudgedPace, State, complete_times, judge_side
from .clock import DROP_FRAME
from .paces import AnyPace, Pace, price
from .readings import Fields, Reading

LAST = 4  # readings before one that are asked in any case
LONG = 1000  # readings between two anchors that may be noise, if there are more
DENSE = 4  # fields to one of these, at most, and of so many one that goes on
LEAST = price(1)  # that a break costs
TIE = 2 ** -20  # of chains that are worth the same the one with more readings is taken
BACK = 4 * TIE  # and with fewer jumps back
STILL = 2  # what it costs that numbers begin to stay
NEVER = -math.inf  # the value of a chain that doesn't begin where it has to
FEWER = 2 ** -20  # of breaks that cost as much those of fewer fields are taken


# ---- The library's numbers

def judged_of(fields: Fields, counted: Counted) -> JudgedSide:
    """The library's answer for the side, for times of NTSC by the clock that it finds. A few minutes don't show enough
    of drop-frame: if none is found, that is taken if it leaves fewer gaps, and none of its numbers is shown."""
    completed = complete_times(fields.packed, fields.system) if counted == Counted.times else None
    judge = functools.partial(judge_side, fields.packed, fields.system, counted, may_end=fields.may_end,
                              completed=completed)
    if counted == Counted.times and fields.system == "NTSC":
        with contextlib.suppress(OSError):  # an older library knows of no clock
            found = judge(clock="find")
            numbers = set(sure_in(found.numbers).values())
            if found.clock.kind != ClockKind.plain or not found.gaps or (
                    numbers & DROP_FRAME.left_out_in(min(numbers), max(numbers))):
                return found
            return min(found, judge(clock=DROP_FRAME), key=lambda one: len(one.gaps))
    found = judge()
    return judge(pace=JudgedPace.video) if found.pace == JudgedPace.film and is_on_both(found.numbers) else found


def is_on_both(numbers: List[Number]) -> bool:
    """Whether most numbers stand on the field before as well, as on no film: at a third of the speed numbers on both
    fields may look like those of film."""
    shown = [number if state in (State.believed, State.doubtful) else None for number, state in numbers]
    runs = [number for number, _ in itertools.groupby(shown) if number is not None]
    return len(shown) - shown.count(None) > 2 * len(runs)


def pace_of(judged: JudgedSide) -> Pace:
    """The pace that the library found."""
    return Pace("film" if judged.pace == JudgedPace.film else "both" if judged.on_both else "video")


def anchored(readings: List[Reading], pace: Pace, judged: JudgedSide) -> List[Reading]:
    """The readings that are believed, each with its variant. They ascend by field, as do those given."""
    believed = chosen(readings, pace, sure_in(judged.numbers))
    return _with_variants(believed, pace) if pace.variants > 1 else believed


def sure_in(numbers: List[Number]) -> Dict[int, int]:
    """The fields, from 1, of which the library believes a number, each with that number."""
    believed = State.believed
    return {field: number for field, (number, state) in enumerate(numbers, 1)
            if state is believed and number is not None}


# ---- Between them

def chosen(readings: List[Reading], pace: AnyPace, sure: Mapping[int, int]) -> List[Reading]:
    """Those of these readings that are believed: in the fields of `sure` the one with the sure number, and between
    these the best chain from one to the next. They ascend by field."""
    get, found, begin = sure.get, [], 0
    kept = [one for one in readings if get(one.field, one.number) == one.number]
    for first, last in stretches_of([place for place, one in enumerate(kept) if one.field not in sure]):
        found += kept[begin:first]
        around = kept[max(first - 1, 0):last + 1]
        is_still = len(found) > 1 and found[-2].number == found[-1].number
        begin = last
        if not _is_noise(around, pace):
            row = _between(around, pace, first > 0, last < len(kept), is_still)
            found += row[first > 0:len(row) - (last < len(kept))]
    return found + kept[begin:]


def _is_noise(part, pace):
    """Whether this is a long part with a number in many of its fields, of which few go on with one of those just
    before. Any other one has to be looked at: the disc may have two numbers on each picture, or be turned by hand."""
    if len(part) <= LONG or DENSE * len(part) < part[-1].field - part[0].field:
        return False
    rows = [pace.row(one.field, one.number) for one in part]
    around = zip(rows[LAST:], *(rows[LAST - back:len(rows) - back] for back in range(1, LAST + 1)))
    return DENSE * sum([row in before for row, *before in around]) < len(part)


def stretches_of(places: List[int]) -> Iterator[Tuple[int, int]]:
    """The stretches of these places, which ascend: of each the first one, and the one after the last."""
    known = set(places)
    return zip([one for one in places if one - 1 not in known], [one + 1 for one in places if one + 1 not in known])


def chain(readings: List[Reading], pace: AnyPace) -> List[Reading]:
    """The best chain of these readings, which ascend by field."""
    return _between(readings, pace, False, False, False)


def _earlier(pace, index, row, number, of_row, of_number, top):
    """Of the earlier readings those that are asked, by their places, and what going on from each costs at least: the
    last one whose numbers go on to this one, the last one with the same number, `top`, at which the best chain of all
    ends, since few of the others are worth more then, and the last few."""
    for step in pace.steps:
        if row + step in of_row:
            yield of_row[row + step], 0
    if number in of_number:
        yield of_number[number], 0
    yield top, LEAST
    for before in reversed(range(index)[-LAST:]):
        yield before, LEAST


def _between(readings, pace, is_first_sure, is_last_sure, is_still):
    """The best chain that begins with the first reading, if that is sure, and ends with the last one, if that is.
    `is_still` says whether the first one's number stayed."""
    if not readings:
        return readings
    values, origins, stays = [], [], []
    top = 0  # the reading at which the best chain of all ends
    of_row, of_number = {}, {}  # of each row of numbers that go on the last reading, and of each number
    for index, one in enumerate(readings):
        best, origin, stay = (0, None, is_still) if not index else (NEVER if is_first_sure else 0, None, False)
        row = pace.row(one.field, one.number)
        for before, least in _earlier(pace, index, row, one.number, of_row, of_number, top) if index else ():
            if values[top] - least <= best:  # none is worth more
                break
            if values[before] - least > best:
                value = values[before] - _cost(pace, readings[before], one, stays[before])
                if value > best:
                    best, origin, stay = value, before, readings[before].number == one.number
        values.append(best + one.weight + TIE)
        origins.append(origin)
        stays.append(stay)
        of_row[row] = of_number[one.number] = index
        top = index if values[index] > values[top] else top
    found, place = [], len(readings) - 1 if is_last_sure else top
    while place is not None:
        found.append(place)
        place = origins[place]
    return _without_ties(readings, found[::-1], pace)


def _cost(pace, before, after, is_still=False):
    """What it costs to go on from one reading to another. `is_still` says whether the first one's number stayed."""
    apart, step = after.field - before.field, after.number - before.number
    if not apart:
        return -NEVER
    if step == 0 and isinstance(pace, Pace):
        return 0 if is_still else STILL
    off = pace.least_off(apart, before.number, step)
    return price(off) + (BACK if step < 0 else 0)


def _without_ties(readings, places, pace):
    """The readings of these places, but those beside which another one of their field is worth as much."""
    kept = []
    taken = [readings[place] for place in places]
    for before, place, after in zip([None, *taken], places, [*taken[1:], None]):
        one, *rivals = [readings[near] for near in (place, place - 1, place + 1)
                        if 0 <= near < len(readings) and readings[near].field == readings[place].field]
        if not rivals or max(_worth(pace, before, rival, after) for rival in rivals) < _worth(pace, before, one, after):
            kept.append(one)
    return kept


def _worth(pace, before, one, after):
    """What a reading is worth between these."""
    return one.weight - sum(_cost(pace, *pair) for pair in ((before, one), (one, after)) if all(pair))


# ---- Variants

def _with_variants(believed, pace):
    """The same readings with the variants by which their breaks cost least."""
    costs, origins = [0.0] * pace.variants, []
    for one, other in zip(believed, believed[1:]):
        steps = _steps(pace, other.field - one.field, other.number - one.number, one.number % pace.period)
        costs, origin = zip(*[min((costs[before] + cost, before) for before, cost in enumerate(ways))
                              for ways in steps])
        origins.append(origin)
    variants = [costs.index(min(costs))]
    for origin in origins[::-1]:
        variants.append(origin[variants[-1]])
    return [one._replace(variant=variant) for one, variant in zip(believed, variants[::-1])]


@functools.lru_cache(maxsize=1 << 14)
def _steps(pace, apart, step, number):
    """What it costs to go on from a number, modulo the pace's period, by so much: to each variant, from each."""
    return [[price(off) + FEWER * abs(off) + (one != other) * pace.change for one in range(pace.variants)
             for off in [pace.off(apart, number, step, one, other)] for off in [apart if off is None else off]]
            for other in range(pace.variants)]
