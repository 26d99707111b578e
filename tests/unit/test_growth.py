"""How long a side takes by its length: if it is four times as long, hardly more than four times as long. Asked of the
sides that bench/ draws, of others that repeat one thing all along, and of what two captures have together. It is the
time of the processor, and the least of some runs: a busy machine makes single ones longer."""

import math
import random
import time

from compact import rows
from discs import item, LEAD_IN, LEAD_OUT, picture, STOP, times
from ldvbi import System
from ldvbi.readings import PACKED_FIELD, PACKED_LINE, PackedFields
from ldvbi_side.answer.analysis import analysed
from ldvbi_side.join.captures import capture_of
from ldvbi_side.side import Side
from ldvbi_side.write.choice import CHANGE
from ldvbi_side.write.joined import join
import pytest

EXPONENT, RUNS = 1.15, 24
BEYOND, AT_LEAST = 1.8, 4  # which no busy machine makes of less in so many runs
# Each run in the place of others takes four passes over all numbers (include/ldvbi.h), quick ones.
BOUNDS = {"replaced": 1.4}
FIELDS, OF_TWO = (20000, 80000), (4000, 16000)  # of a side alone, and of captures that are joined
COUNT = FIELDS[1]


def linear(length):
    """Takes longer by the length, and by what a busy machine's caches do to longer ones."""
    return dict([(place, str(place)) for place in range(10 * length)])


def exponent(call, short, long, lengths, most=EXPONENT):
    """With which power of the length `call` takes longer, less what a busy machine adds to other work if a first run
    says too much. It runs until that is little enough, or far too much."""
    works, least = [(call, short), (call, long), *((linear, length) for length in lengths)], 4 * [math.inf]
    for turn in range(RUNS):
        for place, (work, one) in enumerate(works if turn else works[:2]):
            begin = time.process_time()
            work(one)
            least[place] = min(least[place], time.process_time() - begin)
        found, other = (math.log(least[place + 1] / least[place], lengths[1] / lengths[0]) if turn or not place else 1
                        for place in (0, 2))
        found -= max(other - 1, 0)
        if found <= most or turn + 1 >= AT_LEAST and found > BEYOND:
            break
    return found


def sides(made, system, lengths):
    """The sides that have the first of these rows."""
    packed = {text: PACKED_LINE.pack(*item(text)) for text in {text for row in made for text in row.split(" ")}}
    data = b"".join([packed[text] for row in made for text in row.split(" ")])
    for length in lengths:
        side = Side(System[system], PackedFields(data[:PACKED_FIELD.size * length]),
                    first=[place % 2 == 0 for place in range(length)])
        side.may_end = True
        yield side


def nearest(field, *_):
    """What a worn line of pictures says: the word that is due there, of one in two."""
    return int(picture((field + 1) // 2), 16) if field // 2 % 2 else None


# ---- Rows, as discs.py has them

def numbered(count=COUNT):
    return rows("1..%d" % (count // 2))


def any_picture(dice, most=80000):
    return "- {0} {0}".format(picture(dice.randrange(most)))


def read(dice, made, share):
    """These rows, of whose words such a share is read, one in 25 of these after smoothing; one in 100 is wrong."""
    def one(text):
        chance = dice.random()
        if len(text) == 1 or chance < share:
            return text + "*" * (len(text) > 1 and chance < share / 25)
        return text[:-1] + str(dice.randrange(10)) if chance < share + 0.01 else "?"
    return [" ".join(map(one, row.split(" "))) for row in made]


def each(step, fields, text):
    """Parts of compact.py, which take so many fields, for each number that is `step` more than the one before."""
    return rows("<0..%d/%d %s>" % (COUNT // fields * step, step, text))


def without(made, places, count, marked=None, mark=LEAD_IN):
    """Rows of which those of these places of each `count` are gone, and that of the place `marked` has such a mark."""
    return [mark if place % count == marked else row for place, row in enumerate(made) if place % count not in places]


def wild(dice, made, count):
    """Rows in which one field of so many shows another number."""
    return [any_picture(dice) if place % count == 4 else row for place, row in enumerate(made)]


def swapped(made, count):
    for place in range(10, len(made) - 1, count):
        made[place:place + 2] = made[place + 1], made[place]
    return made


# Of what bench/worn_sides.c, judge.c, stream.py and channel/ draw all words are read, or a share of them; or each field
# has another number, beside a stop.
OF_BENCH = {
    "clean": lambda _: numbered(),
    **{"pictures, %g" % share: lambda dice, share=share: read(dice, numbered(), share) for share in (.9, .3, .02)},
    **{"times, %g" % share: lambda dice, share=share: read(dice, times(range(COUNT // 2)), share)
       for share in (.6, .15)},
    "film, 0.85": lambda dice: read(dice, rows("f1..%d" % (COUNT * 2 // 5)), .85),
    "each field": lambda _: ["%s %s -" % (STOP, picture(number % 80000)) for number in range(COUNT)]}
# Two thirds of the fields are noise; small numbers by chance; another number on each line; lost fields, with lead-in
# before each loss, or lead-out at times; other speeds and stills; numbers of elsewhere; swapped fields.
OTHERS = {
    "noise": lambda dice: [row if dice.random() < .35 else any_picture(dice) if dice.random() < .5 else "- ? ?"
                           for row in numbered()],
    "small": lambda dice: [any_picture(dice, 60) if place % 2 else "- - -" for place in range(COUNT)],
    "differing": lambda dice: ["- %s %s" % (picture(dice.randrange(80000)), picture(place // 2))
                               for place in range(COUNT)],
    "lost": lambda _: without(numbered(COUNT * 11 // 10), (4, 5), 22),
    "joined": lambda _: without(numbered(COUNT * 11 // 10), (4, 5), 22, 3),
    "lost times": lambda _: without(without(times(range(COUNT * 11 // 20), 30), (4, 5), 22), (), 500, 0, LEAD_OUT),
    "fast": lambda _: each(123, 150, "N..N+72/3 N+73..N+122"),
    "slow": lambda _: each(60, 200, "N..N+39 N+40..N+59x3"),
    "still": lambda _: each(20, 80, "N..N+19 N+19x20"),
    "inserted": lambda _: each(100, 240, "N..N+99 N+40000..N+40019"),
    "replaced": lambda _: each(60, 120, "N..N+49 N+10050..N+10059"),
    "swapped": lambda _: swapped(numbered(), 30)}


@pytest.mark.unrecorded
@pytest.mark.parametrize("name", [*OF_BENCH, *OTHERS])
def test_a_side(name):
    made = {**OF_BENCH, **OTHERS}[name](random.Random(7))
    system = "NTSC" if name == "lost times" else "PAL"
    short, long = (one.plain()._replace(nearest_word=nearest) for one in sides(made, system, FIELDS))
    most = BOUNDS.get(name, EXPONENT)
    assert exponent(analysed, short, long, FIELDS, most) <= most


# Two captures of a side: both are clean; or one has detours, or wrong numbers on both lines, plays fast at times, or
# stays at a stop, to its end. Dropouts have what is best change from one to the other, and back.
TOGETHER = {
    "clean": lambda _: [numbered(), numbered()],
    "replaced": lambda dice: [numbered(), OTHERS["replaced"](dice)],
    "wrong": lambda dice: [OTHERS["lost"](dice), wild(dice, OTHERS["lost"](dice), 10)],
    "fast": lambda _: [numbered(), each(38, 40, "N..N+27/3 N+28..N+37")],
    "still": lambda _: 2 * [rows("1..99") + ["%s F00100 F00100" % STOP, "- - -"] * (COUNT // 2)]}


@pytest.mark.unrecorded
@pytest.mark.parametrize("name", TOGETHER)
def test_two_captures(name):
    made = TOGETHER[name](random.Random(7))
    captures = []
    for which, ones in enumerate(made):
        found = [capture_of(side, "ab"[which]) for side in sides(ones, "PAL", OF_TWO)]
        captures.append([one._replace(facts=one.facts._replace(damage=[
            CHANGE * (place // 4 % 2 == which) for place in range(one.answer.fields)])) for one in found])
    short, long = map(list, zip(*captures))
    assert exponent(join, short, long, OF_TWO) <= EXPONENT
