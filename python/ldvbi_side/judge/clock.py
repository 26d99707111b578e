"""Numbers that an NTSC CLV disc leaves out to keep to the clock. Its numbers count 30 pictures to a second that has
29.97, so such a disc leaves out one number in 1,001: evenly, or two at the start of each minute but each tenth. No
field is missing there, only the number:

    evenly         fields  797  799  801  803    numbers 398 399 401 402
    at a minute    fields 3597 3599 3601 3603    0:00:59.28 0:00:59.29 0:01:00.02 0:01:00.03

A capture that lost a picture or two looks just the same. So the library finds the clock of the whole side from three
places or more (`ldvbi.find_clock`), and judges by it. If it finds none, drop-frame is tried (`judged_of` in chain.py).
Else gaps that a clock may have made are open, unless what was played rules that out (`open_in`): rule 9 of
docs/SIDES.md."""

import itertools
from collections import Counter
from typing import List, Set

from ldvbi import Clock, ClockKind
from ldvbi.sides import MINUTE

NO_CLOCK, DROP_FRAME = Clock(ClockKind.plain), Clock(ClockKind.drop_frame)
PERIODS = (1000, 1001)  # of which a disc leaves out one number: it isn't known here of which
OFF = 2  # numbers more or less than a whole multiple, at most, in which an even clock may be off
# Fewer numbers may not show three places if one more is hidden: of one number in 1,000 or 1,001, and of two a minute
SHORT = 4000
SHORT_MINUTES = 5 * MINUTE


def open_in(singles: List[range], pairs: List[range], runs: List[range]) -> Set[int]:
    """The numbers of gaps that a clock may have left out, though the library found none. `singles` and `pairs` are the
    numbers of gaps in which fields for one are too few, or for two, and `runs` are numbers that go on from one to the
    next. A gap of one number, or of two at the start of a minute, is a loss only if enough was played to know, and each
    clock that may have made it is ruled out."""
    played = sum(map(len, singles + pairs + runs))
    pairs = [one for one in pairs if len(DROP_FRAME.left_out_in(one.start, one.stop - 1)) == 2]
    shown = sum(len(DROP_FRAME.left_out_in(run.start + 1, run.stop - 2)) // 2 for run in runs)
    found = set().union(*pairs) if played < SHORT_MINUTES or shown < len(pairs) else set()
    open_ = set().union(*singles)
    if played >= SHORT:
        ruled_out = [(period, _ruled_out(period, singles, runs)) for period in PERIODS]
        open_ = {number for number in open_ if any(number % period not in rests for period, rests in ruled_out)}
    return found | open_


def _ruled_out(period, singles, runs):
    """The rests of this period that numbers of as many places have as of gaps, or more. A clock that isn't quite even
    is none that the library knows, but no loss either: so the gaps near a rest count for it."""
    alone = [one.start for one in singles if len(one) == 1]
    gone = Counter((number + off) % period for number in alone for off in range(-OFF, OFF + 1))
    steps = Counter()  # what a rest has more than the one before it
    for run in runs:
        whole, more = divmod(max(len(run) - 2, 0), period)  # a number at an end shows nothing
        begin = (run.start + 1) % period
        steps[0] += whole
        for low, high in ((begin, min(begin + more, period)), (0, max(begin + more - period, 0))):
            steps[low] += 1
            steps[high] -= 1
    shown = itertools.accumulate(steps[rest] for rest in range(period))
    return {rest for rest, count in enumerate(shown) if count >= max(gone[rest], 1)}
