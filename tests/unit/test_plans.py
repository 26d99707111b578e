"""The library's check of plans in Python: what it is given, what it answers, and what it refuses. What the rules are
has tests/library/plans.txt."""

import itertools

from ldvbi import check_plan, Clock, ClockKind, Fault, Number, Rule, Spacing, State, Stretch
from ldvbi.judging import PACKED_NUMBER
import pytest
from room import reason

NOTHING = Number(None, State.nothing)
DROP_FRAME = Clock(ClockKind.drop_frame)


def capture(first, last, state=State.believed):
    """Numbers of video."""
    return [one for number in range(first, last + 1) for one in (Number(number, state), NOTHING)]


A, B = capture(1, 4), capture(3, 6)
PLAN = [Stretch(0, 0, 4, 1), Stretch(1, 0, 8, 3)]


def test_done():
    assert check_plan([A, B], PLAN, 7) is None
    packed = [b"".join(PACKED_NUMBER.pack(number or 0, state) for number, state in one) for one in (A, B)]
    assert check_plan(packed, PLAN, 7, Spacing.video) is None
    assert check_plan([], [], 1) is None


@pytest.mark.parametrize("plan, wanted", [
    ([PLAN[1], PLAN[0]], Fault(Rule.disordered, 0)), ([Stretch(0, 0, 9, 1)], Fault(Rule.not_there, 0)),
    ([Stretch(0, -1, 9, 1)], Fault(Rule.not_there, 0)), ([Stretch(0, 0, 1 << 70, 1)], Fault(Rule.not_there, 0)),
    ([*PLAN, Stretch(0, 3, 1, 7)], Fault(Rule.twice, 2)), ([PLAN[0], Stretch(1, 2, 6, 3)], Fault(Rule.misplaced, 1)),
    ([PLAN[0], Stretch(None, 0, 4, 3), Stretch(1, 4, 4, 5)], Fault(Rule.hidden, 1))])
def test_faults(plan, wanted):
    assert check_plan([A, B], plan, 7) == wanted


def test_layouts():
    """The spacing by its name too; a clock; the field in which the first number begins."""
    assert check_plan([[one for one in A if one.number]], [Stretch(0, 0, 4, 1)], 5, "rising") is None
    assert check_plan([A], [Stretch(None, 0, 1, 1), Stretch(0, 0, 8, 1)], 5, begin=1) is None
    times = capture(1799, 1799) + capture(1802, 1802)
    assert check_plan([times], [Stretch(0, 0, 4, 1799)], 1803, clock=DROP_FRAME) is None
    assert check_plan([times], [Stretch(0, 0, 4, 1799)], 1803) == Fault(Rule.misplaced, 0)


def test_what_a_clock_leaves_out():
    """The first two numbers of each minute but each tenth; one in a period; none."""
    for clock, is_out in ((DROP_FRAME, lambda number: number % 1800 < 2 and number // 1800 % 10),
                          (Clock(ClockKind.one_in, 1001, 300), lambda number: number % 1001 == 300),
                          (Clock(ClockKind.one_in, 2, 0), lambda number: number % 2 == 0),
                          (Clock(ClockKind.plain), lambda number: False), (Clock(3, 7, 1), lambda number: False)):
        out = [number for number in range(40000) if is_out(number)]
        for first, last in itertools.product((0, 1, 299, 301, 1800, 1801, 1802, 18001, 19800), (0, 300, 1801, 39999)):
            assert clock.left_out_in(first, last) == {number for number in out if first <= number <= last}
        for number in (0, 1, 2, 300, 301, 1302, 1800, 1801, 1802, 3601, 18000, 18001, 18003, 19801, 36002, 40000):
            assert clock.left_out_below(number) == sum(one < number for one in out)


@pytest.mark.parametrize("asked, more, wanted", [
    (([A], PLAN, 7), {}, "there is no capture 1"), (([A], [Stretch(-1, 0, 1, 1)], 7), {}, "there is no capture -1"),
    (([b"1234567"], [], 7), {}, "packed numbers have 8 bytes to a field, and these are 7"),
    (([A], [], 7, "fast"), {}, "spacing is none of video, film, both, rising"),
    (([A], [], 7, 5), {}, "spacing is none of video, film, both, rising"),
    (([A], [], 7), {"clock": Clock(ClockKind.one_in, 5, 5)},
     "clock has no such kind, or its phase is not below its period"),
    (([A], [], "7"), {}, "end is not a whole number")])
def test_refusals(asked, more, wanted):
    assert reason(check_plan, *asked, **more) == wanted
