"""Checks the plans of plans.txt by the library, in arrays that end where no page follows, and compares what it answers
with what stands there."""

import re

from border import Guarded, call, expect, finish, layout, named
from judged import BEFORE, NO_FIELD, clock_of, judged_field, spread, tables

CAPTURE, STRETCH, CHECKED, NUMBER = map(layout, ("Capture", "Stretch", "Checked", "Number"))
NUMBERS, CAPTURES, PLAN, CLOCK, FOUND = (Guarded(4096) for _ in range(5))
ONE = re.compile(r"(\d+) (?:x(\d+)|([a-z])(-?\d+)\+(\d+))")
MOST = 2 ** 32 - 1


def numbers_of(text):
    """The numbers of a capture, packed."""
    return b"".join(field[1] for field in spread(text, judged_field, NO_FIELD))


def stretch_of(text, spans, padding):
    """A stretch, packed: of padding with these three numbers, of which the first is as any that isn't 0."""
    number, blank, capture, field, fields = ONE.fullmatch(text).groups()
    if blank:
        is_padding, at, of = padding
        return STRETCH.pack(at, int(blank), of, int(number), is_padding)
    place = ord(capture) - ord("a")
    first = spans[place][0] if place < len(spans) else 0
    return STRETCH.pack(first + int(field), int(fields), place, int(number), 0)


def answer(asked, numbers, spans, plan, before):
    """The status, and what is written over these bytes. Nothing else changes; for an empty array null stands."""
    clock, parts = asked[-1], [numbers, b"".join(CAPTURE.pack(*one) for one in spans), b"".join(plan)]
    arrays = [(memory.put(part) if part else None, len(part) // one.size)
              for memory, part, one in zip((NUMBERS, CAPTURES, PLAN), parts, (NUMBER, CAPTURE, STRETCH))]
    found = FOUND.put(before * CHECKED.size)
    status = call("check_plan")(*asked[:-1], CLOCK.put(clock), *(word for one in arrays for word in one), found)
    expect([NUMBERS.get(len(parts[0])), CAPTURES.get(len(parts[1])), PLAN.get(len(parts[2])), CLOCK.get(len(clock))]
           == [*parts, clock], asked, "has changed")
    return status, FOUND.get(CHECKED.size)


def test_plan(setting, captures, plan, wanted):
    """With padding of any numbers."""
    spacing, clock, begin = setting.split(":")
    texts, end = re.fullmatch(r"(.*?) ?to (\d+)", plan).groups()
    asked = named("spacing_" + spacing)[0], int(begin), int(end), clock_of(clock)
    numbers, spans, first = [numbers_of(text) for text in captures.split(" ; ")], [], 0
    for one in numbers:
        spans.append((first, len(one) // NUMBER.size))
        first += spans[-1][1]
    texts = [text.strip() for text in texts.split(",") if text]
    rule, _, stretch = wanted.partition(" ")
    for before, padding in zip(BEFORE, [(1, 0, 0), (2, 3, 1), (0x80000000, 2 ** 64 - 1, 2 ** 64 - 1), (MOST, 0, 9)]):
        stretches = [stretch_of(text, spans, padding) for text in texts]
        status, found = answer(asked, b"".join(numbers), spans, stretches, before)
        found = CHECKED.unpack(found)
        is_right = (status, found) == (0, (int(stretch or len(texts)), *named(rule)))
        expect(is_right, setting, captures, plan, status, found)


def test_captures():
    """A capture that isn't all among the numbers, and two that share fields: each field is taken once."""
    numbers, plan = numbers_of("1..4 ."), [STRETCH.pack(0, 8, 0, 1, 0)]
    asked = *named("spacing_video"), 0, 5, clock_of("plain")
    for spans, wanted in (([(0, 9)], "not_there"), ([(1, 7)], "not_there"), ([(0, 2 ** 64 - 1)], "not_there"),
                          ([(0, 8), (8, 1)], "planned")):
        _, found = answer(asked, numbers, spans, plan, b"\0")
        expect(CHECKED.unpack(found)[1:] == tuple(named(wanted)), spans, CHECKED.unpack(found))
    both = [STRETCH.pack(0, 4, 0, 1, 0), STRETCH.pack(2, 2, 1, 3, 0)]
    _, found = answer(asked, numbers, [(0, 4), (2, 2)], both, b"\0")
    expect(CHECKED.unpack(found) == (1, *named("twice")), CHECKED.unpack(found))


def test_refusals():
    """The spacing is looked at first, then the clock. Nothing is written."""
    plain, odd = clock_of("plain"), (3).to_bytes(4, "little") + bytes(8)
    for spacing, clock, wanted in ((0, odd, "bad_pace"), (5, plain, "bad_pace"), (257, plain, "bad_pace"),
                                   (MOST, plain, "bad_pace"), (1, odd, "bad_clock"),
                                   (4, clock_of("one_in/5/5"), "bad_clock"), (4, clock_of("one_in/5/4"), "done")):
        for before in BEFORE[:2]:
            status, found = answer((spacing, 0, 1, clock), b"", [], [], before)
            expect([status] == named(wanted), spacing, clock, status)
            is_right = CHECKED.unpack(found) == (0, 0) if status == 0 else found == before * CHECKED.size
            expect(is_right, spacing, clock, found)


def main():
    rows = [(setting, row) for kind, settings, rows in tables("plans.txt") for setting in settings for row in rows]
    expect(len(rows) == 57, "there are more rows, or fewer:", len(rows))
    for setting, row in rows:
        test_plan(setting, *row)
    test_captures()
    test_refusals()
    finish()


if __name__ == "__main__":
    main()
