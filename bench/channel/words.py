"""The words of the simulated lines: codes as discs have them on lines 17 and 18, words at random, and fields whose two
lines have different codes."""

import numpy

PICTURES, MINUTES, CHAPTERS = 54000, 60, 80
LEAD_IN, LEAD_OUT, STOP, CLV_MARK = 0x88FFFF, 0x80EEEE, 0x82CFFF, 0x87FFFF


def picture_code(number):
    return 0xF00000 | int("%05d" % number, 16)


def time_code(minute, hour):
    return 0xF0DD00 | hour << 16 | int("%02d" % minute, 16)


def chapter_code(chapter):
    return 0x800DDD | chapter // 10 << 16 | chapter % 10 << 12


def code_at_random(chance):
    """A code: a picture number (55 of 100), time (20), chapter (15), mark of CLV (6), stop (2), lead-in or lead-out."""
    kind = chance.random()
    if kind < .55:
        return picture_code(chance.integers(0, PICTURES))
    if kind < .75:
        return time_code(chance.integers(0, MINUTES), int(chance.integers(0, 2)))
    if kind < .90:
        return chapter_code(int(chance.integers(0, CHAPTERS)))
    if kind < .96:
        return CLV_MARK
    return STOP if kind < .98 else int(chance.choice([LEAD_IN, LEAD_OUT]))


def is_code(words):
    """Whether words are such codes."""
    digits = [words >> shift & 15 for shift in (20, 16, 12, 8, 4, 0)]
    are_decimal = [digit < 10 for digit in digits]
    number = (digits[0] == 15) & (digits[1] < 8) & numpy.all(are_decimal[2:], 0)
    time = (words & 0xF0FF00 == 0xF0DD00) & are_decimal[1] & (digits[4] < 6) & are_decimal[5]
    chapter = (words & 0xF00FFF == 0x800DDD) & (digits[1] < 8) & are_decimal[2]
    return number | time | chapter | numpy.isin(words, [LEAD_IN, LEAD_OUT, STOP, CLV_MARK])


def any_words(count, chance):
    return chance.integers(0x800000, 0x1000000, count)


def half_codes(count, chance):
    """Words of which the first half are codes, and the others any words."""
    codes = [code_at_random(chance) for _ in range(count // 2)]
    return numpy.concatenate([numpy.array(codes, numpy.int64), any_words(count - count // 2, chance)])


# ---- Fields whose lines 17 and 18 have different codes. 0 is a line without a word.

def pictures(count, chance):
    return numpy.array([picture_code(number) for number in chance.integers(0, PICTURES, count)])


def chapters(count, chance):
    return numpy.array([chapter_code(int(chapter)) for chapter in chance.integers(0, CHAPTERS, count)])


def times(count, chance):
    return numpy.array([time_code(minute, int(chance.integers(0, 2)))
                        for minute in chance.integers(0, MINUTES, count)])


def next_pictures(count, chance):
    """Two picture numbers, of which the second is one more."""
    numbers = chance.integers(0, PICTURES - 1, count)
    return tuple(numpy.array([picture_code(number + more) for number in numbers]) for more in (0, 1))


# Of a pair its name, and what makes the words of the two lines
PAIRS = [
    ("number, chapter", lambda count, chance: (pictures(count, chance), chapters(count, chance))),
    ("time, CLV mark", lambda count, chance: (times(count, chance), numpy.full(count, CLV_MARK))),
    ("stop, number", lambda count, chance: (numpy.full(count, STOP), pictures(count, chance))),
    ("number, next number", next_pictures),
    ("number, none", lambda count, chance: (pictures(count, chance), numpy.zeros(count, numpy.int64))),
]
