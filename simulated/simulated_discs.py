"""Discs for simulated sides: the words of their fields, as the player reads them from lead-in to lead-out."""

STOP, CLV_MARK, LEAD_IN, LEAD_OUT = 0x82CFFF, 0x87FFFF, 0x88FFFF, 0x80EEEE
CX_ON, CX_OFF = 0x8DC0A1, 0x8BA0A1


def picture(number):
    return 0xF00000 | (number // 10000) << 16 | int("%04d" % (number % 10000), 16)


def chapter(number):
    return 0x800DDD | (number // 10) << 16 | (number % 10) << 12


def minutes(minute):
    return 0xF0DD00 | (minute // 60) << 16 | int("%02d" % (minute % 60), 16)


def clv_picture(second, number):
    return 0x80E000 | (10 + second // 10) << 16 | (second % 10) << 8 | int("%02d" % number, 16)


def disc(rng, kind, count, clock=None):
    """The fields of a disc from lead-in to lead-out: (number or None, words, whether it is a first field). How the
    clock of an NTSC CLV disc leaves out numbers can be asked for: `none`, `even` or `minutes`."""
    rows = [(None, [0, LEAD_IN, LEAD_IN])] * (2 * rng.randrange(0, 20))
    step = rng.choice((20, 77, 300))  # pictures of a chapter
    stops, users = rng.random() < 0.5, rng.random() < 0.5
    if kind.startswith("cav"):
        rows += _cav(rng, kind, count, step, stops, users)
    else:
        rows += _clv(rng, kind, count, step, clock)
    rows += [(None, [0, LEAD_OUT, LEAD_OUT])] * (2 * rng.randrange(0, 20))
    return [(number, words, place % 2 == 0) for place, (number, words) in enumerate(rows)]


def _cav(rng, kind, count, step, stops, users):
    start = rng.choice((1, 1, 1, rng.randrange(2, 50000)))
    cadence = rng.randrange(2)
    rows = []
    for number in range(start, start + count):
        word, chapter_word = picture(number), chapter(number // step % 80)
        fields = 2 if kind != "cav-film" else (2, 3)[(number + cadence) % 2]
        of_picture = [[0, word, word]] + [[0, chapter_word, chapter_word] for _ in range(fields - 1)]
        if kind == "cav-both":
            of_picture[1] = [0, word, word]
        if stops and rng.random() < 0.02:
            where = rng.randrange(2)
            of_picture[where][0] = of_picture[where][1] = STOP
        elif users:
            of_picture[-1][0] = 0x80D000 | 0x30000 | number % 4096
        rows += [(number if word in words else None, words) for words in of_picture]
    return rows


def _clv(rng, kind, count, step, clock):
    rate = 25 if kind.endswith("pal") else 30
    layout = rng.randrange(3)
    start = rng.choice((0, 0, rng.randrange(0, 60000)))
    clock = clock or (rng.choice(("none", "even", "minutes")) if kind == "clv-ntsc" else "none")
    phase = rng.randrange(1000)
    rows, number = [], start
    for _ in range(count):
        seconds, part = divmod(number, rate)
        minute, second = divmod(seconds, 60)
        chapter_word, time = chapter(number // step % 80), minutes(minute)
        own = clv_picture(second, part) if kind != "clv-minutes" else 0
        rows.append((number if own else minute, [own, time if layout == 0 else CLV_MARK, time]))
        rows.append((None, [CX_ON if layout < 2 else CX_OFF, CLV_MARK if layout < 2 else chapter_word, chapter_word]))
        number += 1
        if clock == "even" and number % 1000 == phase:
            number += 1
        if clock == "minutes" and number % 1800 == 0 and number % 18000:
            number += 2
    return rows


def clocked(rng, clock, count, on_both):
    """The fields of an NTSC CLV disc of so many pictures, from number 0 or 1 on, as `disc` has them. It has its numbers
    on both fields of a picture, or on the first. Its clock leaves out numbers as `drop-frame` does, or one in so many,
    or none."""
    rows = [(None, [0, LEAD_IN, LEAD_IN])] * (2 * rng.randrange(1, 20))
    layout, number = rng.randrange(3), rng.randrange(2)
    phase = rng.randrange(2, clock) if isinstance(clock, int) else None
    for _ in range(count):
        while number % 1800 < 2 and number % 18000 > 1 if clock == "drop-frame" else clock and number % clock == phase:
            number += 1
        own, time, of_group = clv_picture(number // 30 % 60, number % 30), minutes(number // 1800), chapter(
            number // 300 % 80)
        rows.append((number, [own, time if layout == 0 else CLV_MARK, time]))
        rows.append((number, [own, CLV_MARK, time]) if on_both else (
            None, [CX_ON, CLV_MARK if layout < 2 else of_group, of_group]))
        number += 1
    rows += [(None, [0, LEAD_OUT, LEAD_OUT])] * 40
    return [(number, words, place % 2 == 0) for place, (number, words) in enumerate(rows)]
