"""How sides were played by a player at hand: in loops, turned picture by picture, searched in the dark, changed for
another side; and discs with minutes alone, of which fields were lost. They are told apart from the kinds beside them
(simulated_kinds.py), since more of what is played isn't the disc's."""

from simulated_discs import LEAD_IN, LEAD_OUT, disc

DARK = (None, [0, 0, 0], True), (None, [0, 0, 0], False)  # fields that show nothing, of either parity
MINUTE = 3600  # fields of an NTSC minute, as a simulated disc has them


def loops(rng, layout, count):
    """Three to 24 fields are played three to 30 times, once or twice on a side."""
    rows = disc(rng, layout, count or rng.randrange(200, 900))
    order = list(range(len(rows)))
    for _ in range(rng.choice((1, 1, 2))):
        length, rounds = rng.randrange(3, 25), rng.randrange(2, 30)
        at = rng.randrange(100, len(order) - 100)
        order[at:at] = rounds * order[at - length:at]
    return rows, order


def turned(rng, layout, count):
    """The disc is turned by hand, back and forth over some pictures: each is shown once to three times."""
    rows = disc(rng, layout, count or rng.randrange(200, 900))
    order = list(range(len(rows)))
    at = 2 * rng.randrange(50, len(rows) // 2 - 60)
    shown, place = [], at
    for _ in range(rng.randrange(20, 150)):
        place = min(max(place + 2 * rng.choice((-2, -1, 0, 0, 1, 1, 1, 1, 2, 3)), 40), len(rows) - 42)
        shown += rng.choice((1, 1, 1, 2, 3)) * [place, place + 1]
    return rows, order[:at] + shown + order[place + 2:]


def searched(rng, layout, count):
    """The player searches up to 400 pictures ahead one to four times, and is dark meanwhile."""
    rows = disc(rng, layout, count or rng.randrange(400, 1500))
    end, order = len(rows), list(range(len(rows)))
    for _ in range(rng.randrange(1, 5)):
        at = 2 * rng.randrange(20, len(order) // 2 - 20)
        over = min(2 * rng.choice((rng.randrange(1, 10), rng.randrange(10, 400))), len(order) - at - 20)
        order[at:at + over] = [end + dark % 2 for dark in range(rng.randrange(2, 300))]
    return rows + list(DARK), order


def sides(rng, layout, count):
    """Two whole sides one after the other, each from lead-in to lead-out."""
    ones = []
    for _ in range(2):
        begin, end = ([(None, [0, code, code], parity) for _ in range(rng.randrange(3, 20)) for parity in (True, False)]
                      for code in (LEAD_IN, LEAD_OUT))
        ones.append(begin + disc(rng, layout, count or rng.randrange(200, 900)) + end)
    return ones[0] + ones[1], list(range(len(ones[0]) + len(ones[1]))), len(ones[0])


def minutes(rng, layout, count):
    """Five to seven minutes alone: some sides are sound, of others 50 to 2,900 fields are lost at one place, or shown
    twice."""
    rows = disc(rng, layout, count or rng.randrange(5 * MINUTE, 7 * MINUTE) // 2)
    order, kind = list(range(len(rows))), rng.randrange(4)
    at = rng.randrange(MINUTE // 2, len(rows) - 2 * MINUTE)
    fields = rng.randrange(50, 2900)
    if kind in (1, 2):
        del order[at:at + fields]
    elif kind == 3:
        order[at:at] = order[at - min(fields, at):at]
    return rows, order
