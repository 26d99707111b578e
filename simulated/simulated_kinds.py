"""How sides of other kinds were played: with skips, at other speeds, from the start again, joined, with fields swapped
or lost, or from a worn disc."""

from typing import NamedTuple, Optional

import simulated_players as players
from simulated_captures import played
from simulated_discs import disc

VIDEO = ("cav-pal", "cav-ntsc", "cav-both", "clv-pal", "clv-ntsc")  # layouts with two fields to each number
CLV = ("clv-pal", "clv-ntsc")
CAV = ("cav-pal", "cav-ntsc", "cav-film", "cav-both")
ALL = ("cav-pal", "cav-ntsc", "cav-film", "cav-both", "clv-pal", "clv-ntsc", "clv-minutes")
SPEEDS = ("3", "-1", "2", "1/3", "-2", "-3")  # numbers a picture
PAIRS = (("cav-pal", "cav-pal"), ("clv-ntsc", "clv-ntsc"), ("cav-ntsc", "clv-ntsc"), ("clv-pal", "clv-pal"),
         ("cav-ntsc", "cav-ntsc"), ("clv-pal", "cav-pal"))


class Playing(NamedTuple):
    """How a disc was played: the fields of the disc (or of two joined ones), and of the capture the place of each of
    its fields. `lost` says of each line in how many fields it shows no word, where the kind has that; `swapped` is how
    many pairs of fields are swapped. `at_speed` are the first and the last field of the capture, from 0, and the
    numbers a picture of each stretch at another speed. `second` is the place of the second disc's first field, `other`
    are the places of the disc that has the other format, `dark` those of fields that show nothing and are none of the
    disc's."""
    rows: list
    order: list
    lost: Optional[dict] = None
    swapped: int = 0
    at_speed: tuple = ()
    second: Optional[int] = None
    other: range = range(0)
    dark: range = range(0)


def skips(rng, layout, count):
    """The player skips 1 to 5 times over 100 to 3,000 pictures of a CLV disc, of whose minutes 2 to 10 % are read on
    each line."""
    overs = [rng.randrange(100, 3001) for _ in range(rng.randrange(1, 6))]
    pieces = [rng.randrange(100, 1000) for _ in range(len(overs) + 1)]
    rows = disc(rng, layout, sum(pieces) + sum(overs))
    order, at = [], 0
    for piece, over in zip(pieces, overs + [0]):
        order += range(at, at + 2 * piece)
        at += 2 * (piece + over)
    order += range(order[-1] + 1, len(rows))
    without_minute = 1 - rng.uniform(0.02, 0.1)
    return Playing(rows, order, {16: rng.choice((0, 0.02, 0.1)), 17: without_minute, 18: without_minute})


def worn(rng, layout, count):
    """A disc on which 30 to 80 % of the lines show no word, played as any other."""
    rows = disc(rng, layout, count or rng.randrange(200, 1500))
    return Playing(rows, played(rng, rows, layout, 0), dict.fromkeys((16, 17, 18), rng.uniform(0.3, 0.8)))


def swapped(rng, layout, count):
    """A capture has written 1 to 5 pairs of fields in each other's place."""
    rows = disc(rng, layout, count or rng.randrange(200, 1000))
    return Playing(rows, list(range(len(rows))), swapped=rng.randrange(1, 6))


def speeds(rng, layout, count):
    """30 to 300 pictures are played at another speed, or backwards, between normal play."""
    rows = disc(rng, layout, count or rng.randrange(1000, 1600))
    speed, pictures = rng.choice(SPEEDS), rng.randrange(30, 301)
    if speed == "1/3":
        steps = [0, 0, 1] * (pictures // 3)
    else:
        steps = [int(speed)] * (pictures - 1)
    begin = max(-sum(steps), 0) + rng.randrange(30, 90)  # of the disc's pictures, as those that follow
    shown = [begin]
    for step in steps:
        shown.append(shown[-1] + step)
    order = list(range(2 * begin)) + [field for one in shown for field in (2 * one, 2 * one + 1)]
    stretch = 2 * begin, len(order) - 1, speed
    return Playing(rows, order + list(range(order[-1] + 1, len(rows))), at_speed=(stretch,))


def joined(rng, layouts, count):
    """Two discs one after the other. Where one is CAV and the other one CLV, one has many more codes of its format."""
    first, second = layouts
    counts = [count or rng.randrange(200, 900) for _ in layouts]
    if first[:3] != second[:3]:
        more = rng.randrange(2)
        counts[more] = 4 * counts[1 - more]
    ones = [disc(rng, layout, many) for layout, many in zip(layouts, counts)]
    rows, begin, other = ones[0] + ones[1], len(ones[0]), range(0)
    if first[:3] != second[:3]:
        other = range(begin, len(rows)) if more == 0 else range(begin)
        for place in other:  # no number of it is to be answered
            rows[place] = (None,) + rows[place][1:]
    return Playing(rows, list(range(len(rows))), second=begin, other=other)


def losses(rng, layout, count):
    """A third of the fields of an NTSC CLV disc is lost in 1 to 40 pieces; its clock leaves numbers out."""
    rows = disc(rng, layout, count or rng.randrange(2000, 8000), rng.choice(("even", "minutes")))
    gone, pieces = len(rows) // 3, rng.randrange(1, 41)
    order, at = [], 0
    for kept, over in zip(_parts(rng, len(rows) - gone, pieces + 1), _parts(rng, gone, pieces) + [0]):
        order += range(at, at + kept)
        at += kept + over
    return Playing(rows, order)


def restarts(rng, layout, count):
    """The player goes back to the start of the programme, or the capture begins again: once or twice in one file."""
    rows = disc(rng, layout, count or rng.randrange(200, 900))
    begin = next(place for place, (number, _, _) in enumerate(rows) if number is not None)
    order = []
    for _ in range(rng.choice((1, 1, 2))):
        order += range(rng.choice((0, begin)), begin + 2 * rng.randrange(20, (len(rows) - begin) // 2))
    return Playing(rows, order + list(range(rng.choice((0, begin)), len(rows))))


def _by_hand(play):
    """A kind of simulated_players.py as one of these."""
    def playing_by_hand(rng, layout, count):
        rows, order, *second = play(rng, layout, count)
        dark = range(len(rows) - len(players.DARK), len(rows)) if play is players.searched else range(0)
        return Playing(rows, order, second=second[0] if second else None, dark=dark)
    return playing_by_hand


def _parts(rng, total, count):
    """A total in so many parts by chance."""
    cuts = sorted(rng.sample(range(1, total), count - 1))
    return [after - before for before, after in zip([0] + cuts, cuts + [total])]


# The kinds, each with its layouts in turn
PLAYED = {"skips": (skips, CLV), "worn": (worn, ALL), "swapped": (swapped, ALL), "speeds": (speeds, VIDEO),
          "joined": (joined, PAIRS), "losses": (losses, ("clv-ntsc",)), "restarts": (restarts, ALL),
          "loops": (_by_hand(players.loops), VIDEO), "turned": (_by_hand(players.turned), CAV),
          "searched": (_by_hand(players.searched), CAV + CLV), "sides": (_by_hand(players.sides), CAV + CLV),
          "minutes": (_by_hand(players.minutes), ("clv-minutes",))}


def playing(rng, kind, seed, count):
    """The layout of the side of this kind and seed, and how it was played."""
    play, layouts = PLAYED[kind]
    layout = layouts[seed % len(layouts)]
    return layout if isinstance(layout, str) else layout[0], play(rng, layout, count)
