#!/usr/bin/env python3
"""Sides with their truth: what stood on the disc, what the capture lost or repeated, and which words were lost or
misread. The same seed makes the same side.

usage: simulate.py SEED [KIND [WRONG [PICTURES]]] > side.vbi.json

KIND is one of KINDS or of PLAYED, WRONG the share of misread words. What is printed is the document alone."""

import bisect
import json
import random
import sys
from typing import NamedTuple, Optional, Sequence

from simulated_captures import Damage, kept_of, played
from simulated_discs import disc
from simulated_kinds import ALL, PLAYED, playing

KINDS = ALL


class Simulated(NamedTuple):
    """A side. `document` is what `ldvbi extract` writes of it, `first` says of each field whether it is the first one
    of its frame. Of the truth: `numbers` has the number of each field, or None; `on_disc` are all numbers of the disc;
    `order` has the place on the disc of each field; `misread` are the field, the line and the true word of each word
    that was misread. `swaps` are the first fields of pairs that stand in each other's place, `speeds` the first and the
    last field and the numbers a picture of each stretch at another speed. Where two discs are joined, `second` is the
    first field of the second one, `between` are the numbers that lie between those of both, and `other` are the fields
    of a disc whose format is the other one. `dark` are fields that show nothing, and are none of the disc's. `detours`
    are the first and the last field of what was played elsewhere before the player came back. If it `has_parity`, the
    metadata has isFirstField."""
    kind: str
    layout: str
    settings: str
    document: dict
    first: list
    numbers: list
    on_disc: list
    order: list
    misread: list
    swaps: Sequence = ()
    speeds: Sequence = ()
    second: Optional[int] = None
    between: range = range(0)
    other: frozenset = frozenset()
    dark: frozenset = frozenset()
    detours: Sequence = ()
    has_parity: bool = False


def simulated(seed, kind=None, wrong=None, count=None):
    """The side of this seed. Its kind, the share of misread words and the count of pictures can be asked for. The kinds
    of PLAYED have to be asked for; `skips` has as many pictures as it needs."""
    if kind in PLAYED:
        return _played(seed, kind, wrong, count)
    rng = random.Random(seed)
    kind = kind or KINDS[seed % len(KINDS)]
    wrong = wrong if wrong is not None else rng.choice((0, 0.0001, 0.001, 0.005, 0.02))
    rows = disc(rng, kind, count or rng.randrange(200, 6000 if kind == "clv-ntsc" else 1500))
    return _captured(rng, kind, rows, wrong)


def captures(seed, count):
    """So many captures of one disc, which is that of this seed."""
    rng = random.Random("captures %d" % seed)
    kind = KINDS[seed % len(KINDS)]
    rows = disc(rng, kind, rng.randrange(150, 450))
    return [_captured(rng, kind, rows, rng.choice((0, 0.0001, 0.001, 0.005))) for _ in range(count)]


def played_through(seed, kind, count=None):
    """The side of this seed that a player plays once from the disc's first picture to its last, of which the capture
    loses nothing. Its count of pictures can be asked for."""
    rng = random.Random("played through %s %d" % (kind, seed))
    count = count or rng.randrange(200, 1500)
    rows = disc(rng, kind, count)
    while _numbers_in(rows)[0] > 1:
        rows = disc(rng, kind, count)
    lost = dict.fromkeys((16, 17, 18), rng.choice((0, 0.001, 0.02, 0.1)))
    damage = Damage(rng, rng.choice((0, 0.0001, 0.001, 0.005)), lost, rng.choice((0, 0.01, 0.1)))
    return side_read(kind, kind, damage, rows, list(range(len(rows))), _numbers_in(rows))


def _captured(rng, kind, rows, wrong):
    """A capture of these fields of a disc."""
    lost_rate = rng.choice((0, 0, 0.0005, 0.002, 0.01))
    order = played(rng, rows, kind, lost_rate)
    lost = dict.fromkeys((16, 17, 18), rng.choice((0, 0.001, 0.02, 0.1, 0.3)))
    return side_read(kind, kind, Damage(rng, wrong, lost, rng.choice((0, 0.01, 0.1))), rows, order, _numbers_in(rows))


def _played(seed, kind, wrong, count):
    """The side of a kind of PLAYED. The capture loses few fields besides."""
    rng = random.Random("%s %d" % (kind, seed))
    layout, play = playing(rng, kind, seed, count)
    rows = play.rows
    wrong = wrong if wrong is not None else rng.choice((0, 0.0001, 0.001, 0.005))
    lost = play.lost or dict.fromkeys((16, 17, 18), rng.choice((0, 0.001, 0.02, 0.1)))
    damage = Damage(rng, wrong, lost, rng.choice((0, 0.01, 0.1)))
    kept = kept_of(rng, range(len(play.order)), rng.choice((0, 0, 0.0005, 0.002)))
    order = [play.order[at] for at in kept]
    swaps = sorted(rng.sample(range(0, len(order) - 1, 5), play.swapped))
    for at in swaps:
        order[at:at + 2] = order[at + 1], order[at]
    between = range(0)
    if play.second is not None and not play.other:
        between = _between(_numbers_in(rows[:play.second]), _numbers_in(rows[play.second:]))
    second = play.second and bisect.bisect_left(order, play.second) + 1
    return side_read(kind, layout, damage, rows, order, _numbers_in(rows))._replace(
        swaps=[at + 1 for at in swaps], second=second, between=between,
        other=frozenset(field for field, place in enumerate(order, 1) if place in play.other),
        dark=frozenset(field for field, place in enumerate(order, 1) if place in play.dark),
        speeds=[(bisect.bisect_left(kept, begin) + 1, bisect.bisect(kept, end), speed)
                for begin, end, speed in play.at_speed])


def _numbers_in(rows):
    return sorted({number for number, _, _ in rows if number is not None})


def _between(one, other):
    """What lies between the numbers of two joined discs."""
    return range(min(one[-1], other[-1]) + 1, max(one[0], other[0]))


def side_read(kind, layout, damage, rows, order, on_disc):
    """The side of which this damage reads the fields in this order."""
    for field, place in enumerate(order, 1):
        damage.read(field, rows[place][1])
    system = "PAL" if layout.endswith("pal") else "NTSC"
    width, height = (1135, 313) if system == "PAL" else (910, 263)
    document = {"version": 2, "videoParameters": {"system": system, "fieldWidth": width, "fieldHeight": height,
                                                  "black16bIre": 16384, "white16bIre": 51200},
                "fields": damage.records, "cutField": None}
    settings = "%s, wrong %s, lost lines %s" % (layout, damage.wrong, damage.lost[17])
    return Simulated(kind, layout, settings, document, [rows[place][2] for place in order],
                     [rows[place][0] for place in order], on_disc, order, damage.misread)


def main():
    seed, kind, wrong, count = (sys.argv[1:] + [None] * 4)[:4]
    side = simulated(int(seed), kind, None if wrong is None else float(wrong), count and int(count))
    json.dump(side.document, sys.stdout)
    print()


if __name__ == "__main__":
    main()
