"""The rows of the table: damages by their names. Each has a seed of its own, by its name and the system's, and the
first half of its words are codes of discs, the others any words. Lines 17 and 18 of a field have one code generator,
and all else by themselves."""

import typing
import zlib

import numpy

from channel import Channel, through
from dropouts import dropouts_at_random, listed_columns
from waves import codes_or_pictures, generator_at_random, with_blanking, word_lines
from words import half_codes

START_ERROR = .02  # microseconds, a deviation: where two lines of one generator begin
LITTLE_NOISE = 20  # dB, of carrier to noise


class Damage(typing.NamedTuple):
    name: str
    channel: Channel
    is_same_place: bool = False  # whether both lines of a field have their dropouts at the same place


def damage(name, is_same_place=False, **settings):
    return Damage(name, Channel(**settings), is_same_place)


def noisy(name, **settings):
    return damage(name + ", CNR 15", carrier_to_noise=15, **settings)


def of_noise():
    return [damage("CNR %g dB" % ratio, carrier_to_noise=ratio) for ratio in (20, 15, 12, 10, 9, 8, 7, 6, 5, 4, 3)]


def of_dropouts():
    lost = [(1, .3, 1), (1, 1, 2), (1, 2, 4), (1, 4, 8), (1, 8, 20), (2, 1, 2), (3, .5, 2), (3, 2, 4), (5, .3, 1),
            (10, .3, 1)]
    rows = [damage("%d dropout%s of %g to %g us" % (wanted[0], "s" if wanted[0] > 1 else "", *wanted[1:]),
                   carrier_to_noise=LITTLE_NOISE, dropouts=wanted) for wanted in lost]
    return rows + [damage("1 of %g to %g us, same place in both lines" % wanted, True, carrier_to_noise=LITTLE_NOISE,
                          dropouts=(1, *wanted)) for wanted in ((2, 4), (4, 8))]


def of_levels():
    gains = [noisy("gain %d %%" % gain, gain=gain / 100)
             for gain in (40, 45, 50, 55, 60, 70, 80, 90, 110, 120, 130)]
    faint = [damage("gain %d %%, CNR 9" % gain, carrier_to_noise=9, gain=gain / 100) for gain in (60, 80, 120)]
    levels = [noisy("level %+d IRE" % level, level=level) for level in (-60, -40, -20, 20, 40, 60)]
    tilts = [noisy("tilt %d IRE" % tilt, tilt=tilt) for tilt in (20, 40, 60, 80)]
    return gains + faint + levels + tilts + [noisy("hum %d IRE" % hum, hum=hum) for hum in (20, 40, 60, 80)]


def of_neighbours():
    return [damage("neighbour's track -%d dB, CNR 20" % below, carrier_to_noise=LITTLE_NOISE, neighbour=below,
                   beside=codes_or_pictures) for below in (25, 20, 15, 12, 10, 8, 6, 4)]


def of_responses():
    ghosts = [noisy("ghost -%d dB" % below, ghost=below) for below in (20, 12, 8, 6)]
    return ghosts + [noisy("ringing, %g more at 3.2 MHz" % ringing, ringing=ringing) for ringing in (.5, 1.5)]


def of_time_bases():
    speeds = [noisy("speed off by %g %%" % percent, time_base=(.1, percent / 100, .02)) for percent in (.3, .5, 1, 2)]
    return speeds + [noisy("wander of %d ns" % wander, time_base=(.05, .001, wander / 1000))
                     for wander in (50, 100, 200, 300)]


def worn(name, below, **settings):
    return damage("worn %s: CNR %d, %d dropout%s of %g to %g us, gain %d %%, tilt %d IRE, neighbour -%d dB" % (
        name, settings["carrier_to_noise"], settings["dropouts"][0], "s" if settings["dropouts"][0] > 1 else "",
        *settings["dropouts"][1:], round(100 * settings["gain"]), settings["tilt"], below),
        neighbour=below, beside=codes_or_pictures, **settings)


def of_wear():
    return [
        worn("A", 20, carrier_to_noise=12, dropouts=(2, .5, 2), gain=.85, tilt=10, time_base=(.1, .003, .05)),
        worn("B", 18, carrier_to_noise=9, dropouts=(1, 1, 3), gain=.8, tilt=15, time_base=(.15, .004, .07)),
        worn("C", 15, carrier_to_noise=7, dropouts=(3, .5, 3), gain=.75, tilt=20, time_base=(.2, .005, .1))]


DAMAGES = [*of_noise(), *of_dropouts(), *of_levels(), *of_neighbours(), *of_responses(), *of_time_bases(), *of_wear()]


class Fields(typing.NamedTuple):
    """Fields by the words of their lines 17 and 18 (0 is none), the samples of these, and the columns that are listed
    as dropouts. Of each the first index is the field, the second the line."""
    words: numpy.ndarray
    samples: numpy.ndarray
    listed: numpy.ndarray


def chance_of(system, name, seed):
    return numpy.random.default_rng([seed, zlib.crc32((system.name + name).encode())])


def lines_of(system, words, generator, row, lost, chance):
    """One line of each field."""
    starts = generator.starts + chance.normal(0, START_ERROR, len(words))
    lines = with_blanking(system, word_lines(words, generator._replace(starts=starts)))
    return through(system, row.channel, lines, chance, lost)


def fields_with(system, words, generator, row, chance, lost=None):
    """Fields of this row, of which `words` has the words of lines 17 and those of lines 18. Their dropouts may be
    known."""
    if row.is_same_place and lost is None:
        lost = dropouts_at_random(system, len(words[0]), row.channel.dropouts, chance)
    lines = [lines_of(system, of_line, generator, row, lost, chance) for of_line in words]
    samples, damaged = (numpy.stack(part, 1) for part in zip(*lines))
    listed = listed_columns(system, damaged.reshape(-1, system.width), chance).reshape(damaged.shape)
    return Fields(numpy.stack(words, 1), samples, listed)


def fields_of(system, row, count, seed):
    """Fields of a row, with one word on both lines."""
    chance = chance_of(system, row.name, seed)
    words = half_codes(count, chance)
    generator = generator_at_random(system, count, chance)
    return fields_with(system, (words, words), generator, row, chance)
