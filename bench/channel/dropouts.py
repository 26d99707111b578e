"""Dropouts of the carrier, the columns that they damage, and the list of them that a decoder would write."""

import typing

import numpy

from systems import GRID_SAMPLES, TIMES

RAMP = .06  # microseconds that the carrier takes to fall, and to rise
LEAST, MOST = 0, .1  # what a dropout leaves of the carrier
# A dropout is listed from so many microseconds before the carrier is at half of its height, and as much after
MARGIN = .2
# Of the list a fifth is missing, and ends are off by so many microseconds at most
MISSING, END_ERROR = .2, .3
WORD_TIMES = (-1, 49)  # dropouts have their middle from the one to the other, from the place of the word on


class Dropouts(typing.NamedTuple):
    """Of each line where dropouts begin, how long they are, and what they leave of the carrier."""
    starts: numpy.ndarray
    lengths: numpy.ndarray
    depths: numpy.ndarray

    def of(self, lines):
        return Dropouts(*(numbers[lines] for numbers in self))


def dropouts_at_random(system, count, wanted, chance):
    """So many in each line, from a least to a most time long, somewhere in the word."""
    number, least, most = wanted
    shape = (count, number)
    lengths = numpy.exp(chance.uniform(numpy.log(least), numpy.log(most), shape))
    first, last = WORD_TIMES
    middles = chance.uniform(system.word_start + first, system.word_start + last, shape)
    return Dropouts(middles - lengths / 2, lengths, chance.uniform(LEAST, MOST, shape))


def envelope(dropouts):
    """What is left of the carrier on the grid."""
    heights = numpy.ones((len(dropouts.starts), GRID_SAMPLES), numpy.float32)
    for start, length, depth in zip(*(numbers.T[:, :, None] for numbers in dropouts)):
        nearer = numpy.minimum((TIMES - start) / RAMP, (start + length - TIMES) / RAMP)
        heights *= (1 - numpy.clip(nearer, 0, 1) * (1 - depth)).astype(numpy.float32)
    return heights


def damaged_columns(system, heights, samples):
    """The columns of the lines that a dropout damages. Of each column `samples` has the sample of the grid."""
    is_low = numpy.take_along_axis(heights, numpy.clip(samples, 0, GRID_SAMPLES - 1), 1) < .5
    damaged = is_low.copy()
    for by in range(1, int(MARGIN * system.sample_rate) + 2):
        damaged[:, by:] |= is_low[:, :-by]
        damaged[:, :-by] |= is_low[:, by:]
    return damaged


def runs_of(columns):
    """Where runs of a line begin, and the columns after them."""
    edges = numpy.flatnonzero(numpy.diff(numpy.pad(columns.astype(numpy.int8), 1)))
    return zip(edges[0::2], edges[1::2])


def listed_columns(system, damaged, chance):
    """The columns of a list that a decoder would write, which misses some dropouts, and is off at the ends of
    others."""
    listed = numpy.zeros_like(damaged)
    for line, columns in zip(listed, damaged):
        for first, end in runs_of(columns):
            if chance.random() < MISSING:
                continue
            by = (chance.uniform(-END_ERROR, END_ERROR, 2) * system.sample_rate).astype(int)
            line[max(first + by[0], 0):max(end + by[1], 0)] = True
    return listed
