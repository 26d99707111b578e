"""Lines before they are recorded, in IRE on the grid: steps, words, the blanking around them, and what a neighbour's
track may have. A line is a row of an array. `chance` is a source of random numbers."""

import typing

import numpy
import scipy.fft

from systems import GRID_RATE, GRID_SAMPLES, GRID_START, TIMES
from words import any_words

CELLS = 24
BLANK_BEFORE, BLANK_AROUND = -1.5, 1.5  # nothing stands there of the line before, nor of the end of this one
SYNC_TIME = 4.7
BURST_LEVEL, BURST_PHASE = 20, .8
PICTURE_START = 9.4


class Generator(typing.NamedTuple):
    """A disc's code generator: of each word where it begins, how long its half cells are, and its level."""
    starts: numpy.ndarray
    half_cells: numpy.ndarray
    levels: numpy.ndarray


def generator_from(starts, chance):
    """Words that begin there, with half cells and levels within the tolerances of the standards: 0.5 %, 5 IRE."""
    half_cells = 1 + chance.uniform(-.005, .005, len(starts))
    return Generator(starts, half_cells, chance.uniform(95, 105, len(starts)))


def generator_at_random(system, count, chance):
    """Within the tolerances of the standards: the words begin up to 1 microsecond off."""
    return generator_from(system.word_start + chance.uniform(-1, 1, count), chance)


def stepped(times, values):
    """Lines that are 0 at first and have each of their values from its time on; of each the times rise. An edge between
    two samples is in the level of the second."""
    count = len(times)
    rises = numpy.zeros((count, GRID_SAMPLES + 1), numpy.float32)
    level = numpy.zeros(count, numpy.float32)
    rows = numpy.arange(count)
    for time, value in zip(times.T, values.T):
        place = numpy.clip((time - GRID_START) * GRID_RATE, 0, GRID_SAMPLES - 1.001)
        sample = place.astype(int)
        rest = (place - sample).astype(numpy.float32)
        rise = value.astype(numpy.float32) - level
        level = value.astype(numpy.float32)
        rises[rows, sample] += rise * (1 - rest)
        rises[rows, sample + 1] += rise * rest
    return numpy.cumsum(rises[:, :GRID_SAMPLES], axis=1, dtype=numpy.float32)


def levels_of(bits):
    """The levels of the half cells of bits: low and high for a one, high and low for a zero."""
    return numpy.stack([1 - bits, bits], 2).reshape(len(bits), 2 * bits.shape[1])


def biphase(bits, generator):
    """Lines with these bits."""
    edges = numpy.arange(2 * bits.shape[1] + 1)
    times = generator.starts[:, None] + edges * generator.half_cells[:, None]
    ends = numpy.zeros((len(bits), 1), int)
    return stepped(times, numpy.concatenate([levels_of(bits), ends], 1) * generator.levels[:, None])


def word_lines(words, generator):
    """Lines with these words; 0 is a line without one."""
    bits = (words[:, None] >> numpy.arange(CELLS - 1, -1, -1)) & 1
    levels = numpy.where(words == 0, 0, generator.levels)
    return biphase(bits, generator._replace(levels=levels))


def with_blanking(system, lines):
    """The lines with their sync and burst, those of the next ones, and nothing before and between them."""
    phase = 2 * numpy.pi * system.colour * TIMES + BURST_PHASE
    burst = numpy.float32(BURST_LEVEL) * numpy.sin(phase).astype(numpy.float32)
    for start in (0.0, system.line_time):
        lines[:, (TIMES >= start) & (TIMES < start + SYNC_TIME)] = system.sync_depth
        has_burst = (TIMES >= start + system.burst[0]) & (TIMES < start + system.burst[1])
        lines[:, has_burst] += burst[has_burst]
    lines[:, TIMES < BLANK_BEFORE] = 0
    lines[:, (TIMES >= system.line_time - BLANK_AROUND) & (TIMES < system.line_time)] = 0
    return lines


def pictures_at_random(system, count, chance):
    """Lines of a picture, coarse ones and fine ones: filtered noise."""
    frequencies = scipy.fft.rfftfreq(GRID_SAMPLES, 1 / GRID_RATE)
    limit = numpy.exp(chance.uniform(numpy.log(.05), numpy.log(3), (count, 1)))
    shape = (count, len(frequencies))
    noise = chance.standard_normal(shape) + 1j * chance.standard_normal(shape)
    noise = noise / (1 + (frequencies / limit) ** 2) ** .75
    noise[:, 0] = 0
    values = scipy.fft.irfft(noise, GRID_SAMPLES, axis=1)
    values /= values.std(1, keepdims=True)
    lines = numpy.clip(45 + 30 * values, 0, 90).astype(numpy.float32)
    lines[:, (TIMES <= PICTURE_START) | (TIMES >= system.line_time - BLANK_AROUND)] = 0
    return with_blanking(system, lines)


# ---- What the neighbour's track has beside a line

def codes_anywhere(_system, count, chance):
    """Words that may begin anywhere in the line: on a CLV disc lines aren't beside one another."""
    words = any_words(count, chance)
    return word_lines(words, generator_from(chance.uniform(-40, 60, count), chance))


def codes_or_pictures(system, count, chance):
    """Words anywhere in one half of the lines, pictures in the other."""
    lines, others = codes_anywhere(system, count, chance), pictures_at_random(system, count, chance)
    is_other = chance.random(count) < .5
    lines[is_other] = others[is_other]
    return lines
