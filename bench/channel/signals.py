"""Lines that have no word of 24 cells, by kinds, in IRE on the grid: nothing, test signals, data of other codes,
pictures, and what looks most like a word. Each kind takes the system, how many lines, and a source of random
numbers."""

import typing

import numpy

from channel import Channel
from dropouts import LEAST, MOST, Dropouts
from systems import GRID_SAMPLES, TIMES
from waves import Generator, biphase, codes_anywhere, generator_from, pictures_at_random, stepped, word_lines
from words import any_words


def blank(_system, count, _chance):
    return numpy.zeros((count, GRID_SAMPLES), numpy.float32)


def sine(start, end, frequency, phase, low=0, high=100):
    """A sine from a time to another, and 0 before and after it."""
    middle, height = (low + high) / 2, (high - low) / 2
    values = middle + height * numpy.sin(2 * numpy.pi * frequency * (TIMES - start) + phase)
    return numpy.where((TIMES >= start) & (TIMES < end), values, 0).astype(numpy.float32)


def coloured(system, lines, height):
    """The lines with a colour where they aren't dark."""
    colour = height * numpy.sin(2 * numpy.pi * system.colour * TIMES)
    return lines + numpy.where(lines > 5, colour, 0).astype(numpy.float32)


def bits_without_return(starts, cell, bits, level):
    """Each bit as a level of its own; then nothing."""
    times = starts[:, None] + numpy.arange(bits.shape[1] + 1) * cell
    return stepped(times, numpy.concatenate([bits * level, numpy.zeros((len(bits), 1))], 1))


# ---- Test signals

def multiburst(system, count, chance):
    frequencies = (.5, 1, 2, 3, 3.58, 4.2) if system.name == "NTSC" else (.5, 1, 2, 4, 4.8, 5.8)
    height, start = chance.uniform(20, 60, (count, 1)), 10 + chance.uniform(-.5, .5, (count, 1))
    lines = sine(start, start + 4, 0, numpy.pi / 2)
    for place, frequency in enumerate(frequencies):
        begin = start + 5 + 7 * place
        lines = lines + sine(begin, begin + 6, frequency, 0, 50 - height / 2, 50 + height / 2)
    return lines


def pulse_and_bar(_system, count, chance):
    start = chance.uniform(11, 14, (count, 1))
    lines = numpy.where((TIMES > start) & (TIMES < start + 18), 100, 0).astype(numpy.float32)
    for after, half_width in ((24, .25), (32, 1.56)):
        from_middle = numpy.clip((TIMES - start - after) / (2 * half_width), -.5, .5)
        lines = lines + (100 * numpy.cos(numpy.pi * from_middle) ** 2).astype(numpy.float32)
    return lines


def stairs(system, count, chance):
    times = 11 + numpy.arange(7) * chance.uniform(5, 7.5, (count, 1))
    levels = numpy.arange(1, 7) * chance.uniform(12, 17, (count, 1))
    return coloured(system, stepped(times, numpy.pad(levels, ((0, 0), (0, 1)))), 20)


def colour_bars(system, count, chance):
    times = 10 + numpy.arange(9) * chance.uniform(5.5, 6.5, (count, 1))
    levels = numpy.tile(numpy.array([75, 66, 52, 44, 31, 22, 8, 0, 0]), (count, 1))
    return coloured(system, stepped(times, levels), 30)


def white(_system, count, _chance):
    return numpy.tile(numpy.where((TIMES > 10) & (TIMES < 61), 100, 0).astype(numpy.float32), (count, 1))


# ---- Data of other codes

def teletext(system, count, chance):
    rate, length = (6.9375, 360) if system.name == "PAL" else (5.7273, 288)
    bits = chance.integers(0, 2, (count, length))
    bits[:, :24] = [1, 0] * 8 + [1, 1, 1, 0, 0, 1, 0, 0]
    return bits_without_return(10.2 + chance.uniform(-.4, .4, count), 1 / rate, bits, 70)


def time_code(system, count, chance):
    """The vertical interval's time code: of each ten bits the first two are 1 and 0."""
    bits = chance.integers(0, 2, (count, 90))
    bits[:, ::10], bits[:, 1::10] = 1, 0
    cell = 1 / 1.8125 if system.name == "PAL" else system.line_time / 115
    return bits_without_return(10.5 + chance.uniform(-.5, 1.5, count), cell, bits, 78)


def caption(system, count, chance):
    """Closed captions: seven cycles of a clock, then 16 bits after 0, 0 and 1."""
    rate = .503496 if system.name == "NTSC" else .5
    start = 10.5 + chance.uniform(-.5, .5, (count, 1))
    clock = sine(start, start + 7 / rate, rate, -numpy.pi / 2, 0, 50)
    bits = chance.integers(0, 2, (count, 19))
    bits[:, :3] = [0, 0, 1]
    return clock + bits_without_return(start[:, 0] + 7 / rate, 1 / rate, bits, 50)


def bits_of_fm_code(_system, count, chance):
    """40 bits: the level changes where a cell begins, and in the middle of a one."""
    cell = chance.uniform(1, 1.3, (count, 1))
    bits = chance.integers(0, 2, (count, 40))
    changes = numpy.stack([numpy.ones_like(bits), bits], 2).reshape(count, 80)
    levels = numpy.pad(numpy.cumsum(changes, 1) % 2, ((0, 0), (0, 1)))
    times = chance.uniform(9.5, 11.5, (count, 1)) + numpy.arange(81) * cell / 2
    return stepped(times, levels * 100)


def other_cells(cells):
    """So many biphase cells."""
    def lines_of(_system, count, chance):
        bits = chance.integers(0, 2, (count, cells))
        return biphase(bits, Generator(chance.uniform(9.5, 11.5, count), numpy.ones(count), numpy.full(count, 100)))
    return lines_of


def half_cells_at_random(_system, count, chance):
    """48 bits of a microsecond each, which aren't biphase."""
    return bits_without_return(chance.uniform(9.5, 12, count), 1, chance.integers(0, 2, (count, 48)), 100)


# ---- Pictures, and what looks most like words

def line_art(_system, count, chance):
    """Black and white for .4 to 3.5 microseconds each."""
    times = 9.5 + numpy.cumsum(numpy.exp(chance.uniform(numpy.log(.4), numpy.log(3.5), (count, 60))), 1)
    levels = chance.integers(0, 2, (count, 60)) * chance.uniform(60, 100, (count, 1))
    return stepped(times, numpy.where(times > 61, 0, levels))


def hatching(_system, count, chance):
    """Bars that are one or two microseconds wide, all over the line."""
    widths = numpy.where(chance.random((count, 52)) < .4, 2, 1) * chance.uniform(.9, 1.1, (count, 1))
    times = 9.5 + chance.uniform(0, 4, (count, 1)) + numpy.cumsum(widths, 1)
    return stepped(times, numpy.where(times > 62, 0, 90 * (numpy.arange(52) % 2)))


def sines(_system, count, chance):
    """.45 to .55 MHz, all over the line."""
    start, end = 9.5 + chance.uniform(0, 1, (count, 1)), 61 + chance.uniform(0, 1, (count, 1))
    return sine(start, end, chance.uniform(.45, .55, (count, 1)), chance.uniform(0, 6.28, (count, 1)))


def bursts(_system, count, chance):
    """.48 to .52 MHz for 40 to 50 microseconds, between nothing and nothing."""
    start = chance.uniform(9.5, 12.5, (count, 1))
    end = start + chance.uniform(40, 50, (count, 1))
    return sine(start, end, chance.uniform(.48, .52, (count, 1)), chance.uniform(0, 6.28, (count, 1)))


def codes_in_their_place(system, count, chance):
    """The neighbour's code where this line's would be, as on a CAV disc."""
    starts = system.word_start + chance.uniform(-1, 1, count)
    return word_lines(any_words(count, chance), generator_from(starts, chance))


def dropout_all_over(count, chance):
    """A dropout of nearly all of the line."""
    start = 9 + chance.uniform(-2, 6, (count, 1))
    return Dropouts(start, chance.uniform(40, 56, (count, 1)), chance.uniform(LEAST, MOST, (count, 1)))


class Kind(typing.NamedTuple):
    name: str
    lines_of: typing.Any
    settings: dict = {}  # of the channel, but for its noise
    dropouts_of: typing.Any = None


NO_CARRIER = -20  # dB
KINDS = [
    Kind("black", blank), Kind("no carrier at all", blank, {"carrier_to_noise": NO_CARRIER}),
    Kind("black, 3 dropouts of 1 to 8 us", blank, {"dropouts": (3, 1, 8)}),
    Kind("black, a dropout all over", blank, {}, dropout_all_over), Kind("multiburst", multiburst),
    Kind("pulse and bar", pulse_and_bar), Kind("stairs with colour", stairs), Kind("colour bars", colour_bars),
    Kind("white", white), Kind("teletext", teletext), Kind("time code", time_code), Kind("closed captions", caption),
    Kind("40 bits of FM code", bits_of_fm_code), Kind("picture", pictures_at_random), Kind("line art", line_art),
    Kind("hatching of 1 us", hatching), Kind("sine of .45 to .55 MHz, whole line", sines),
    Kind("sine of .48 to .52 MHz for 40 to 50 us", bursts),
    *(Kind("%d biphase cells" % cells, other_cells(cells)) for cells in (12, 16, 20, 22, 23, 25, 26, 28)),
    Kind("48 bits of 1 us, not biphase", half_cells_at_random),
    *(Kind("black, neighbour's code at -%d dB" % below, blank, {"neighbour": below, "beside": codes_anywhere})
      for below in (10, 3)),
    Kind("black, neighbour's code in its place at -6 dB", blank, {"neighbour": 6, "beside": codes_in_their_place})]


def channel_of(kind, carrier_to_noise):
    return Channel(**{"carrier_to_noise": carrier_to_noise, **kind.settings})
