"""A LaserDisc's channel from the cutting of a line to the samples of a TBC file: the code generator's rise time, the
limit of the band and pre-emphasis, FM, dropouts of the carrier, a neighbour's track, noise, the radio band's filter,
the demodulator, de-emphasis, a ghost and ringing, tilt and hum, gain and offset, a time base that is off, and 16 bits.

The ratio of carrier to noise is that in the whole radio band, of 10.4 MHz (NTSC) or 9.8 MHz (PAL). In 30 kHz, as
analysers say it, it is 25 dB more."""

import dataclasses
import typing

import numpy
import scipy.fft

import dropouts
from systems import FREQUENCIES, GRID_RATE, GRID_SAMPLES, GRID_START

BATCH = 32  # lines that are simulated together
GHOST_DELAYS = (.4, 1.5)
RINGING_FREQUENCY, RINGING_WIDTH = 3.2, .6


@dataclasses.dataclass(frozen=True)
class Channel:
    """What is wrong with lines. A time base is off by normal numbers with these deviations: of where it begins (in
    microseconds), of its speed, of how far it wanders (in microseconds)."""
    carrier_to_noise: float = 25  # dB
    dropouts: typing.Optional[tuple] = None  # how many in each line, and from a least to a most time long
    neighbour: typing.Optional[float] = None  # dB below the carrier
    beside: typing.Any = None  # what the neighbour's track has, as codes_or_pictures of waves.py
    level: float = 0  # IRE more in all of the line, before it is cut
    tilt: float = 0  # IRE along the line, up or down
    hum: float = 0  # IRE, one cycle a line
    gain: float = 1
    offset: float = 1  # IRE, a deviation
    ghost: typing.Optional[float] = None  # dB below the line
    ringing: float = 0  # how much higher the response is at 3.2 MHz
    time_base: tuple = (.03, .001, .02)


def spectrum(lines):
    return scipy.fft.fft(lines, axis=1)


def waves(spectra):
    return scipy.fft.ifft(spectra, axis=1)


def modulated(system, lines):
    """The carrier of these lines in IRE, of height 1."""
    filters = system.rise_filter * system.video_filter * system.pre_emphasis
    levels = waves(spectrum(lines.astype(numpy.complex64)) * filters).real
    deviation = (system.carrier_at_white - system.carrier_at_black) / 100
    frequencies = (system.carrier_at_black + deviation * levels).astype(numpy.float64)
    phases = numpy.cumsum(frequencies, axis=1) * (2 * numpy.pi / GRID_RATE)
    return numpy.exp(1j * phases).astype(numpy.complex64)


def add_neighbour(system, channel, carrier, chance):
    beside = modulated(system, channel.beside(system, len(carrier), chance))
    phases = numpy.exp(1j * chance.uniform(0, 6.28, (len(carrier), 1))).astype(numpy.complex64)
    carrier += numpy.float32(10 ** (-channel.neighbour / 20)) * beside * phases


def add_noise(system, channel, carrier, chance):
    """White noise, of which the radio filter leaves as much as the channel says."""
    deviation = numpy.sqrt(10 ** (-channel.carrier_to_noise / 10) / system.radio_share / 2)
    real = chance.standard_normal(carrier.shape, numpy.float32)
    noise = real + 1j * chance.standard_normal(carrier.shape, numpy.float32)
    carrier += (deviation * noise).astype(numpy.complex64)


def demodulated(system, carrier):
    """The lines in IRE, with pre-emphasis: how far the carrier's phase goes from one sample to the next."""
    carrier = waves(spectrum(carrier) * system.radio_filter)
    turns = numpy.angle(carrier[:, 1:] * numpy.conj(carrier[:, :-1]))
    turns = numpy.concatenate([turns[:, :1], turns], 1).astype(numpy.float32)
    frequencies = turns * numpy.float32(GRID_RATE / 2 / numpy.pi)
    # The filter leaves positive frequencies alone.
    frequencies = numpy.where(frequencies < 0, frequencies + numpy.float32(GRID_RATE), frequencies)
    of_level = 100 / (system.carrier_at_white - system.carrier_at_black)
    return (frequencies - system.carrier_at_black) * numpy.float32(of_level)


def response(system, channel, count, chance):
    """The response of what stands after the demodulator."""
    whole = system.de_emphasis * system.video_filter
    if channel.ghost is not None:
        delays = chance.uniform(*GHOST_DELAYS, (count, 1))
        height = 10 ** (-channel.ghost / 20) * chance.choice([-1, 1], (count, 1))
        whole = whole * (1 + height * numpy.exp(-2j * numpy.pi * FREQUENCIES * delays)).astype(numpy.complex64)
    if channel.ringing:
        near = numpy.exp(-((abs(FREQUENCIES) - RINGING_FREQUENCY) / RINGING_WIDTH) ** 2)
        whole = whole * (1 + channel.ringing * near).astype(numpy.float32)
    return whole


def sample_places(system, channel, count, chance):
    """Where on the grid each column of the lines is sampled."""
    start, speed, wander = channel.time_base
    times = numpy.arange(system.width) / system.sample_rate
    starts = chance.normal(0, start, (count, 1))
    places = times * (1 + chance.normal(0, speed, (count, 1))) + starts
    heights = wander * chance.normal(0, 1, (count, 1))
    cycles = times / system.line_time * chance.uniform(.5, 2, (count, 1)) + chance.random((count, 1))
    return (places + heights * numpy.sin(2 * numpy.pi * cycles) - GRID_START) * GRID_RATE


def sampled(lines, places):
    """The values at these places, by cubics through four samples."""
    samples = numpy.clip(places.astype(int), 1, GRID_SAMPLES - 3)
    rest = (places - samples).astype(numpy.float32)
    before, left, right, after = (numpy.take_along_axis(lines, samples + by, 1) for by in (-1, 0, 1, 2))
    cubic = 3 * (left - right) + after - before
    square = 2 * before - 5 * left + 4 * right - after
    return left + .5 * rest * (right - before + rest * (square + rest * cubic))


def levelled(system, channel, lines, chance):
    """The lines with tilt, hum, gain and offset."""
    count = len(lines)
    along = numpy.arange(system.width) / system.sample_rate / system.line_time
    if channel.tilt:
        lines = lines + numpy.sign(chance.uniform(-1, 1, (count, 1))) * channel.tilt * (along - .5)
    if channel.hum:
        lines = lines + channel.hum * numpy.sin(2 * numpy.pi * (along + chance.random((count, 1))))
    return lines * channel.gain + chance.normal(0, channel.offset, (count, 1))


def batch_through(system, channel, lines, lost, chance):
    """The samples of some lines, and the columns that dropouts damage."""
    carrier = modulated(system, lines + numpy.float32(channel.level))
    heights = None if lost is None else dropouts.envelope(lost)
    if heights is not None:
        carrier *= heights
    if channel.neighbour is not None:
        add_neighbour(system, channel, carrier, chance)
    add_noise(system, channel, carrier, chance)
    levels = demodulated(system, carrier).astype(numpy.complex64)
    levels = waves(spectrum(levels) * response(system, channel, len(lines), chance)).real
    places = sample_places(system, channel, len(lines), chance)
    levels = levelled(system, channel, sampled(levels, places), chance)
    unit = (system.white - system.black) / 100
    samples = numpy.clip(numpy.rint(system.black + levels * unit), 0, 65535).astype(numpy.uint16)
    if heights is None:
        return samples, numpy.zeros(samples.shape, bool)
    return samples, dropouts.damaged_columns(system, heights, places.astype(int))


def through(system, channel, lines, chance, lost=None):
    """The samples of lines in IRE with their blanking, and the columns that dropouts damage. `lost` has the dropouts,
    which else are random ones, as the channel says."""
    if lost is None and channel.dropouts:
        lost = dropouts.dropouts_at_random(system, len(lines), channel.dropouts, chance)
    pieces = [slice(first, first + BATCH) for first in range(0, len(lines), BATCH)]
    batches = [batch_through(system, channel, lines[piece], lost and lost.of(piece), chance) for piece in pieces]
    return tuple(numpy.concatenate(part) for part in zip(*batches))
