"""The two television systems: how their discs are modulated, what a line has where, and how it is digitised; and the
grid on which a line is simulated. Times are in microseconds from the leading edge of the line's sync on, frequencies in
MHz, levels in IRE."""

import dataclasses
import functools

import numpy
import scipy.fft

# The grid: so many samples of this rate, from this time on
GRID_RATE = 40.0
GRID_SAMPLES = 3072
GRID_START = -6.0
TIMES = GRID_START + numpy.arange(GRID_SAMPLES) / GRID_RATE
FREQUENCIES = scipy.fft.fftfreq(GRID_SAMPLES, 1 / GRID_RATE)

# From 10 to 90 % of a step of the code generator; of a Gaussian filter that takes so many deviations
RISE_TIME = 0.225
RISE_OF_GAUSSIAN = 2.563
# How wide the edge of the radio band is
RADIO_EDGE = 1.2


def falling(low, high, frequency):
    """1 below a frequency, 0 above another, and half a cosine between them."""
    middle = 0.5 + 0.5 * numpy.cos(numpy.pi * (frequency - low) / (high - low))
    return numpy.where(frequency <= low, 1, numpy.where(frequency >= high, 0, middle))


@dataclasses.dataclass(frozen=True, eq=False)
class System:
    """A system, with the filters of its discs and their players."""
    name: str
    number: int  # in the library's calls
    sample_rate: float
    width: int  # samples of a line
    line_time: float
    carrier_at_black: float
    carrier_at_white: float
    video_limit: float
    pre_emphasis_times: tuple
    radio_band: tuple
    word_start: float
    black: int
    white: int
    colour: float
    burst: tuple
    sync_depth: float

    @functools.cached_property
    def pre_emphasis(self):
        """What raises high frequencies before they are cut."""
        up, down = self.pre_emphasis_times
        angle = 2j * numpy.pi * FREQUENCIES
        return ((1 + angle * up) / (1 + angle * down)).astype(numpy.complex64)

    @functools.cached_property
    def de_emphasis(self):
        return (1 / self.pre_emphasis).astype(numpy.complex64)

    @functools.cached_property
    def video_filter(self):
        """What leaves frequencies of video."""
        return falling(self.video_limit, self.video_limit * 1.25, abs(FREQUENCIES)).astype(numpy.float32)

    @functools.cached_property
    def radio_filter(self):
        """What leaves frequencies of the modulated carrier, positive ones alone."""
        low, high = self.radio_band
        above = 1 - falling(low - RADIO_EDGE, low, FREQUENCIES)
        return (falling(high, high + RADIO_EDGE, FREQUENCIES) * above).astype(numpy.float32)

    @functools.cached_property
    def radio_share(self):
        """How much of the power of white noise the radio filter leaves."""
        return float((self.radio_filter ** 2).mean())

    @functools.cached_property
    def rise_filter(self):
        """The code generator's rise time, as a Gaussian."""
        spread = RISE_TIME / RISE_OF_GAUSSIAN
        return numpy.exp(-2 * (numpy.pi * spread * FREQUENCIES) ** 2).astype(numpy.float32)


SYSTEMS = {system.name: system for system in (
    System("NTSC", 1, 315 / 22, 910, 63.5556, 8.1, 9.3, 4.2, (0.320, 0.120), (3.4, 13.8), 10.5, 16384, 51200,
           3.579545, (5.3, 7.8), -40.0),
    System("PAL", 2, 17.734475, 1135, 64.0, 7.1, 7.9, 5.0, (0.400, 0.100), (2.7, 12.5), 10.7, 16384, 54016,
           4.43361875, (5.6, 7.85), -43.0))}
