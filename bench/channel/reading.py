"""The readers, over lines as arrays of samples: each answers a word for each line, or 0 where it says none. The library
is called by python/ldvbi; MAME's decoder and the reader by edges are those of bench/peers/."""

import array
import ctypes
import os
import sys

import numpy

TOP = os.path.join(os.path.dirname(os.path.abspath(__file__)), os.pardir, os.pardir)
sys.path += [os.path.join(TOP, folder) for folder in ("bench/peers", "python")]

import readers  # noqa: E402
from ldvbi.library import later_call, library  # noqa: E402

DONE = 0
READING = numpy.dtype([("cause", "u1"), ("pass", "u1"), ("column", "<u2"), ("word", "<u4")])
# The call that takes a list of erased columns, and an entry of that list
WITH_LIST = "ldvbi_recover_rows_without"
ERASED = numpy.dtype([("field", "<u4"), ("line", "<u4"), ("first", "<u4"), ("last", "<u4")])
NUMBER, ARRAY = [ctypes.c_uint32], [ctypes.c_void_p, ctypes.c_size_t]
# A frame has two fields of three lines. Of its own discs of few frames chdman can't open some.
LINES_OF_FRAME, LEAST_FRAMES = 6, 30


def use_library(path):
    """Has this file be the library."""
    os.environ["LDVBI_LIBRARY"] = os.path.abspath(path)
    library()


def erased_of(columns):
    """The list of the columns that are erased, of a mask for each of lines 16, 17 and 18."""
    entries = []
    for line, mask in enumerate(columns):
        edges = numpy.flatnonzero(numpy.diff(numpy.concatenate(([0], mask.astype(numpy.int8), [0]))))
        entries += [(0, 16 + line, first, end - 1) for first, end in zip(edges[::2], edges[1::2])]
    return numpy.array(entries, ERASED)


def readings_of(call, system, rows, listed=None):
    """The readings of rows: fields of one line, or of the three that the library takes."""
    rows = numpy.ascontiguousarray(rows, "<u2")
    answers = numpy.zeros(rows.shape[:2], READING)
    for field, samples in enumerate(rows):
        places = [samples.ctypes.data, samples.nbytes]
        if listed is not None:
            erased = erased_of(listed[field])
            places += [erased.ctypes.data, len(erased)]
        answer = answers.ctypes.data + field * answers[0].nbytes
        if call(system.number, system.black, system.white, *places, answer) != DONE:
            raise ValueError("the library refuses a field")
    return answers


def read(system, lines):
    """The readings of lines by passes 1 and 2."""
    return readings_of(library().ldvbi_read_line, system, lines[:, None])[:, 0]


def call_with_list():
    call = getattr(library(), WITH_LIST)
    call.restype, call.argtypes = ctypes.c_uint32, 3 * NUMBER + 2 * ARRAY + [ctypes.c_void_p]
    return call


def recovered(system, samples, listed=None):
    """The readings of lines 17 and 18 of fields, or of line 17 alone; the other ones are black. Columns that are listed
    as dropouts cost nothing. Where the library has no call for those, they are put half way between black and white,
    which is as far from either; words of pass 1 are those of the samples as they are."""
    count, lines = samples.shape[:2]
    rows = numpy.full((count, 3, system.width), system.black, numpy.uint16)
    rows[:, 1:1 + lines] = samples
    if listed is None:
        return readings_of(later_call("ldvbi_recover_rows"), system, rows)[:, 1:1 + lines]
    if hasattr(library(), WITH_LIST):
        columns = numpy.zeros(rows.shape, bool)
        columns[:, 1:1 + lines] = listed
        return readings_of(call_with_list(), system, rows, columns)[:, 1:1 + lines]
    rows[:, 1:1 + lines][listed] = (system.black + system.white) // 2
    answers = recovered(system, rows[:, 1:1 + lines])
    raw = recovered(system, samples)
    return numpy.where(raw["pass"] == 1, raw, answers)


def merged(words):
    """The word of lines 17 and 18: where they differ there is none."""
    first, second = words[:, 0], words[:, 1]
    one = numpy.where(first == 0, second, first)
    return numpy.where((second == 0) | (second == one), one, 0)


# ---- Those of bench/peers/

def by_mame(system, lines):
    """The words of MAME's decoder, of lines in 8 bits and interpolated to 13.5 MHz."""
    frames = max(-(-len(lines) // LINES_OF_FRAME), LEAST_FRAMES)
    padded = numpy.full((LINES_OF_FRAME * frames, system.width), system.black, numpy.uint16)
    padded[:len(lines)] = lines
    eight = readers.in_eight_bits([array.array("H", line.tobytes()) for line in padded], system.white)
    return numpy.array(readers.by_mame(eight, system.sample_rate)[:len(lines)])


def by_edges(folder, system, lines):
    """The words of the reader by edges, which is in this folder."""
    return numpy.array(readers.by_edges(folder, [line.tobytes() for line in lines], system.white, system.name))
