"""The nearest word of lines: the one whose drawn row differs least from their samples. And what a pile of lines
says."""

import ctypes
import struct
from typing import Any, Iterable, NamedTuple, Optional, Tuple

from .dropouts import dropouts_of_lines
from .library import BAD_LENGTH, Setup, later_call, number_of, setup_of
from .readings import AnySystem, line_bytes
from .samples import Samples


class Near(NamedTuple):
    """The nearest word of some lines. Distances are sums of samples, each of which counts seven tenths of white - black
    at most, as one with the other level does. `word` is None if no word is nearer than the row of none, which is black.
    `start` is the column, counted from 0, at which the drawn word begins, or 0. `distance` is how far its row is from
    the lines, `rival` the least distance of a row of another word, or of none. `longer` is the least distance of this
    row with one more cell before or after the 24 of the word. If `longer` is far below `distance`, the signal goes on
    beyond the word, so it is no word."""
    word: Optional[int]
    start: int
    distance: int
    rival: int
    longer: int


MOST_LINES = 28  # of a pile
_PACKED_NEAR = struct.Struct("=IIQQQ")  # LdvbiNear of ldvbi.h


def nearest(lines: Any, system: AnySystem, black: int, white: int) -> Near:
    """The nearest word of 1 to 28 lines that all have the same word or none, such as lines 17 and 18 of a field. Their
    samples lie one line after the other.

    No row of any word is nearer to the lines than `distance`, and none of another word is nearer than `rival`: if
    another word was recorded, the samples of the lines are off by `rival` or more in sum. This doesn't say that there
    is a word: each signal has a nearest one, and video or noise has a rival close by."""
    call = later_call("ldvbi_nearest")
    setup = setup_of(system, black, white)
    out = ctypes.create_string_buffer(_PACKED_NEAR.size)
    with Samples(lines) as memory:
        _check(setup, call(*setup, memory.address, memory.length, out), memory)
    word, *rest = _PACKED_NEAR.unpack(out)
    return Near(word or None, *rest)


def recover_pile(lines: Any, system: AnySystem, black: int, white: int, line: int,
                 dropouts: Optional[Iterable[Tuple[int, int, int]]] = None) -> Optional[int]:
    """The word that 1 to 28 lines say together, or None if they say none. They all have the same word, such as one
    line of several captures. `line` is the number of all these lines, 16, 17 or 18. Columns of `dropouts` count for
    nothing. Each is given by the place of its line among these, its first column and its last, counted from 0. If
    `dropouts` are given, even none, they are known: then a code has to be ahead of any other by 4 columns, else by
    8."""
    call = later_call("ldvbi_recover_pile")
    setup, number = setup_of(system, black, white), number_of("line", line)
    word = ctypes.c_uint32()
    with Samples(lines) as memory:
        erased = dropouts_of_lines(dropouts or (), number, memory.length // line_bytes(setup.system))
        status = call(*setup, number, int(dropouts is not None), memory.address, memory.length,
                      *erased.packed(0, MOST_LINES), ctypes.byref(word))
        _check(setup, status, memory)
    return word.value or None


def _check(setup: Setup, status: int, memory: Samples) -> None:
    """Raises a ValueError for a status by which a call refused these lines."""
    if status == BAD_LENGTH:
        raise ValueError("1 to 28 lines have %d bytes each, and these are %d" % (
            line_bytes(setup.system), memory.length))
    setup.check(status)
