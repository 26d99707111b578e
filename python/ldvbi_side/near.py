"""The nearest words of a side's lines, if its samples are at hand."""

from typing import Any, NamedTuple, Optional, Set, Tuple

from ldvbi import Kind, Near, Stream, classify, line_bytes, nearest
from ldvbi.codes import LINES, value_of
from .judge.paces import Unit

BEYOND = 4  # columns of a line by which a longer word may be nearer
MARGIN = 0  # hundredths of a column by which a stop on one worn line has to be ahead, by docs/measured/stops.txt


class Measured(NamedTuple):
    """The nearest word of a line, or None, its distance and that of its rival, in hundredths of a column, rounded down.
    A column is white - black, and a sample counts 70 at most, as one with the other level does."""
    word: Optional[int]
    distance: int
    rival: int


def nearest_in(stream: Stream, field: int, first: int, last: int) -> Near:
    """The nearest word of a field's lines from the first to the last, such as 17 and 18, which have the same word or
    none. Fields are counted from 1. Each erased column is made half black and half white: then it is as far from the
    rows of all words, and its distance is subtracted again. If white - black is odd, the distances of some rows have
    one sample more for each of these columns."""
    size = line_bytes(stream.system)
    rows = bytearray(stream.rows(field - 1)[(first - LINES[0]) * size:(last + 1 - LINES[0]) * size])
    half = (stream.white - stream.black) // 2
    places = erased_in(stream, field, first, last)
    for place in places:
        rows[2 * place:2 * place + 2] = (stream.black + half).to_bytes(2, "little")
    near, erased = nearest(rows, stream.system, stream.black, stream.white), half * len(places)
    return near._replace(distance=near.distance - erased, rival=near.rival - erased, longer=near.longer - erased)


def erased_in(stream: Stream, field: int, first: int, last: int) -> Set[int]:
    """The columns of these lines, counted one line after the other, that the stream's dropouts erase."""
    width = line_bytes(stream.system) // 2
    return {(one.line - first) * width + column for one in stream.dropouts.of(field - 1, field)
            if first <= one.line <= last for column in range(one.first, min(one.last + 1, width))}


def nearest_word_in(stream: Stream, field: int, first: int, last: int) -> Optional[int]:
    """The nearest word of these lines, if each other one is farther and the signal doesn't go on beyond the word."""
    near, column = nearest_in(stream, field, first, last), stream.white - stream.black
    goes_on = near.distance - near.longer > BEYOND * (last + 1 - first) * column
    uncertain = column % 2 * len(erased_in(stream, field, first, last))
    return None if goes_on or near.rival - near.distance <= uncertain else near.word


def stop_lead_in(stream: Stream, field: int, line: int) -> Optional[int]:
    """How far a picture stop that is the nearest word of a line is ahead of its rival, in hundredths of a column."""
    near = measured(stream, field, line)
    is_stop = near.word is not None and classify(near.word).kind == Kind.picture_stop
    return near.rival - near.distance if is_stop else None


def measured(stream: Stream, field: int, line: int) -> Measured:
    """The nearest word of one line of a field, and how near it is."""
    near, column = nearest_in(stream, field, line, line), stream.white - stream.black
    return Measured(near.word, near.distance * 100 // column, near.rival * 100 // column)


def says(word: int, number: int, unit: Unit) -> bool:
    """Whether a word says this number; for a time, the second and the picture, as line 16 has them."""
    wanted: Tuple[Kind, Any] = Kind.picture, number
    if unit.name == "time":
        seconds, part = divmod(number, unit.rate)
        wanted = Kind.clv_picture, (seconds % 60, part)
    code = classify(word)
    return (code.kind, value_of(code)) == wanted
