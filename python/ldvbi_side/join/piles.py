"""Numbers that no capture reads and that are due in two or more of them: what their lines say as one pile. Lines that
say nothing alone may say something together, since noise and dropouts differ in each capture."""

import struct
from typing import Dict, Iterator, List, NamedTuple, Optional, Set, Tuple

from ldvbi import Cause, Stream, line_bytes, read_rows, recover_pile
from ldvbi.codes import LINES
from ldvbi.near import MOST_LINES
from ldvbi.readings import Levels
from ..judge.paces import Unit
from ..near import says
from .captures import NEIGHBOURS, Capture

# Of a unit the lines that are taken together; of minutes alone none is due in a field
_LINES: Dict[Optional[str], Tuple[int, ...]] = {"picture": (17, 18), "time": (16,)}


class Due(NamedTuple):
    """A field of a stream, counted from 1, in which a number is due."""
    stream: Stream
    field: int


class Line(NamedTuple):
    """The samples of a line in a stream, whether it has a word of pass 1, and the first and the last column of its
    dropouts."""
    stream: Stream
    samples: bytes
    is_sure: bool
    erased: List[Tuple[int, int]]


def read_together(captures: List[Capture], disputed: Set[Tuple[str, int]]) -> Set[int]:
    """The numbers that no capture reads, but that the lines of the fields in which they are due say together. A field
    that is disputed isn't asked."""
    unit = captures[0].unit()
    read: Set[int] = set()
    due: Dict[int, List[Due]] = {}
    for capture in captures:
        for place in capture.places:
            if place.how != NEIGHBOURS:
                read.add(place.number)
            elif capture.samples and (capture.name, place.field) not in disputed:
                due.setdefault(place.number, []).append(Due(capture.samples, place.field))
    return {number for number in due.keys() - read if _is_said(number, due[number], unit)}


def _is_said(number: int, fields: List[Due], unit: Unit) -> bool:
    """Whether the lines of these fields say this number together. They don't if one of them has a word of pass 1,
    which says something else, or the number would be confirmed there; or if those of one capture are all that there
    is."""
    lines = [line for one in fields for line in _lines_of(one, _LINES[unit.name])]
    if any(line.is_sure for line in lines):
        return False
    pile = _pile_of(lines)
    if len({line.stream for line in pile}) < 2:
        return False
    word = _word_of(pile, _LINES[unit.name][0])
    return word is not None and says(word, number, unit)


def _lines_of(one: Due, numbers: Tuple[int, ...]) -> Iterator[Line]:
    """The lines of a field that have these numbers, and aren't blank."""
    stream, size = one.stream, line_bytes(one.stream.system)
    rows, dropouts = stream.rows(one.field - 1), stream.dropouts.of(one.field - 1, one.field)
    readings = read_rows(rows, stream.system, stream.black, stream.white)
    for place, (number, reading) in enumerate(zip(LINES, readings)):
        if number in numbers and reading.cause != Cause.blank:
            yield Line(stream, rows[place * size:(place + 1) * size], reading.pass_ == 1,
                       [(each.first, each.last) for each in dropouts if each.line == number])


def _pile_of(lines: List[Line]) -> List[Line]:
    """As many of these lines as a pile has at most, by the levels of the first one. Those with the samples of another
    one say nothing more, as in a copy of a capture, and are left out."""
    pile: Dict[bytes, Line] = {}
    for line in lines:
        samples = _levelled(line.samples, _levels_of(line), _levels_of(lines[0]))
        pile.setdefault(samples, line._replace(samples=samples))
    return list(pile.values())[:MOST_LINES]


def _word_of(pile: List[Line], number: int) -> Optional[int]:
    """What the lines of a pile say, which have this number. Dropouts are known if each stream has some."""
    first = pile[0].stream
    dropouts = [(place, *columns) for place, line in enumerate(pile) for columns in line.erased]
    is_known = all(line.stream.dropouts for line in pile)
    return recover_pile(b"".join(line.samples for line in pile), first.system, first.black, first.white, number,
                        dropouts if is_known else None)


def _levels_of(line: Line) -> Levels:
    return Levels(line.stream.black, line.stream.white)


def _levelled(samples: bytes, levels: Levels, wanted: Levels) -> bytes:
    """The samples of a line, if black and white were not these levels, but those that are wanted."""
    if levels == wanted:
        return samples
    form = struct.Struct("<%dH" % (len(samples) // 2))
    span, wanted_span = levels.white - levels.black, wanted.white - wanted.black
    return form.pack(*(
        min(max(wanted.black + (2 * (sample - levels.black) * wanted_span + span) // (2 * span), 0), 65535)
        for sample in form.unpack(samples)))
