"""Tries levels and systems on some lines of a side on which hardly any word is read. Nothing is read anew by them: the
result of the trial is only reported, for somebody to look at."""

import struct
from typing import Iterator, List, NamedTuple, Optional, Tuple

from ldvbi import Stream, System, field_bytes, line_bytes, read_rows
from ldvbi.readings import Levels

FIELDS = 100  # whose lines 17 and 18 are looked at, in pairs all over the side
FEW = 20  # lines to a word of one that is found, at most
# From and to which column a drawn word stands, 48 half cells of a microsecond
COLUMNS = {System.NTSC: (150, 837), System.PAL: (190, 1042)}
FIFTH = 5  # a fifth of a word's samples are lower than its low level by noise and edges, and a fifth higher
STEP = 1000  # levels are rounded to thousands: noise moves them by more than half of that
HIGHEST = 65535  # of a sample
LEAST = 1000  # from low to high: less than that is no code


class Setup(NamedTuple):
    """The system and levels with which lines are read."""
    system: System
    levels: Levels


class Best(NamedTuple):
    """The system and levels by which most lines are read, each None if it is the side's own, and their count."""
    system: Optional[str]
    black: Optional[int]
    white: Optional[int]
    read: int


class Tried(NamedTuple):
    """How many of some lines are read by the side's levels, and by what more of them are read, or None."""
    lines: int
    read: int
    black: int
    white: int
    best: Optional[Best]


def tried_on(stream: Stream) -> Tried:
    """The result of trying other levels, and the other system, on some lines of a stream: how many lines these are, how
    many of them are read with the side's levels, and these levels. `best` has the levels and the system by which most
    of them are read, as far as these differ from the side's. It is None if hardly any is read by any."""
    own = Setup(stream.system, Levels(stream.black, stream.white))
    rows = list(_rows(stream, own.system))
    read = _read(rows, own)
    trials = [(_read(of_system, setup), setup) for of_system, setup in _trials(stream, own, rows)]
    count, best = max(trials, key=lambda trial: trial[0])
    is_found = count > read and FEW * count >= 2 * len(rows)
    return Tried(2 * len(rows), read, *own.levels, best=_changes(own, best, count) if is_found else None)


def _trials(stream: Stream, own: Setup, rows: List[bytes]) -> Iterator[Tuple[List[bytes], Setup]]:
    """Rows with the setups by which they are read: each level alone comes before both, and a system's own levels before
    others, since of trials that read as many lines the first is the best."""
    for system in (own.system, *(other for other in System if other != own.system)):
        of_system = rows if system == own.system else list(_rows(stream, system))
        if system != own.system:
            yield of_system, Setup(system, own.levels)
        found = _levels_in(of_system, system)
        if found is None:
            continue
        for levels in (Levels(own.levels.black, found.white), Levels(found.black, own.levels.white), found):
            if levels.black < levels.white:
                yield of_system, Setup(system, levels)


def _rows(stream: Stream, system: System) -> Iterator[bytes]:
    """Lines 16, 17 and 18 of some fields of a stream, as fields of this system: of two that follow each other, since a
    disc may have its numbers on the first field of each picture alone."""
    count, pairs = stream.size // field_bytes(system), FIELDS // 2
    begins = [pair * (count - 2) // (pairs - 1) for pair in range(pairs)]
    for field in range(count) if count <= FIELDS else (field for begin in begins for field in (begin, begin + 1)):
        yield stream.rows_as(system, field)


def _read(rows: List[bytes], setup: Setup) -> int:
    """How many of lines 17 and 18 have a word of their own."""
    return sum(bool(line.word) for field in rows for line in read_rows(field, setup.system, *setup.levels)[1:])


def _levels_in(rows: List[bytes], system: System) -> Optional[Levels]:
    """The low and the high level of lines 17 and 18, if some of them have two: those of the lines in which the two
    are far from each other, as a code's are."""
    import statistics  # which takes long, and few sides need it
    spans = [_span(field, system, line) for field in rows for line in (1, 2)]
    widest = max((high - low for low, high in spans), default=0)
    if widest < LEAST:
        return None
    coded = [(low, high) for low, high in spans if 2 * (high - low) >= widest]
    low, high = (statistics.median(levels) for levels in zip(*coded))
    return Levels(_rounded(low), _rounded(high))


def _span(field: bytes, system: System, line: int) -> Tuple[int, int]:
    """The low and the high level of a line, counted from 0 for line 16, where a word would be drawn."""
    first, last = COLUMNS[system]
    begin = line * line_bytes(system) + 2 * first
    samples = sorted(struct.unpack("<%dH" % (last - first), field[begin:begin + 2 * (last - first)]))
    part = len(samples) // FIFTH
    return samples[part], samples[-part - 1]


def _rounded(level: float) -> int:
    return min(STEP * round(level / STEP), HIGHEST)


def _changes(own: Setup, best: Setup, count: int) -> Best:
    """What of the setup by which so many lines are read is another than the side's own; None for what isn't."""
    system, (black, white) = best
    return Best(system.name if system != own.system else None, black if black != own.levels.black else None,
                white if white != own.levels.white else None, count)


def options_of(tried: Tried) -> str:
    """The options of the command for what differs in the best trial. If that is the system, both levels are given, too:
    metadata of the side's own system would be refused."""
    best = tried.best or Best(None, None, None, 0)
    black, white = (tried.black, tried.white) if best.system else (None, None)
    named = (("system", best.system), ("black", black if best.black is None else best.black),
             ("white", white if best.white is None else best.white))
    return " ".join("--%s %s" % one for one in named if one[1] is not None)
