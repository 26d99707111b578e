"""Dropouts: columns of lines that are erased, and count for no nearest word."""

import bisect
import collections.abc
import struct
from typing import Any, Iterable, List, NamedTuple, Optional, Sequence, Tuple

from .classes import whole_number
from .codes import LINES
from .library import MOST

_PACKED_ERASED = struct.Struct("=IIII")  # LdvbiErased of ldvbi.h
_WANTED = frozenset(LINES)


class Dropout(NamedTuple):
    """The columns of a line from `first` to `last`. Fields and columns are counted from 0. Columns beyond the line
    count for nothing."""
    field: int
    line: int
    first: int
    last: int


class Dropouts:
    """The dropouts of a number of fields. Each is a `Dropout`, or four such numbers. They come in any order, and may
    overlap. A ValueError says what is wrong with one."""

    def __init__(self, dropouts: Optional[Iterable[Tuple[int, int, int, int]]], fields: int) -> None:
        given = () if dropouts is None else dropouts
        self._sorted = sorted(_checked(Dropout(*_numbers(one, Dropout._fields)), fields) for one in given)

    def __len__(self) -> int:
        return len(self._sorted)

    def of(self, begin: int, end: int) -> List[Dropout]:
        """The dropouts of the fields from `begin` to before `end`."""
        first, last = (bisect.bisect_left(self._sorted, (field,)) for field in (begin, end))
        return self._sorted[first:last]

    def packed(self, begin: int, end: int) -> Tuple[bytes, int]:
        """The same as the library takes them, with fields counted from `begin`, and how many there are."""
        found = self.of(begin, end)
        return b"".join([_PACKED_ERASED.pack(one.field - begin, *one[1:]) for one in found]), len(found)


def dropouts_of_field(dropouts: Optional[Iterable[Tuple[int, int, int]]]) -> Dropouts:
    """The dropouts of one field. Each is given by its line, its first column and its last."""
    given = () if dropouts is None else dropouts
    return Dropouts([Dropout(0, *_numbers(one, Dropout._fields[1:])) for one in given], 1)


def dropouts_of_lines(dropouts: Iterable[Tuple[int, int, int]], line: int, lines: int) -> Dropouts:
    """The dropouts of lines that all have the number `line`. Each is given by the place of its line among these
    `lines`, counted from 0, its first column and its last."""
    given = [_numbers(one, ("index", *Dropout._fields[2:])) for one in dropouts]
    beyond = next((place for place, _, _ in given if not 0 <= place < lines), None)
    if beyond is not None:
        raise ValueError("a dropout is in line %d of %d, counted from 0" % (beyond, lines))
    return Dropouts([(place, line, first, last) for place, first, last in given], lines)


def refuse_dropouts(recover: bool, dropouts: Optional[Iterable[Any]]) -> None:
    """Raises a ValueError if dropouts are given but no words are recovered."""
    if dropouts is not None and not recover:
        raise ValueError("dropouts are for recovered words alone: give recover, too")


def _numbers(given: Iterable[int], names: Sequence[str]) -> List[int]:
    """The numbers that are given, one for each of these names."""
    numbers = tuple(given) if isinstance(given, collections.abc.Iterable) else ()
    if len(numbers) != len(names):
        raise ValueError("a dropout is not %d numbers: %s" % (len(names), ", ".join(names)))
    return [whole_number("a dropout's " + name, number) for name, number in zip(names, numbers)]


def _checked(one: Dropout, fields: int) -> Dropout:
    """The dropout with columns that the library can take."""
    field, line, first, last = one
    if not 0 <= field < fields:
        raise ValueError("a dropout is in field %d of %d, counted from 0" % (field, fields))
    if line not in LINES:
        raise ValueError("a dropout is in line %d, not in 16, 17 or 18" % line)
    if not 0 <= first <= last:
        raise ValueError("a dropout's columns are %d to %d" % (first, last))
    return Dropout(field, line, *(column if column in range(MOST) else MOST for column in (first, last)))


# ---- ld-decode's metadata

def told_dropouts(field: int, told: Any) -> Iterable[Dropout]:
    """The dropouts of lines 16, 17 and 18 in a field's member `dropOuts`, which has lists of lines, counted from 1, of
    first columns and of last columns. There are none if these aren't such lists of whole numbers: a dropout that isn't
    known is as good as one that ld-decode didn't find."""
    try:
        lines = told["fieldLine"]
        if _WANTED.isdisjoint(lines):  # as of most fields
            return ()
        firsts, lasts = told["startx"], told["endx"]
        found = [Dropout(field, *one) for one in zip(lines, firsts, lasts) if one[0] in _WANTED]
        is_known = len(lines) == len(firsts) == len(lasts) and all(map(_is_told, found))
    except (KeyError, TypeError):
        return ()
    return found if is_known else ()


def _is_told(one: Dropout) -> bool:
    """Whether these are numbers of a dropout; true and 16.0 are none."""
    return set(map(type, one)) == {int} and 0 <= one.first <= one.last
