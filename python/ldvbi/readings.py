"""What the lines of a field show: a word, or why there is none. These calls of the library read and draw lines."""

import abc
import array
import ctypes
import enum
import operator
import struct
from typing import Any, Callable, Dict, Iterable, Iterator, List, NamedTuple, Optional, Sequence, Tuple, Union, overload

from .dropouts import dropouts_of_field, refuse_dropouts
from .library import BAD_LENGTH, Setup, System, later_call, library, number_of, setup_of, system_of
from .samples import Samples

# A system may be named; samples are anything with the buffer protocol.
AnySystem = Union[System, str, int]
# The line, the first column and the last column of each dropout of a field; columns are counted from 0
FieldDropouts = Optional[Iterable[Tuple[int, int, int]]]


class Cause(enum.IntEnum):
    """What a line shows: a word, or why it shows none."""
    word = 0
    blank = 1
    unfinished = 2
    change = 3
    hold = 4


class Reading(NamedTuple):
    """What a line shows. `pass_` is 1 for a word that the line's own levels show, 2 for one that only smoothed levels
    show, 3 for one that was recovered, 0 for no word. `column` is the first hopeless column, counted from 0, for the
    causes change and hold; else 0. `word` is the word, from 0x800000 to 0xFFFFFF, or 0. If this module doesn't know the
    cause, which a later library may have, `cause` is its number."""
    cause: Cause
    pass_: int
    column: int
    word: int


class FieldReadings(NamedTuple):
    """The readings of a field's lines 16, 17 and 18."""
    first: Reading
    second: Reading
    third: Reading


class Cut(NamedTuple):
    """The field inside which a stream ended, and how many of its bytes came."""
    field: int
    bytes: int


class Levels(NamedTuple):
    """The samples of black and of white with which fields were read."""
    black: int
    white: int


PACKED_LINE = struct.Struct("=BBHI")  # LdvbiReading of ldvbi.h
PACKED_FIELD = struct.Struct("=BBHIBBHIBBHI")  # LdvbiFieldReadings
_CAUSES = (*Cause, *range(len(Cause), 256))  # those that a later library may add stay numbers
_CAUSE_NAMES = tuple(cause.name for cause in Cause)
_FIRST_WITH_COLUMN = int(Cause.change)  # and the only other one after it is hold
_SIZES = {System.NTSC: (910, 263), System.PAL: (1135, 313)}  # samples of a line, lines of a field


def size_of(system: AnySystem) -> Tuple[int, int]:
    """The samples of a line and the lines of a field."""
    return _SIZES[system_of(system)]


def line_bytes(system: AnySystem) -> int:
    """The bytes of a line."""
    return 2 * _SIZES[system_of(system)][0]


def field_bytes(system: AnySystem) -> int:
    """The bytes of a field."""
    return line_bytes(system) * _SIZES[system_of(system)][1]


def read_line(samples: Any, system: AnySystem, black: int, white: int) -> Reading:
    """The reading of a line."""
    read = library().ldvbi_read_line
    out = _read(read, samples, setup_of(system, black, white), PACKED_LINE, "a line has", line_bytes)
    cause, pass_, column, word = PACKED_LINE.unpack(out)
    return Reading(_CAUSES[cause], pass_, column, word)


def read_rows(samples: Any, system: AnySystem, black: int, white: int, recover: bool = False,
              dropouts: FieldDropouts = None) -> FieldReadings:
    """The readings of a field's lines 16, 17 and 18, given alone and one after the other, as os.pread fetches them. In
    their field 15 lines are before them. With `recover` a worn line has its nearest word, of pass 3, if no other is
    near: ldvbi_recover_rows in ldvbi.h has the rule. Columns of `dropouts` count for no nearest word. Each is given by
    its line, its first column and its last, counted from 0."""
    refuse_dropouts(recover, dropouts)
    read = _recovering("ldvbi_recover_rows", dropouts) if recover else library().ldvbi_read_rows
    setup = setup_of(system, black, white)
    out = _read(read, samples, setup, PACKED_FIELD, "three lines have", lambda system: 3 * line_bytes(system))
    return next(unpacked(out))


def read_field(samples: Any, system: AnySystem, black: int, white: int, recover: bool = False,
               dropouts: FieldDropouts = None) -> FieldReadings:
    """The readings of a field's lines 16, 17 and 18; with `recover` and `dropouts` as `read_rows` has them."""
    refuse_dropouts(recover, dropouts)
    read = _recovering("ldvbi_recover_fields", dropouts, 1) if recover else library().ldvbi_read_field
    out = _read(read, samples, setup_of(system, black, white), PACKED_FIELD, "a field has", field_bytes)
    return next(unpacked(out))


def _recovering(name: str, dropouts: FieldDropouts, *more: int) -> Callable[..., int]:
    """The call of the library with this name, which leaves out the dropouts of a field; `more` comes after its other
    arguments."""
    erased, call = dropouts_of_field(dropouts).packed(0, 1), later_call(name)

    def read(*words: Any) -> int:
        *samples, out = words
        status: int = call(*samples, *erased, out, *more)
        return status
    return read


def _read(read: Any, samples: Any, setup: Setup, packed: struct.Struct, owner: str,
          wanted_bytes: Callable[[AnySystem], int]) -> Any:
    """What a call of the library writes, which is of this packed form. `owner` and `wanted_bytes` are for the text of
    an exception."""
    out = ctypes.create_string_buffer(packed.size)
    with Samples(samples) as memory:
        status = read(*setup, memory.address, memory.length, out)
        if status == BAD_LENGTH:
            raise ValueError("%s %d bytes, not %d" % (owner, wanted_bytes(setup.system), memory.length))
        setup.check(status)
    return out


def unpacked(readings: Any) -> Iterator[FieldReadings]:
    """The readings of fields, as the library writes them, one field at a time."""
    for a, b, c, d, e, f, g, h, i, j, k, l in PACKED_FIELD.iter_unpack(readings):
        yield FieldReadings(Reading(_CAUSES[a], b, c, d), Reading(_CAUSES[e], f, g, h), Reading(_CAUSES[i], j, k, l))


class Fields(Sequence[FieldReadings]):
    """A sequence of the readings of fields, for a class that has their number and yields those from one field to before
    another."""

    @abc.abstractmethod
    def _readings(self, begin: int, end: int) -> Iterator[FieldReadings]: ...

    def __iter__(self) -> Iterator[FieldReadings]:
        return self._readings(0, len(self))

    @overload
    def __getitem__(self, index: int) -> FieldReadings: ...

    @overload
    def __getitem__(self, index: slice) -> List[FieldReadings]: ...

    def __getitem__(self, index: Union[int, slice]) -> Union[FieldReadings, List[FieldReadings]]:
        count = len(self)
        if isinstance(index, slice):
            wanted = range(count)[index]
            return list(self._readings(wanted.start, wanted.stop)) if wanted.step == 1 else [self[i] for i in wanted]
        number = operator.index(index)
        if not -count <= number < count:
            raise IndexError("field %d of a stream of %d fields" % (number, count))
        return next(self._readings(number % count, number % count + 1))


class PackedFields(Fields):
    """The readings of fields as the library writes them, in `data`: 24 bytes a field. It is a sequence of the
    `FieldReadings` of these fields, each of which is made when it is asked for. `words`, `passes` and `causes` take one
    part of all fields at once, in a tenth of the time."""

    def __init__(self, data: bytes) -> None:
        self.data = data

    @classmethod
    def of(cls, readings: Iterable[FieldReadings]) -> "PackedFields":
        """The same readings, packed."""
        if isinstance(readings, PackedFields):
            return cls(readings.data)
        return cls(b"".join([PACKED_FIELD.pack(*one, *two, *three) for one, two, three in readings]))

    def __len__(self) -> int:
        return len(self.data) // PACKED_FIELD.size

    def _readings(self, begin: int, end: int) -> Iterator[FieldReadings]:
        return unpacked(self.data[PACKED_FIELD.size * begin:PACKED_FIELD.size * end])

    def __eq__(self, other: object) -> bool:
        return isinstance(other, Sequence) and list(self) == list(other)

    def words(self) -> List[Tuple[int, int, int]]:
        """The words of lines 16, 17 and 18 of each field."""
        halves = array.array("I", self.data)  # of each line its first four bytes and its word
        return list(zip(halves[1::6], halves[3::6], halves[5::6]))

    def words_on(self, line: int) -> "array.array[int]":
        """The words of line 16, 17 or 18 of each field."""
        return array.array("I", self.data)[2 * (line - 16) + 1::6]

    def passes(self) -> List[Tuple[int, int, int]]:
        """The passes of the three lines of each field."""
        return list(zip(self.data[1::24], self.data[9::24], self.data[17::24]))

    def causes(self) -> List[Tuple[str, str, str]]:
        """The causes of the three lines of each field, as `cause_text` has them."""
        halves = array.array("I", self.data)
        return list(map(_CauseTexts().__getitem__, zip(halves[::6], halves[2::6], halves[4::6])))


class _CauseTexts(Dict[Tuple[int, int, int], Tuple[str, str, str]]):
    """Of the first four bytes of each line of a field, as numbers, the texts of their causes: many fields have the
    same."""

    def __missing__(self, halves: Tuple[int, int, int]) -> Tuple[str, str, str]:
        one, two, three = map(_cause_text_of, halves)
        self[halves] = texts = one, two, three
        return texts


def _cause_text_of(half: int) -> str:
    cause, pass_, column, word = PACKED_LINE.unpack(struct.pack("=II", half, 0))
    return cause_text(Reading(_CAUSES[cause], pass_, column, word))


def draw_line(word: int, system: AnySystem, black: int, white: int) -> bytes:
    """The samples of a line that shows the word, or of a blank line for 0."""
    setup = setup_of(system, black, white)
    size = line_bytes(system)
    out = ctypes.create_string_buffer(size)
    setup.check(library().ldvbi_draw_line(*setup, number_of("word", word), out, size))
    return out.raw


def cause_text(reading: Reading) -> str:
    """What a line shows, as the document of `ldvbi extract` has it: `word`, `blank`, `change 170`."""
    if reading.cause >= len(_CAUSE_NAMES):
        raise unknown_cause(reading.cause)
    name = _CAUSE_NAMES[reading.cause]
    return "%s %d" % (name, reading.column) if reading.cause >= _FIRST_WITH_COLUMN else name


def unknown_cause(number: int) -> ValueError:
    """The exception for a cause of a later library, for which no text is known here."""
    return ValueError("the library's cause %d is not known here" % number)
