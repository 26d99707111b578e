"""The library libldvbi.so: where it is, its calls, and its refusals as exceptions. It is loaded when it is first
called."""

import contextlib
import ctypes
import enum
import functools
import os
import sys
from typing import Any, Dict, List, NamedTuple, Tuple

from .classes import whole_number

ABI = 3
# statuses
(BAD_SYSTEM, BAD_LEVELS, BAD_LENGTH, BAD_WORD, BAD_COUNTED, BAD_PACE, BAD_ERASED, BAD_LINE,
 BAD_KNOWN, BAD_CLOCK) = range(1, 11)

_NO_SYSTEM = "system is neither NTSC nor PAL"
_TEXTS = {BAD_SYSTEM: _NO_SYSTEM, BAD_WORD: "number is no code word",
          BAD_COUNTED: "neither pictures nor times are counted",
          BAD_PACE: "pace is neither that of video nor of film, nor to be found",
          BAD_ERASED: "list of erased columns is not sorted, or has columns of no line",
          BAD_LINE: "line is none of 16, 17 and 18",
          BAD_KNOWN: "whether dropouts are known is neither 0 nor 1",
          BAD_CLOCK: "clock has no such kind, or its phase is not below its period"}
MOST = 0xFFFFFFFF  # of 32 bits
_MAKE = "`make lib` or `make rust` builds"


class System(enum.IntEnum):
    """A television system."""
    NTSC = 1
    PAL = 2


class Counted(enum.IntEnum):
    """Which numbers of a disc are judged: the picture numbers of a CAV disc, or the times of a CLV disc, as pictures
    from its beginning, 30 (NTSC) or 25 (PAL) a second."""
    pictures = 1
    times = 2


class Pace(enum.IntEnum):
    """How long the pictures of a disc last: two fields (video), or two and three fields by turns (film on NTSC). `find`
    takes that of film if pictures of NTSC are counted, and over a tenth more of their numbers are believed by it; else
    that of video."""
    video = 1
    film = 2
    find = 3


class Both(enum.IntEnum):
    """Whether a disc of video has its numbers on one field of each picture or on both. `find` takes both if a quarter
    or more of the believed numbers that follow another one stand an odd count of fields after it."""
    on_one = 0
    on_both = 1
    find = 3


# ---- Loading

def _library_file():
    """The file that the environment names, or one in a folder where it may be, or the one that the loader looks for."""
    package = os.path.dirname(os.path.abspath(__file__))  # where a wheel has it
    here = os.path.dirname(package)
    name = "libldvbi.so.%d" % ABI
    above = os.path.join(here, os.pardir)  # the top of the repository, where `make lib` puts it; `make rust` in rust/
    # as installed, the package is in PREFIX/share/ldvbi/python
    installed = os.path.join(above, os.pardir, os.pardir, "lib")
    folders = (package, here, above, os.path.join(above, "rust"), installed)
    places = [os.path.join(folder, name) for folder in folders]
    return os.environ.get("LDVBI_LIBRARY") or next((place for place in places if os.path.exists(place)), name)


_NUMBER, _SIZE, _MEMORY = ctypes.c_uint32, ctypes.c_size_t, ctypes.c_void_p
_SETUP = [_NUMBER] * 3
# The arguments of the calls that every library has; each of them returns a number.
_ARGUMENTS = {
    "ldvbi_abi": [],
    "ldvbi_read_line": _SETUP + [_MEMORY, _SIZE, _MEMORY],
    "ldvbi_read_rows": _SETUP + [_MEMORY, _SIZE, _MEMORY],
    "ldvbi_read_field": _SETUP + [_MEMORY, _SIZE, _MEMORY],
    "ldvbi_read_fields": _SETUP + [_MEMORY, _SIZE, _MEMORY, _SIZE],
    "ldvbi_draw_line": _SETUP + [_NUMBER, _MEMORY, _SIZE],
}
# Those of the calls that an older library may lack, and what it can't do then
_LATER: Dict[str, Tuple[str, List[Any]]] = {
    "ldvbi_version": ("say its version", []),
    "ldvbi_judge": ("judge numbers", [_NUMBER] * 3 + [_MEMORY, _SIZE] * 3),
    "ldvbi_judge_field": ("judge one field", [_NUMBER] * 3 + [_MEMORY, _SIZE, _SIZE, _MEMORY]),
    "ldvbi_seek": ("seek numbers", _SETUP + [_NUMBER] * 2 + [_MEMORY, _SIZE, _NUMBER, _MEMORY]),
    "ldvbi_find_pace": ("find paces", [_NUMBER] * 2 + [_MEMORY, _SIZE] * 2 + [_MEMORY]),
    "ldvbi_complete_times": ("complete times", [_NUMBER] + [_MEMORY, _SIZE] * 3),
    "ldvbi_judge_chapters": ("judge chapters", [_MEMORY, _SIZE] * 3),
    "ldvbi_seek_chapter": ("seek chapters", _SETUP + [_MEMORY, _SIZE, _NUMBER, _MEMORY]),
    "ldvbi_judge_stops": ("judge stops", [_MEMORY, _SIZE] * 2),
    "ldvbi_next_stop": ("seek stops", _SETUP + [_MEMORY] + [_SIZE] * 3 + [_MEMORY]),
    "ldvbi_judge_ends": ("judge whole sides", [_MEMORY, _SIZE] * 2),
    "ldvbi_find_both": ("judge whole sides", [_MEMORY, _SIZE]),
    "ldvbi_judge_side": ("judge whole sides", [_MEMORY, _NUMBER] + [_MEMORY, _SIZE] * 4 + [_MEMORY]),
    "ldvbi_find_clock": ("find clocks", [_MEMORY] + [_MEMORY, _SIZE, _MEMORY]),
    "ldvbi_set_aside": ("judge whole sides", [_MEMORY] + [_MEMORY, _SIZE] * 3 + [_MEMORY]),
    "ldvbi_check_plan": ("check plans", [_NUMBER, _SIZE, _NUMBER, _MEMORY] + [_MEMORY, _SIZE] * 3 + [_MEMORY]),
    "ldvbi_nearest": ("find nearest words", _SETUP + [_MEMORY, _SIZE, _MEMORY]),
    "ldvbi_recover_rows": ("recover words", _SETUP + [_MEMORY, _SIZE] * 2 + [_MEMORY]),
    "ldvbi_recover_fields": ("recover words", _SETUP + [_MEMORY, _SIZE] * 3),
    "ldvbi_recover_pile": ("recover words of piles", _SETUP + [_NUMBER] * 2 + [_MEMORY, _SIZE] * 2 + [_MEMORY]),
    "ldvbi_recovered_record": ("write the document with recovered words",
                               _SETUP + [_NUMBER] + [_MEMORY, _SIZE] * 2 + [_MEMORY]),
}


def _declared(calls, name, types):
    call = getattr(calls, name)
    call.restype, call.argtypes = _NUMBER, types
    return call


@functools.lru_cache(maxsize=None)
def library() -> ctypes.CDLL:
    """The library's calls. If there is no library that fits, an OSError says so in one line."""
    file = _library_file()
    try:
        calls = ctypes.CDLL(file)
        for name, types in _ARGUMENTS.items():
            _declared(calls, name, types)
    except (OSError, AttributeError) as error:
        raise OSError("no library to read and judge with (%s): %s it, LDVBI_LIBRARY names its file"
                      % (error, _MAKE)) from None
    if calls.ldvbi_abi() != ABI:
        raise OSError("%s has the interface %d, not %d: %s the one that fits, LDVBI_LIBRARY names its file"
                      % (file, calls.ldvbi_abi(), ABI, _MAKE))
    return calls


@functools.lru_cache(maxsize=None)
def later_call(name: str) -> Any:
    """A call of the library that an older one may lack. If this library lacks it, an OSError says so in one line; the
    library may still read samples."""
    calls = library()
    purpose, types = _LATER[name]
    try:
        return _declared(calls, name, types)
    except AttributeError:
        raise OSError("%s is too old to %s, it has no %s: %s a later one, LDVBI_LIBRARY names its file"
                      % (calls._name, purpose, name, _MAKE)) from None


# ---- What is loaded

_SAYS_FROM = 2000  # the version from which on a library that is plain Rust says so, by a call that no other one has


def library_text() -> str:
    """The library's version, how it was built, and its file. If there is no library that fits, an OSError says so."""
    calls = library()
    version = later_call("ldvbi_version")()
    built = "proved" if version >= _SAYS_FROM else "proved or plain Rust"
    if hasattr(calls, "ldvbi_plain_rust"):
        built = "plain Rust, not proved"
    return "library %d.%d.%d (%s): %s" % (version // 1000000, version // 1000 % 1000, version % 1000, built,
                                          _path_of(calls._name))


def _path_of(name):
    """The file that was loaded under this name, by which the system's loader may have found it."""
    if os.sep in name:
        return os.path.abspath(name)
    with contextlib.suppress(OSError), open("/proc/self/maps", encoding="utf-8", errors="surrogateescape") as maps:
        return next((line[line.index("/"):-1] for line in maps if line.endswith("/%s\n" % name)), name)
    return name


# ---- Arguments and refusals

def number_of(name: str, value: Any) -> int:
    """A whole number as the library takes it. A number outside 32 bits becomes 2^32 - 1, which is refused as well."""
    number = whole_number(name, value)
    return number if number in range(MOST) else MOST


def count_of(name: str, value: Any) -> int:
    """A count as the library takes it."""
    number = whole_number(name, value)
    if number < 0:
        raise ValueError("%s is %d" % (name, number))
    return min(number, sys.maxsize)


def _member_number(enumeration, value, refusal):
    """The number of a member of an enumeration, given by it or by its name."""
    if isinstance(value, str):
        value = enumeration.__members__.get(value)
    try:
        return number_of("number", value)
    except ValueError:
        raise ValueError(refusal) from None


def system_number(system: Any) -> int:
    """The number of a system, given by it or by its name."""
    return _member_number(System, system, _NO_SYSTEM)


def counted_number(counted: Any) -> int:
    """The number of what is counted, given by it or by its name."""
    return _member_number(Counted, counted, _TEXTS[BAD_COUNTED])


def pace_number(pace: Any) -> int:
    """The number of a pace, given by it or by its name."""
    return _member_number(Pace, pace, _TEXTS[BAD_PACE])


def both_of(both: Any) -> Both:
    """The `Both` of a number or a name. The library itself refuses no number."""
    refusal = "numbers are on one field of a picture or on both, or that is to be found"
    number = _member_number(Both, both, refusal)
    if number not in list(Both):
        raise ValueError(refusal)
    return Both(number)


def system_of(system: Any) -> System:
    """The `System` of a number or a name."""
    number = system_number(system)
    if number not in (System.NTSC, System.PAL):
        raise ValueError(_NO_SYSTEM)
    return System(number)


def check(status: int) -> None:
    """Raises a ValueError for a status by which a call refused its arguments."""
    if status:
        raise ValueError(_TEXTS.get(status) or "the library's status is %d" % status)


class Setup(NamedTuple):
    """The three numbers that a call begins with."""
    system: int
    black: int
    white: int

    def check(self, status: int) -> None:
        """Raises a ValueError for a status of a call with this setup."""
        if status == BAD_LEVELS:
            wide = [name for name in ("black", "white") if getattr(self, name) > 65535]
            raise ValueError("%s is not from 0 to 65535" % wide[0] if wide else "black is not below white")
        check(status)


def setup_of(system: Any, black: Any, white: Any) -> Setup:
    """The setup of these arguments. They are handed over as they are: the library refuses what is out of range."""
    return Setup(system_number(system), number_of("black", black), number_of("white", white))
