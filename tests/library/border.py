"""What the tests share that call the library from Python: calls, structs and numbers of include/ldvbi.h; memory that
ends where a page begins that can't be touched, so that a look past it ends Python by a signal; and what was wrong."""

import ctypes
import functools
import mmap
import os
import pathlib
import re
import struct
import sys
import types

_SYSTEM = ctypes.CDLL(None)
HEADER = pathlib.Path(__file__).parents[2].joinpath("include/ldvbi.h").read_text("ascii")
HEADER = re.sub(r"/\*.*?\*/", "", HEADER, flags=re.S)  # without its comments
_TYPES = {"uint32_t": ctypes.c_uint32, "size_t": ctypes.c_size_t}
_wrong = []

# The header's numbers, by their names without LDVBI_
NUMBERS = types.SimpleNamespace(**{
    name: int(number) for name, number in re.findall(r"\bLDVBI_(\w+) = (\d+)", HEADER)})


def named(*names):
    """The numbers of these names, whatever their case."""
    return [getattr(NUMBERS, name.upper()) for name in names]


# The types of each struct's members, those of structs in it with them, and its members, in the order in which the tests
# give and take them
_MEMBERS = {
    "Reading": "BBHI cause pass column word", "FieldReadings": "BBHIBBHIBBHI lines",
    "Near": "IIQQQ word start distance rival longer", "Erased": "IIII field line first last",
    "Record": "I448s length text", "Code": "III kind first second", "Clock": "III kind period phase",
    "SideRule": "IIIIIII system counted pace both clock",
    "Capture": "NN first fields", "Stretch": "NNNII field fields capture number padding", "Checked": "NI stretch rule",
    "Sighting": "II number weight", "Sightings": "IIIII line_17 line_18 instead", "Number": "II number state",
    "Place": "NN field looked", "Neighbour": "NII field number",
    "Sought": "NIIIINIINII field number pace looked before after",
    "Gap": "NNQQIII after before fields shown from to kind",
    "Tally": "NQQQQNQQQQQQQ gaps lost held stood stills still_end back joined open_gaps lost_numbers undecided unread "
             "inserted",
    "Side": "NQQQQNQQQQQQQNNNNNII tally first last swap padded blank verdict reasons"}
_LETTERS = {"uint8_t": "B", "uint16_t": "H", "uint32_t": "I", "uint64_t": "Q", "size_t": "N"}


@functools.cache
def layout(name):
    """The struct Ldvbi.. of this name, in which the members of structs stand in their place."""
    types_of = _types(name)
    return struct.Struct(types_of + "0Q" * bool({*"NQ"} & {*types_of}))


def _types(name):
    types_of, members = "", []
    for kind, names in re.findall(r"(\w+) ([^;]+);", re.search(r"struct Ldvbi%s {(.*?)}" % name, HEADER, re.S)[1]):
        for member, count in re.findall(r"(\w+)(?:\[(\d+)\])?", names):
            one = _LETTERS.get(kind) or _types(kind[5:])
            types_of += count + "s" if count and one == "B" else one * int(count or 1)
            members.append(member)
    expect([types_of, *members] == _MEMBERS[name].split(), "the members of", name, "are", types_of, *members)
    return types_of


@functools.cache
def parameters(name):
    """The name, the type, and whether it is a pointer, of each parameter of a call."""
    taken = re.search(r"ldvbi_%s\(([^)]+)\);" % name, HEADER)[1]
    return [(one.split()[-1].strip("*"), re.sub("const |Ldvbi", "", one).split()[0], "*" in one)
            for one in taken.split(",")]


@functools.cache
def call(name):
    """A call of the library, as the header declares it."""
    function = getattr(ctypes.CDLL(os.environ["LDVBI_LIBRARY"]), "ldvbi_" + name)
    function.argtypes = [ctypes.c_void_p if is_pointer else _TYPES[kind] for _, kind, is_pointer in parameters(name)]
    function.restype = _TYPES[re.search(r"(\w+) ldvbi_%s\(" % name, HEADER)[1]]
    return function


def expect(is_right, *what):
    """Says what isn't right, and counts it."""
    if not is_right:
        _wrong.append(what)
        print(*what, file=sys.stderr)


def finish():
    """Looks at each struct, prints how much was wrong, and ends with the status that says so."""
    for name in re.findall(r"struct Ldvbi(\w+) {", HEADER):
        layout(name)
    print(len(_wrong), "wrong")
    sys.exit(bool(_wrong))


def protect(address, size, protection=0):
    """The pages of these bytes can't be touched any more, or as is said."""
    before = address % mmap.PAGESIZE
    if _SYSTEM.mprotect(ctypes.c_void_p(address - before), ctypes.c_size_t(size + before), protection):
        raise OSError("mprotect")


class Guarded:
    """Room for so many bytes, after which no page follows."""

    def __init__(self, size):
        self.pages = -(-size // mmap.PAGESIZE) * mmap.PAGESIZE
        self._map = mmap.mmap(-1, self.pages + mmap.PAGESIZE)
        self.end = ctypes.addressof(ctypes.c_char.from_buffer(self._map)) + self.pages
        protect(self.end, mmap.PAGESIZE)

    def put(self, data):
        """Puts these bytes at the end. Returns their address."""
        ctypes.memmove(self.end - len(data), data, len(data))
        return self.end - len(data)

    def get(self, size):
        """The last bytes."""
        return ctypes.string_at(self.end - size, size)
