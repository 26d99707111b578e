"""Streams of fields: TBC files and buffers. Each field is read when it is asked for."""

import ctypes
import os
import struct
import threading
from typing import Any, Iterable, Iterator, List, Optional, Tuple

from .dropouts import Dropouts, refuse_dropouts
from .library import System, later_call, library, setup_of
from .readings import PACKED_FIELD, AnySystem, Cut, FieldReadings, Fields, field_bytes, line_bytes, unpacked
from .rows import File, Window
from .samples import Samples

BLOCK = 64  # fields in a call of the library; the lines of this many more are fetched ahead from a file

_PACKED_RECORD = struct.Struct("=I448s")  # LdvbiRecord of ldvbi.h
# The field, the line, the first column and the last column of each dropout of a stream; all but the line count from 0
StreamDropouts = Optional[Iterable[Tuple[int, int, int, int]]]


class Use:
    """A `with` block in which a stream's file and memory stay, even if another thread closes it meanwhile."""

    def __init__(self, stream: "Stream") -> None:
        self._stream = stream

    def __enter__(self) -> None:
        self._stream._begin_use()

    def __exit__(self, *_: object) -> None:
        self._stream._end_use()


class Stream(Fields):
    """A stream of fields: a TBC file, given by its path, or a buffer. It is a sequence of the `FieldReadings` of its
    whole fields: it has a length, an index from 0 (or from -1, backwards), slices, which are lists, and a loop over all
    of them. Each field is read when it is asked for. `cut_bytes` is the number of bytes past the last whole field.

    With `recover` a worn line has its nearest word, of pass 3, if no other is near, and a word of pass 2 stays only if
    it is the nearest one. ldvbi_recover_rows in ldvbi.h has the rule. `dropouts` are columns that count for no nearest
    word. Each is given by its field, counted as the stream's index, its line, its first column and its last, counted
    from 0.

    Only lines 16, 17 and 18 are read from a file, and a loop has the system fetch those of the next fields ahead. If
    the file is made shorter meanwhile, asking for a field that has gone raises a ValueError that says so. But `seek`
    maps the file, and a mapped file that is made shorter ends the process by SIGBUS. `close`, or the end of a `with`
    block, releases the file or buffer. After that, asking for a field raises a ValueError. Threads may share a stream,
    and any of them may close it: what another one is reading then is released when that call ends."""

    def __init__(self, source: Any, system: AnySystem, black: int, white: int, recover: bool = False,
                 dropouts: StreamDropouts = None) -> None:
        refuse_dropouts(recover, dropouts)
        self._lock, self._is_open, self._uses = threading.RLock(), True, 0
        self._setup = setup_of(system, black, white)
        self._recovers, read = recover, library().ldvbi_read_fields
        self._read = later_call("ldvbi_recover_fields") if recover else read
        self._setup.check(read(*self._setup, None, 0, None, 0))
        self.system, self.black, self.white = System(self._setup.system), self._setup.black, self._setup.white
        self.recover = recover
        self._line, self._size = line_bytes(self.system), field_bytes(self.system)
        self._file: Optional[File] = None
        self._samples: Optional[Samples] = None
        if isinstance(source, (str, os.PathLike)):
            self._file = File(source)
            self._bytes = self._file.size
        elif isinstance(source, bytes) and 0 < len(source) < self._line:
            raise ValueError("%d bytes are less than a line; a path is a str or a path object, as os.fsdecode makes of "
                             "bytes" % len(source))
        else:
            self._samples = Samples(source)
            self._bytes = self._samples.length
        self._count, self.cut_bytes = divmod(self._bytes, self._size)
        self.dropouts = Dropouts(dropouts, self._count)

    def close(self) -> None:
        with self._lock:
            self._is_open = False
            if not self._uses:
                self._release()

    def _release(self) -> None:
        if self._samples is not None:
            self._samples.release()
            self._samples = None
        if self._file is not None:
            self._file.close()
            self._file = None

    def __enter__(self) -> "Stream":
        return self

    def __exit__(self, *_: object) -> None:
        self.close()

    def __len__(self) -> int:
        return self._count

    def _readings(self, begin: int, end: int) -> Iterator[FieldReadings]:
        for block in self.packed(begin, end):
            yield from unpacked(block)

    @property
    def size(self) -> int:
        """The bytes of the stream, including a cut last field."""
        self._refuse_closed()
        return self._bytes

    def rows(self, index: int) -> bytes:
        """The samples of lines 16, 17 and 18 of a field, counted from 0, as `read_rows` takes them."""
        return self.rows_as(self.system, range(self._count)[index])

    def rows_as(self, system: System, field: int) -> bytes:
        """The same for a whole field, if the stream were one of this system."""
        line, size = line_bytes(system), field_bytes(system)
        self._refuse_closed()
        if not 0 <= field < self._bytes // size:
            raise IndexError("field %d of a stream of %d fields" % (field, self._bytes // size))
        begin = field * size + 15 * line
        with Use(self):
            if self._file is not None:
                return self._file.read(begin, 3 * line)
            return ctypes.string_at(self._memory().address + begin, 3 * line)

    def arguments(self) -> Tuple[int, int, int, int, int]:
        """What the library's calls get of the stream: its system, black and white, its address, and its length. This
        maps a file. The address holds as long as a `Use` of the stream."""
        samples = self._memory()
        return self._setup.system, self._setup.black, self._setup.white, samples.address, samples.length

    def _memory(self) -> Samples:
        """All bytes of the stream. They stay where they are as long as a `Use` of the stream."""
        with self._lock:
            self._refuse_closed()
            if self._samples is None:
                assert self._file is not None
                self._samples = Samples(self._file.mapped() if self._bytes else b"")
            return self._samples

    def _refuse_closed(self) -> None:
        if not self._is_open:
            raise ValueError("the stream is closed")

    def _begin_use(self) -> None:
        with self._lock:
            self._refuse_closed()
            self._uses += 1

    def _end_use(self) -> None:
        with self._lock:
            self._uses -= 1
            if not self._is_open and not self._uses:
                self._release()

    def packed(self, begin: int, end: int) -> Iterator[Any]:
        """Yields the readings of the fields from `begin` to before `end` in blocks, as the library writes them: three
        readings a field, of 8 bytes each, `struct`'s "=BBHI": cause, pass, column and word."""
        self._refuse_closed()
        window = None
        for first, last in self._ahead(begin, end):
            with Use(self):
                if self._file is None:
                    address = self._memory().address + first * self._size
                else:
                    window = window or Window(self._file, min(BLOCK, end - begin), self._line, self._size)
                    window.read(first, last)
                    address = window.address
                block = self._packed_block(address, first, last)
            yield block

    def _ahead(self, begin: int, end: int) -> Iterator[Tuple[int, int]]:
        """Yields the first field of each block of these, and the one after it. Of a file the system fetches the lines
        of the next block meanwhile."""
        self._fetch(begin, min(begin + BLOCK, end))
        for first in range(begin, end, BLOCK):
            last = min(first + BLOCK, end)
            self._fetch(last, min(last + BLOCK, end))
            yield first, last

    def _fetch(self, first: int, last: int) -> None:
        with Use(self):
            if self._file is not None:
                for field in range(first, last):
                    self._file.fetch(field * self._size + 15 * self._line, 3 * self._line)

    def records(self) -> Iterator[List[str]]:
        """Yields the records of all fields in the document with recovered words, version 3, as the library writes them,
        in blocks. The words are recovered with the stream's dropouts left out, whether `recover` is given or not."""
        return self._records(later_call("ldvbi_recovered_record"))

    def _records(self, write: Any) -> Iterator[List[str]]:
        for first, last in self._ahead(0, self._count):
            yield [self._record(write, field) for field in range(first, last)]

    def _record(self, write: Any, field: int) -> str:
        out = ctypes.create_string_buffer(_PACKED_RECORD.size)
        erased = self.dropouts.packed(field, field + 1)
        self._setup.check(write(*self._setup, field + 1, self.rows(field), 3 * self._line, *erased, out))
        length, text = _PACKED_RECORD.unpack(out)
        return text[:length].decode()

    def _packed_block(self, address: int, first: int, last: int) -> Any:
        """What the library reads of the fields from the first one on to before the last one, which stand there."""
        count = last - first
        out = ctypes.create_string_buffer(PACKED_FIELD.size * count)
        erased = self.dropouts.packed(first, last) if self._recovers else ()
        self._setup.check(self._read(*self._setup, address, count * self._size, *erased, out, count))
        return out


def fields(source: Any, system: AnySystem, black: int, white: int, recover: bool = False,
           dropouts: StreamDropouts = None) -> Iterator[FieldReadings]:
    """Yields the readings of each whole field, as `Stream` has them, of a TBC file, given by its path, or of a buffer.
    Bytes past the last whole field are left out."""
    return iter(Stream(source, system, black, white, recover, dropouts))


def cut_of(stream: Stream) -> Optional[Cut]:
    """The field inside which a stream ends, or None."""
    return Cut(len(stream) + 1, stream.cut_bytes) if stream.cut_bytes else None
