"""A TBC file in which only lines 16, 17 and 18 of each field are read. If a mapped file becomes shorter, a signal ends
the process. If a file that is read in this way becomes shorter, that is a fault with its name."""

import ctypes
import errno
import mmap
import os
import stat
from typing import List, Optional, Union

_ADVISE = getattr(os, "posix_fadvise", None)  # not every system has it


class File:
    """A file, and how many bytes it had when it was opened. Reading from it after it is closed raises a ValueError."""
    _file: Optional[int] = None

    def __init__(self, path: Union[str, "os.PathLike[str]"]) -> None:
        # a pipe that stands in the place of a file would have the process wait
        self._file = os.open(path, os.O_RDONLY | os.O_CLOEXEC | os.O_NONBLOCK)
        self._path = os.fspath(path)
        self._mapped: Optional[mmap.mmap] = None
        status = os.fstat(self._file)
        if not stat.S_ISREG(status.st_mode):
            self.close()
            if stat.S_ISDIR(status.st_mode):
                raise IsADirectoryError(errno.EISDIR, os.strerror(errno.EISDIR), self._path)
            raise ValueError("%s is no file that can be mapped" % path)
        self.size = status.st_size
        if _ADVISE is not None:
            # Few bytes of a field are wanted, so the system shall not read ahead on its own.
            _ADVISE(self._file, 0, 0, os.POSIX_FADV_RANDOM)

    def fetch(self, begin: int, length: int) -> None:
        """Has the system fetch these bytes, without waiting for them."""
        if _ADVISE is not None:
            _ADVISE(self._opened(), begin, length, os.POSIX_FADV_WILLNEED)

    def read(self, begin: int, length: int) -> bytes:
        """These bytes."""
        found = os.pread(self._opened(), length, begin)
        while len(found) < length:
            more = os.pread(self._opened(), length - len(found), begin + len(found))
            if not more:
                raise ValueError("%s became shorter while it was read" % self._path)
            found += more
        return found

    def mapped(self) -> mmap.mmap:
        """All bytes of the file in memory, for a call that needs them."""
        if self._mapped is None:
            self._mapped = mmap.mmap(self._opened(), self.size, access=mmap.ACCESS_READ)
            self._mapped.madvise(mmap.MADV_RANDOM)
        return self._mapped

    def close(self) -> None:
        if self._file is not None:
            os.close(self._file)
            self._file = None

    __del__ = close

    def _opened(self) -> int:
        if self._file is None:
            raise ValueError("the stream is closed")
        return self._file


class Window:
    """Memory for some fields of a file, for calls of the library that take whole fields. Lines other than 16, 17 and 18
    are never written, and take no room."""

    def __init__(self, file: File, fields: int, line: int, field: int) -> None:
        self._file, self._line, self._field = file, line, field
        self._memory = mmap.mmap(-1, fields * field)
        view = memoryview(self._memory)
        self._rows: List[memoryview] = [view[begin:begin + 3 * line]
                                        for begin in range(15 * line, fields * field, field)]
        self.address = ctypes.addressof(ctypes.c_char.from_buffer(self._memory))

    def read(self, first: int, last: int) -> None:
        """Reads the lines of these fields."""
        for row, field in zip(self._rows, range(first, last)):
            row[:] = self._file.read(field * self._field + 15 * self._line, 3 * self._line)
