"""The memory of Python objects that hold samples: anything with the buffer protocol that has 16-bit samples, the low
byte first, or raw bytes."""

import ctypes
import io
import mmap
from typing import Any

# memoryview.format of unsigned 16-bit samples with the low byte first: this machine's own order is that one.
_SAMPLES = ("H", "@H", "=H", "<H")
_CHARACTERS = ("c", "<c")
_BYTES = ("B", "@B", "=B", "<B")
# What holds a file's bytes as they are. Any other object with items of 8 bits holds numbers, which would be samples of
# 8 bits.
_RAW = (bytes, bytearray, mmap.mmap, type(io.BytesIO().getbuffer().obj))


class _Buffer(ctypes.Structure):
    """Py_buffer of CPython's C interface."""
    _fields_ = list(zip(
        "address owner length item readonly dimensions format shape strides suboffsets internal".split(),
        [ctypes.c_void_p, ctypes.py_object, ctypes.c_ssize_t, ctypes.c_ssize_t, ctypes.c_int, ctypes.c_int,
         ctypes.c_char_p, ctypes.c_void_p, ctypes.c_void_p, ctypes.c_void_p, ctypes.c_void_p]))


_get_buffer = ctypes.pythonapi.PyObject_GetBuffer
_get_buffer.argtypes = [ctypes.py_object, ctypes.POINTER(_Buffer), ctypes.c_int]
_release_buffer = ctypes.pythonapi.PyBuffer_Release
_release_buffer.argtypes = [ctypes.POINTER(_Buffer)]
_release_buffer.restype = None


class Samples:
    """The bytes of an object that holds samples: `address` and `length`. They stay where they are, and the object keeps
    its size, until `release`."""

    def __init__(self, source: Any) -> None:
        try:
            self._view = memoryview(source)
        except TypeError:
            raise ValueError("samples are not bytes, but of the type %s" % type(source).__name__) from None
        if not self._view.c_contiguous:
            raise ValueError("samples are not bytes in one piece")
        _check_kind(self._view)
        self.length = self._view.nbytes
        self.address = _address_of(self._view)

    def release(self) -> None:
        self._view.release()

    def __enter__(self) -> "Samples":
        return self

    def __exit__(self, *_: object) -> None:
        self.release()


def _check_kind(view):
    """Refuses items that aren't samples of 16 bits, the low byte first, and aren't raw bytes either."""
    kind = view.format
    if kind in _BYTES:
        if isinstance(view.obj, _RAW):
            return
        kind = memoryview(view.obj).format  # of bytes that are a view of other items, that of these
    if kind not in _SAMPLES and kind not in _CHARACTERS:
        raise ValueError("samples are of the format %s, not H (16 bits without sign, the low byte first)" % kind)


def _address_of(view):
    """The address of a view's first byte. It may be read-only, which ctypes' own from_buffer refuses."""
    buffer = _Buffer()
    _get_buffer(view, buffer, 0)
    address = buffer.address
    _release_buffer(buffer)
    return address
