"""Recognizes compressed files, which aren't video, by their first bytes."""

import re
from typing import Optional

# What of the header has one value alone is looked at, too: the first two bytes of gzip may be a sample.
_BEGINS = {"gzip": re.compile(rb"\x1f\x8b\x08[\x00-\x1f]"), "zstd": re.compile(rb"\x28\xb5\x2f\xfd"),
           "xz": re.compile(rb"\xfd7zXZ\x00"), "bzip2": re.compile(rb"BZh[1-9]1AY&"),
           "lzma": re.compile(rb"\x5d\x00\x00[\x00-\xff][\x00-\x0f]\xff{3}"), "zip": re.compile(rb"PK\x03\x04"),
           "FLAC": re.compile(rb"fLaC[\x00\x80]\x00\x00\x22")}
# With what the names of such files end
ENDS = (".gz", ".zst", ".xz", ".bz2", ".lzma", ".zip", ".flac")


def packed_as(begin: bytes) -> Optional[str]:
    """The form of a compressed file that begins with these bytes, 8 or more; None if it isn't compressed."""
    return next((name for name, pattern in _BEGINS.items() if pattern.match(begin)), None)


def refuse_packed(path: str, begin: bytes) -> None:
    """Raises a ValueError that names the file if it begins with these bytes, 8 or more, and is compressed."""
    packed = packed_as(begin)
    if packed:
        raise ValueError("%s: it is compressed (%s): unpack it first" % (path, packed))
