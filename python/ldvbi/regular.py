"""Opens files that were found, and that nobody has named. If something else stands in the place of one, nothing waits
for it."""

import os
import stat


def regular(path: str, flags: int) -> int:
    """Opens a file, as the `opener` of `open`. If a pipe or a device stands in its place, for whose other end the
    process might wait for ever, this raises a ValueError. A socket can't be opened at all, and `open` itself refuses a
    folder."""
    file = os.open(path, flags | os.O_NONBLOCK | os.O_CLOEXEC)
    mode = os.fstat(file).st_mode
    if stat.S_ISREG(mode) or stat.S_ISDIR(mode):
        return file
    os.close(file)
    raise ValueError("%s is no file" % path)
