#!/usr/bin/env python3
"""Says how much of a file the system fetches for a command, read or not, and how long the command takes. The file is
put out of memory before: what is in memory afterwards was fetched (util-linux' `fincore`), if memory was enough. Of a
file without holes the blocks that came from its disk say the same.

    truncate -s 50G side.tbc    # and lines 16 to 18 of each field: the holes between are fetched like what is written
    python3 bench/fetched.py side.tbc ./player side.tbc NTSC 16384 51200 search 12345
"""

import os
import resource
import subprocess
import sys
import time


def bytes_in_memory(path):
    """How many bytes of the file's pages are in memory."""
    asked = ["fincore", "--bytes", "--noheadings", "--output", "RES", path]
    return int(subprocess.run(asked, check=True, stdout=subprocess.PIPE).stdout)


def put_out(path):
    """Puts the file out of memory."""
    with open(path, "rb") as file:
        os.fsync(file.fileno())
        os.posix_fadvise(file.fileno(), 0, 0, os.POSIX_FADV_DONTNEED)
    left = bytes_in_memory(path)
    if left:
        raise OSError("%d bytes of %s stay in memory" % (left, path))


def main():
    path, *command = sys.argv[1:]
    put_out(path)
    begin = time.perf_counter()
    status = subprocess.run(command, check=False).returncode
    seconds = time.perf_counter() - begin
    blocks = resource.getrusage(resource.RUSAGE_CHILDREN).ru_inblock
    print("%.2f GB of %.2f GB in memory, %.2f GB from a disk, %.2f s, status %d"
          % (bytes_in_memory(path) / 1e9, os.path.getsize(path) / 1e9, 512 * blocks / 1e9, seconds, status))


if __name__ == "__main__":
    main()
