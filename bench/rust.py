#!/usr/bin/env python3
"""Times the Rust build (`make rust`) beside the proved one, in turn: the commands `extract` and `show` on a drawn
stream in memory, and the library on the lines of its fields, drawn and damaged.
usage: python3 bench/rust.py PROVED RUST    (the two folders that have program and library)

Prints for each the best times and their ratio, Rust to proved, and the medians."""
import ctypes
import pathlib
import statistics
import subprocess
import sys
import tempfile
import time

FIELDS = 240
ROUNDS = 21
SIZE = 910 * 2 * 263
OPTIONS = ["--system", "NTSC", "--black", "16384", "--white", "51200"]


def timed(work):
    began = time.perf_counter()
    work()
    return time.perf_counter() - began


def compare(name, unit, scale, proved, rust):
    """Runs both in turn, and prints what they took."""
    pairs = [(timed(proved), timed(rust)) for _ in range(ROUNDS)]
    one, other = (min(column) * scale for column in zip(*pairs))
    middle_of_one, middle_of_other = (statistics.median(column) * scale for column in zip(*pairs))
    print(f"rust {name}: best {other:.1f} {unit} beside {one:.1f} {unit} of the proved build, ratio {other / one:.2f}; "
          f"medians {middle_of_other:.1f}, {middle_of_one:.1f}")


def reader(folder, stream):
    """What reads all fields of a stream in one call of the library in this folder."""
    library = ctypes.CDLL(str(folder / "libldvbi.so.3"))
    count = len(stream) // SIZE
    readings = ctypes.create_string_buffer(24 * count)
    size = ctypes.c_size_t

    def read():
        if library.ldvbi_read_fields(1, 16384, 51200, stream, size(len(stream)), readings, size(count)) != 0:
            sys.exit("bench: the library refuses the stream")
        return readings.raw
    return read


def main(proved, rust):
    folders = [pathlib.Path(proved).resolve(), pathlib.Path(rust).resolve()]
    rows = "".join(f"82CFFF F{number:05} F{number:05}\n" for number in range(FIELDS)).encode()
    draw = [folders[0] / "ldvbi", "draw", *OPTIONS]
    drawn = subprocess.run(draw, input=rows, stdout=subprocess.PIPE, check=True).stdout
    # A change of level at a third of each line, which leaves it without a word
    damaged = bytearray(drawn)
    for start in range(0, len(damaged), 1820):
        damaged[start + 640:start + 648] = b"\xff\xff\x00\x00\xff\xff\xff\xff"
    for name, stream in (("a drawn line", drawn), ("a damaged line", bytes(damaged))):
        both = [reader(folder, stream) for folder in folders]
        if both[0]() != both[1]():
            sys.exit("bench: the libraries differ")
        compare(name, "ns", 1e9 / (3 * FIELDS), *both)
    shared = pathlib.Path("/dev/shm")
    with tempfile.NamedTemporaryFile(dir=shared if shared.is_dir() else None) as file:
        file.write(drawn)
        file.flush()
        for command in ("extract", "show"):
            def runner(folder, command=command):
                words = [folder / "ldvbi", command, *OPTIONS, file.name]
                return lambda: subprocess.run(words, stdout=subprocess.DEVNULL, check=True)
            compare(command, "ms", 1e3, *map(runner, folders))


main(*sys.argv[1:])
