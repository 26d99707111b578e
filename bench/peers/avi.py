"""Writes fields of an NTSC stream as an AVI file that MAME's chdman takes for a LaserDisc: frames of 720 by 524 pixels
of two fields each, uncompressed (YUY2), at 13.5 MHz."""

import functools
import struct

WIDTH, FIELD_HEIGHT = 720, 262
FRAME_BYTES = WIDTH * 2 * FIELD_HEIGHT * 2

NTSC_RATE = 315 / 22


@functools.lru_cache(maxsize=None)
def columns_of(rate):
    """The columns of a line of this rate in MHz at which a line of 13.5 MHz has its pixels: the first one 122 pixels
    after the line's start, as in ITU-R BT.601."""
    return [(pixel + 122) * rate / 13.5 for pixel in range(WIDTH)]


def pixels_of(line, rate=NTSC_RATE):
    """A line of 8-bit samples as pixels, by linear interpolation; the colour bytes are neutral."""
    pixels = bytearray(b"\x00\x80" * WIDTH)
    for pixel, column in enumerate(columns_of(rate)):
        left = int(column)
        rest = column - left
        pixels[2 * pixel] = round(line[left] * (1 - rest) + line[left + 1] * rest)
    return pixels


def frame_of(fields, black, rate):
    """A frame of two fields, each three lines: those are lines 16, 17 and 18, which MAME finds in rows of these
    numbers. Rows of the two fields take turns."""
    frame = bytearray(bytes((black, 0x80)) * (FRAME_BYTES // 2))
    for parity, lines in enumerate(fields):
        for number, line in zip((16, 17, 18), lines):
            start = (2 * number + parity) * WIDTH * 2
            frame[start:start + WIDTH * 2] = pixels_of(line, rate)
    return bytes(frame)


def chunk(name, data):
    return name + struct.pack("<I", len(data)) + data


def headers(frames):
    """The AVI's headers, for 30000/1001 frames a second and no sound."""
    size = (WIDTH, 2 * FIELD_HEIGHT)
    main = struct.pack("<14I", 33367, FRAME_BYTES * 30, 0, 0x10, frames, 0, 1, FRAME_BYTES, *size, 0, 0, 0, 0)
    stream = struct.pack(
        "<4s4sIHH8I4H", b"vids", b"YUY2", 0, 0, 0, 0, 1001, 30000, 0, frames, FRAME_BYTES, 0xFFFFFFFF, 0, 0, 0, *size
    )
    form = struct.pack("<IiiHH4sIiiII", 40, *size, 1, 16, b"YUY2", FRAME_BYTES, 0, 0, 0, 0)
    streams = chunk(b"LIST", b"strl" + chunk(b"strh", stream) + chunk(b"strf", form))
    return chunk(b"LIST", b"hdrl" + chunk(b"avih", main) + streams)


def write(path, fields, black, rate=NTSC_RATE):
    """Writes the fields, an even number of them, each a list of three lines of 8-bit samples. Lines of PAL, with their
    rate, go into frames of NTSC as well."""
    frames = len(fields) // 2
    head = headers(frames)
    movie = 4 + frames * (8 + FRAME_BYTES)
    index = b"".join(
        b"00dc" + struct.pack("<III", 0x10, 4 + frame * (8 + FRAME_BYTES), FRAME_BYTES) for frame in range(frames)
    )
    with open(path, "wb") as file:
        file.write(b"RIFF" + struct.pack("<I", 4 + len(head) + 8 + movie + 8 + len(index)) + b"AVI " + head)
        file.write(b"LIST" + struct.pack("<I", movie) + b"movi")
        for frame in range(frames):
            file.write(chunk(b"00dc", frame_of(fields[2 * frame:2 * frame + 2], black, rate)))
        file.write(chunk(b"idx1", index))
