#!/usr/bin/env python3
"""Makes the pictures of docs/FORMATS.md: a drawn 82CFFF, two things that can happen to it, and the same line worn out,
with the row of its nearest word. The modules `ldvbi` and `ldvbi_side` have to be on PYTHONPATH.

usage: python3 docs/pictures/make.py FOLDER"""

import os
import sys

import ldvbi
from ldvbi_side.draw.line import Row, line_of, plot_of

NTSC, BLACK, WHITE = LEVELS = ldvbi.System.NTSC, 16384, 51200
WORD = 0x82CFFF
NEAR_170 = 140, 340  # columns
NOISE, DROPOUT = 24121, range(470, 490)  # 40 % of the way from black to white, and columns


def with_columns(line: bytes, columns: range, sample: int) -> bytes:
    """The line with this sample in each of the columns."""
    return line[:2 * columns.start] + len(columns) * sample.to_bytes(2, "little") + line[2 * columns.stop:]


def worn(line: bytes) -> bytes:
    """The line with noise, the same each time, and with a black dropout."""
    samples, number = [], 1
    for column in range(0, len(line), 2):
        sample = int.from_bytes(line[column:column + 2], "little")
        for _ in range(4):  # a sum of four even numbers is nearly normal
            number = number * 1103515245 + 12345 & 0x7FFFFFFF
            sample += (number >> 15) * NOISE // 65535 - NOISE // 2
        samples.append(min(max(sample, 0), 65535))
    return with_columns(b"".join(sample.to_bytes(2, "little") for sample in samples), DROPOUT, BLACK)


def pictures():
    """The pictures by their names."""
    def plotted(line, title, **more):
        return plot_of(line_of(line, *LEVELS, ldvbi.read_line(line, *LEVELS)), title, **more)

    line = ldvbi.draw_line(WORD, *LEVELS)
    near = ldvbi.nearest(worn(line), *LEVELS)
    return {
        "word": plotted(line, "A drawn 82CFFF"),
        "second-reading": plotted(with_columns(line, range(170, 172), BLACK), "Columns 170 and 171 black",
                                  columns=NEAR_170),
        "change-170": plotted(with_columns(line, range(170, 175), BLACK), "Columns 170 to 174 black", columns=NEAR_170),
        "nearest": plotted(worn(line), "Noise of 40 %, and a dropout from column 470 to 489",
                           row=Row(near.word, near.start))}


if __name__ == "__main__":
    for name, text in pictures().items():
        with open(os.path.join(sys.argv[1], name + ".svg"), "w", encoding="utf-8") as file:
            file.write(text)
