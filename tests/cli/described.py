"""Makes lines of a TBC stream, or where FIELDS is 1 fields, whose samples are low or high: those of the system's usual
levels, or BLACK and WHITE. An input line describes a line, or lines 16, 17 and 18 of a field, with | between them. A
line is described by parts with a space between, and filled up with lows:
  L14 H20       fourteen low columns, then twenty high ones
  82CFFF        this word, drawn
  FFFFFF/11/47  the first 47 half cells of this word, each of 11 columns
  @170-171L     columns 170 to 171, counted from 0, are low (H: high), whatever stood there
  -             nothing

usage: described.py SYSTEM FIELDS [BLACK WHITE] < DESCRIPTIONS"""
import re
import sys

# The columns and the lines of a field, and where words begin; samples of a half cell, as a fraction; and levels
WIDTH, HEIGHT, START, RATE, OVER, *LEVELS = {
    "NTSC": (910, 263, 150, 315, 22, 16384, 51200), "PAL": (1135, 313, 190, 709379, 40000, 16384, 54016)}[sys.argv[1]]
LOW, HIGH = (int(level).to_bytes(2, "little") for level in sys.argv[3:] or LEVELS)


def halves(word, count=48, columns=None):
    """A one is low, then high; a zero is high, then low."""
    bits = format(int(word, 16), "024b")
    return "".join("LH"[int(bits[half // 2]) == half % 2] * (columns or (half + 1) * RATE // OVER - half * RATE // OVER)
                   for half in range(count))


def line(description):
    text = ""
    for part in description.split():
        if re.fullmatch("[LH][0-9]+", part):
            text += part[0] * int(part[1:])
        elif part[0] == "@":
            first, last = map(int, part[1:-1].split("-"))
            text = text.ljust(WIDTH, "L")
            text = text[:first] + part[-1] * (last + 1 - first) + text[last + 1:]
        elif "/" in part:
            word, columns, count = part.split("/")
            text += halves(word, int(count), int(columns))
        elif part != "-":
            text += "L" * START + halves(part)
    return b"".join(HIGH if level == "H" else LOW for level in text.ljust(WIDTH, "L"))


for row in sys.stdin:
    lines = list(map(line, row.rstrip("\n").split("|")))
    black = line("-")
    sys.stdout.buffer.write(black * 15 + b"".join(lines) + black * (HEIGHT - 18) if sys.argv[2] == "1" else lines[0])
