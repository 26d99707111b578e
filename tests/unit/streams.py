"""Drawn lines and streams for the tests, and where the repository's parts are. Streams are files with holes: what is no
drawn line takes no room, and its samples are 0, which is black."""

import os

import ldvbi

TOP = os.path.abspath(os.path.join(os.path.dirname(__file__), os.pardir, os.pardir))
PROGRAM = os.environ.get("LDVBI_PROGRAM") or os.path.join(TOP, "ldvbi")
NTSC = ("NTSC", 16384, 51200)
PAL = ("PAL", 16384, 54016)


def line_with(word, setup, changes=()):
    """A drawn line, of which some columns have been made high or low: (first column, last column, is high)."""
    line = bytearray(ldvbi.draw_line(word, *setup))
    _, black, white = setup
    for first, last, is_high in changes:
        line[2 * first:2 * last + 2] = (white if is_high else black).to_bytes(2, "little") * (last - first + 1)
    return bytes(line)


# Of each system the column where words are drawn from, and the columns of a microsecond, as a fraction
_DRAWN = {"NTSC": (150, 315, 22), "PAL": (190, 709379, 40000)}


def worn_line(word, setup, *cells):
    """A drawn line, with cells of which so many columns are turned over, half of them in the middle of either half
    cell: a cell and its count, and perhaps another cell. From 9 columns on (PAL: 12) the line shows no word. The word
    is nearer than the one with this bit turned by the columns of the cell, which are 28 or 29 (PAL: 35 or 36), less two
    of each that is turned."""
    line = bytearray(ldvbi.draw_line(word, *setup))
    system, black, white = setup
    start, numerator, denominator = _DRAWN[system]
    for cell, columns in zip(cells[::2], cells[1::2]):
        for count in range(columns):
            half = 2 * cell + count % 2
            at = 2 * (start + half * numerator // denominator + 4 + count // 2)
            line[at:at + 2] = (black + white - int.from_bytes(line[at:at + 2], "little")).to_bytes(2, "little")
    return bytes(line)


def write_stream(path, setup, fields, rest=0):
    """Makes a TBC file of fields, each of which is a list of lines 16, 17 and 18: words, 0 for a blank line, or
    samples. `rest` bytes of one more field come after them."""
    with open(path, "wb") as file:
        write_fields(file, setup, fields)
        file.truncate(len(fields) * ldvbi.field_bytes(setup[0]) + rest)


def write_fields(file, setup, fields):
    size, line = ldvbi.field_bytes(setup[0]), ldvbi.line_bytes(setup[0])
    for number, lines in enumerate(fields):
        for row, shown in enumerate(lines, 15):
            file.seek(number * size + row * line)
            file.write(shown if isinstance(shown, bytes) else ldvbi.draw_line(shown, *setup))


def pictures(count):
    """The words of so many fields, from picture 0 on, each of which says its number on all three lines."""
    return [[0xF00000 + int(str(number), 16)] * 3 for number in range(count)]
