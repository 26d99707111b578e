"""Lines of a TBC file, drawn beside the rows of their nearest words."""

import os
from typing import Callable, Optional, Tuple

from ldvbi import Stream, System, field_bytes, line_bytes, read_line
from ldvbi.codes import LINES
from ldvbi.readings import size_of
from ..answer.entries import BadLine
from ..near import nearest_in
from ..outside import shown
from ..side import Side
from .line import Row, line_of, plot_of


def plotter(side: Side, path: str) -> Callable[[BadLine], str]:
    """A function that draws one of the answer's bad lines, read from this TBC file, as an SVG, with the row of its
    nearest word if words are recovered."""
    assert side.levels  # which a side that was read from samples has
    setup = side.system, side.levels.black, side.levels.white

    def plot(bad: BadLine) -> str:
        return _plot(path, setup, bad.field, bad.line, side.samples)
    return plot


def plot_line(stream: Stream, path: str, field: int, line: int) -> str:
    """The drawing of a line of a stream, which is of this file. If words are recovered and the line shows no word, the
    row of its nearest word is drawn, too. Fields and lines are counted from 1. A ValueError if the stream has no such
    line."""
    lines = size_of(stream.system)[1]
    if field > len(stream):
        raise ValueError("it has no field %d, but %d whole fields" % (field, len(stream)))
    if line > lines:
        raise ValueError("there is no line %d: a field of %s has %d" % (line, stream.system.name, lines))
    return _plot(path, (stream.system, stream.black, stream.white), field, line, stream if stream.recover else None)


def _plot(path: str, setup: Tuple[System, int, int], field: int, line: int, samples: Optional[Stream]) -> str:
    system = setup[0]
    with open(path, "rb") as file:
        file.seek((field - 1) * field_bytes(system) + (line - 1) * line_bytes(system))
        data = file.read(line_bytes(system))
    if len(data) < line_bytes(system):
        raise ValueError("%s became shorter while it was read" % path)
    reading = read_line(data, *setup)
    title = "%s, field %d, line %d" % (shown(os.path.basename(path)), field, line)
    row = None if reading.word else _nearest_row(samples, field, line)
    return plot_of(line_of(data, *setup, reading), title, row)


def _nearest_row(samples: Optional[Stream], field: int, line: int) -> Optional[Row]:
    """The nearest word of a line, and the column from which on its row is drawn; None if there is none, or no words are
    recovered."""
    near = nearest_in(samples, field, line, line) if samples and line in LINES else None
    return Row(near.word, near.start) if near and near.word else None
