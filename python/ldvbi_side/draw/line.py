"""A line of a TBC file as an SVG: its samples, the level that divides low from high, and what the line shows: the half
cells and bits of a word, or the first hopeless column. Or the same line beside the row of a word, such as its nearest
one; columns whose level differs are red."""

import itertools
from typing import List, NamedTuple, Optional, Sequence, Tuple

from ldvbi import Cause, Reading, System
from .colours import AXIS, CURVE, DARK_BLUE, GREEN, PALE_BLUE, PALE_GREY, PALE_RED, RED
from .svg import Svg, shortened

# Samples of a microsecond, which is the length of a drawn half cell
MICROSECOND = {System.NTSC: 315 / 22, System.PAL: 709379 / 40000}
# Pixels
LEFT, TOP, WIDTH, HEIGHT, BOTTOM = 70, 96, 1000, 180, 50
MOST_TITLE = 1000  # of a title, whose middle is left out
STRIP = 5  # at the foot of a column that is marked, where no sample is drawn
_SAID = {Cause.blank: "blank (no sample is high)", Cause.unfinished: "unfinished (a longer line could still show one)"}


class Line(NamedTuple):
    """The samples of a line, its system and levels, and what it shows."""
    samples: Sequence[int]
    system: System
    black: int
    white: int
    reading: Reading

    def levels(self) -> List[bool]:
        """Which samples are high: twice a high sample is more than black and white together."""
        return [2 * sample > self.black + self.white for sample in self.samples]


class Row(NamedTuple):
    """A word that is drawn from this column on."""
    word: int
    start: int


def line_of(data: bytes, system: System, black: int, white: int, reading: Reading) -> Line:
    """The line with these bytes."""
    return Line([low + 256 * high for low, high in zip(data[::2], data[1::2])], system, black, white, reading)


def plot_of(line: Line, title: str, row: Optional[Row] = None, columns: Optional[Tuple[int, int]] = None) -> str:
    """The drawing of a line, with the row of a word if one is given. `columns` are the first and the last one that are
    seen, if not all are."""
    plot = _Plot(line, columns or (0, len(line.samples) - 1), "%s: %s" % (title, shown_text(line.reading)))
    said = _draw_row(plot, line, row) if row else _draw_shown(plot, line)
    _draw_axes(plot, line)
    plot.steps(line.samples, stroke=CURVE, stroke_width=1.5)
    plot.svg.text(LEFT, 24, shortened(title, MOST_TITLE, 17), font_size=17, font_weight="bold", class_="title")
    plot.svg.text(LEFT, 46, said, class_="said")
    return plot.svg.render()


def shown_text(reading: Reading) -> str:
    """What a line shows: its word, or else its cause, with the first hopeless column if there is one."""
    if reading.word:
        return "%06X" % reading.word
    return reading.cause.name + (" %d" % reading.column if reading.cause in (Cause.change, Cause.hold) else "")


class _Plot:
    """A drawing in which some columns of a line are seen, and all of its samples have room."""

    def __init__(self, line, columns, label):
        self.svg = Svg(LEFT + WIDTH + 20, TOP + HEIGHT + BOTTOM, label)
        self.first, self.last = columns
        least, greatest = min(line.black, *line.samples), max(line.white, *line.samples)
        room = (greatest - least) / 10
        self.greatest, self.span = greatest + room, greatest - least + 2 * room

    def x(self, column):
        column = min(max(column, self.first), self.last + 1)
        return LEFT + WIDTH * (column - self.first) / (self.last + 1 - self.first)

    def y(self, sample):
        return TOP + HEIGHT * (self.greatest - sample) / self.span

    def is_seen(self, *columns):
        return all(self.first <= column <= self.last + 1 for column in columns)

    def box(self, start, end, fill, **more):
        if self.x(start) < self.x(end):
            self.svg.box(self.x(start), TOP, self.x(end) - self.x(start), HEIGHT, fill, **more)

    def mark(self, column):
        """Marks a column: it is pale behind the samples, and red below them."""
        self.box(column, column + 1, PALE_RED, class_="marked")
        if self.is_seen(column, column + 1):
            self.svg.box(self.x(column), TOP + HEIGHT - STRIP, self.x(column + 1) - self.x(column), STRIP, RED)

    def upright(self, column, stroke, above=0, **more):
        if self.is_seen(column):
            self.svg.line(self.x(column), TOP - above, self.x(column), TOP + HEIGHT, stroke, **more)

    def between(self, start, end, above, words, **more):
        """Writes words above the middle of these columns."""
        if self.is_seen(start, end):
            self.svg.text((self.x(start) + self.x(end)) / 2, TOP - above, words, text_anchor="middle", **more)

    def steps(self, samples, **more):
        """Draws samples as steps: each column has its sample's height from its left end to its right end."""
        seen = samples[self.first:self.last + 1]
        steps, column = ["M%d %.1f" % (LEFT, self.y(seen[0]))], self.first
        for sample, run in itertools.groupby(seen):
            column += len(list(run))
            steps.append("V%.1fH%.1f" % (self.y(sample), self.x(column)))
        self.svg.path("".join(steps), fill="none", **more)


def _draw_axes(plot, line):
    """Black, white, the level between them, and the columns."""
    for sample, name, stroke, dashes in ((line.black, "black", AXIS, "1 3"), (line.white, "white", AXIS, "1 3"),
                                         ((line.black + line.white) / 2, "middle", DARK_BLUE, "6 4")):
        y = plot.y(sample)
        plot.svg.line(LEFT, y, LEFT + WIDTH, y, stroke, stroke_dasharray=dashes)
        plot.svg.text(LEFT - 8, y + 4, name, text_anchor="end")
    step, bottom = 50 if plot.last - plot.first > 300 else 10, TOP + HEIGHT
    for column in range(-(-plot.first // step) * step, plot.last + 1, step):
        plot.svg.line(plot.x(column), bottom, plot.x(column), bottom + 5, AXIS)
        plot.svg.text(plot.x(column), bottom + 20, str(column), text_anchor="middle")
    plot.svg.text(LEFT + WIDTH / 2, bottom + 40, "column, from 0", text_anchor="middle")


# ---- What a line shows

def _draw_shown(plot, line):
    """Draws what the line shows. The answer is that as a sentence."""
    reading, levels = line.reading, line.levels()
    if not reading.word:
        return "no word: " + _draw_no_word(plot, reading)
    smooth = levels if reading.pass_ == 1 else _smoothed(levels)
    _draw_word(plot, reading.word, _boundaries(smooth, reading.word, MICROSECOND[line.system]))
    for column, (level, kept) in enumerate(zip(levels, smooth)):
        if level != kept:
            plot.mark(column)
    return shown_text(reading) + (
        ", by the samples as they are (pass 1)" if reading.pass_ == 1 else
        ", by the smoothed levels (pass 2); what was smoothed away is red")


def _draw_no_word(plot, reading):
    """Draws the first hopeless column, if there is one."""
    if reading.cause in _SAID:
        return _SAID[reading.cause]
    column, text = reading.column, shown_text(reading)
    plot.mark(column)
    plot.upright(column, RED, 14, stroke_width=2)
    if plot.is_seen(column):
        plot.svg.text(plot.x(column) + 6, TOP - 6, text, fill=RED)
    return text + " (from this column on no continuation could show one)"


def _draw_word(plot, word, starts):
    """The cells of a word with their bits, ones shaded, and its hexadecimal digits."""
    for cell in range(24):
        start, middle, end = starts[2 * cell:2 * cell + 3]
        bit = word >> (23 - cell) & 1
        plot.box(start, end, PALE_BLUE if bit else PALE_GREY)
        plot.between(start, end, 8, str(bit), class_="bit")
        plot.upright(start, AXIS, 4, class_="cell")
        plot.upright(middle, AXIS, stroke_dasharray="2 3")
    plot.upright(starts[-1], AXIS, 4, class_="cell")
    for digit, text in enumerate("%06X" % word):
        plot.between(starts[8 * digit], starts[8 * digit + 8], 28, text, font_weight="bold", class_="digit")


def _smoothed(levels):
    """The level of the latest four equal columns in a row, three columns earlier than `ldvbi` has it, so that edges
    stay where they are. Low before the first such four."""
    latest, found = False, []
    for column in range(len(levels)):
        last = levels[max(column - 3, 0):column + 1]
        if len(last) == 4 and len(set(last)) == 1:
            latest = last[0]
        found.append(latest)
    return found[3:] + found[-1:] * 3


def _halves_of(word):
    """The 48 half cells of a word: a one is low and then high, a zero high and then low."""
    bits = [word >> (23 - place) & 1 == 1 for place in range(24)]
    return [level for bit in bits for level in (not bit, bit)]


def _boundaries(levels, word, microsecond):
    """The 49 columns at which the half cells of the word begin and the last one ends, in levels that show it. Two half
    cells of one level are parted in the middle, and the lows around the word after a microsecond."""
    runs = [len(list(run)) for _, run in itertools.groupby(levels)]
    cells = [(level, len(list(run))) for level, run in itertools.groupby(_halves_of(word))]
    starts, column = [], 0
    for place, (length, (level, count)) in enumerate(zip(runs, cells)):
        if place == 0:  # a word begins with a one, whose first half cell ends the lows before the word
            starts.append(column + length - min(microsecond, length))
        else:
            starts += [column + length / count * part for part in range(count)]
        is_last = place == len(cells) - 1 and not level  # which joins the lows after the word
        column += min(microsecond, length) if is_last else length
    return starts + [column]


# ---- The row of a word

def row_starts(start: int, system: System) -> List[int]:
    """The 49 columns at which the half cells of a word drawn from this column on begin, and at which the last one
    ends."""
    # a microsecond may come out too short by a digit that counts for nothing, and a whole column would be missing
    return [start + int(half * MICROSECOND[system] + 1e-6) for half in range(49)]


def _draw_row(plot, line, row):
    """The row of a word, behind the samples. The answer is what is said of both."""
    starts, levels = row_starts(row.start, line.system), [False] * len(line.samples)
    for begin, end, level in zip(starts, starts[1:], _halves_of(row.word)):
        levels[begin:end] = [level] * (end - begin)
    _draw_word(plot, row.word, starts)
    for column, (level, drawn) in enumerate(zip(line.levels(), levels)):
        if level != drawn:
            plot.mark(column)
    drawn = [line.white if level else line.black for level in levels]
    plot.steps(drawn, stroke=GREEN, stroke_width=3)
    column = line.white - line.black
    most = (7 * column + 9) // 10  # as ldvbi_nearest counts
    distance = sum(min(abs(sample - other), most) for sample, other in zip(line.samples, drawn)) / column
    return "%s%s; the row of %06X from column %d on is %.1f columns away" % (
        "" if line.reading.word else "no word: ", shown_text(line.reading), row.word, row.start, distance)
