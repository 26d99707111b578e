"""The curve of a drawing: a side's believed numbers over its fields, and the numbers that were set aside."""

import itertools
from collections import Counter
from typing import Any, Dict, Iterable, Iterator, List, Optional, Set, Tuple

from ldvbi import Kind
from ..answer.entries import Answer, Doubt, Extent
from ..texts import fields_text, span
from .axis import Axis
from .colours import CURVE, GRID, PINK
from .marks import doubt_text
from .svg import Svg

RATES = {"NTSC": 30, "PAL": 25}  # numbers of a second
AXES = {"picture": "picture number", "time": "time", "minute": "time"}
MOST_RINGS = 1000  # from here on one stands for those around it
TOP, HEIGHT = 248, 240  # of the curve, in pixels


class Scale:
    """The numbers of a side as counts (pictures or minutes), and their heights on the curve. Only the believed numbers
    make the scale."""

    def __init__(self, unit: str, system: str, numbers: Extent) -> None:
        self.unit, self.rate = unit, RATES[system]
        self.least, self.greatest = self.count_of(numbers.least), self.count_of(numbers.greatest)

    def count_of(self, number: Any) -> int:
        """The count of a number of the answer: a picture, `h:mm:ss.pp` or `h:mm`."""
        if self.unit == "picture":
            return number
        hours, minutes, *second = number.split(":")
        count = 60 * int(hours) + int(minutes)
        if self.unit == "minute":
            return count
        whole, _, picture = "".join(second or "0.0").partition(".")
        return (60 * count + int(whole)) * self.rate + int(picture)

    def text_of(self, count: int) -> str:
        """A count as a label: hours, minutes and seconds, with the picture if it isn't a whole second."""
        if self.unit == "picture":
            return str(count)
        if self.unit == "minute":
            return "%d:%02d" % divmod(count, 60)
        seconds, picture = divmod(count, self.rate)
        text = "%d:%02d:%02d" % (seconds // 3600, seconds // 60 % 60, seconds % 60)
        return text + (".%02d" % picture if picture else "")

    def y(self, count: int) -> float:
        return TOP + HEIGHT * (self.greatest - count + 0.5) / (self.greatest - self.least + 1)

    def ticks(self) -> List[int]:
        """The counts that have a label, about five."""
        steps: Iterable[int] = round_steps()
        if self.unit != "picture":
            minute = 60 * self.rate if self.unit == "time" else 1
            seconds = [] if minute == 1 else [1, 5, self.rate, 5 * self.rate, 15 * self.rate]
            steps = seconds + [minute * minutes for minutes in (1, 5, 10, 15, 30, 60)]
        return ticks(self.least, self.greatest, 5, steps)

    def place_of(self, doubt: Doubt) -> Optional[Tuple[float, int]]:
        """The height of a number that was set aside, and whether it is beyond the scale, above (1) or below (-1). None
        if it has no number of its own."""
        if doubt.number is None or doubt.kind != (Kind.picture if self.unit == "picture" else Kind.time):
            return None
        count = self.count_of(doubt.number)
        if count > self.greatest:
            return TOP, 1
        if count < self.least:
            return TOP + HEIGHT, -1
        return self.y(count), 0


def draw_numbers_axis(svg: Svg, axis: Axis, scale: Scale) -> None:
    """Lines across at round numbers, their labels, and what they count, along the side."""
    for count in scale.ticks():
        y = scale.y(count)
        svg.line(axis.left, y, axis.left + axis.width, y, GRID)
        svg.text(axis.left - 10, y + 4, scale.text_of(count), text_anchor="end", class_="number-label")
    x, middle = axis.form.upright, TOP + HEIGHT / 2
    svg.text(x, middle, AXES[scale.unit], text_anchor="middle", transform="rotate(-90 %d %d)" % (x, middle),
             class_="axis")


def draw_curve(svg: Svg, axis: Axis, scale: Scale, answer: Answer) -> None:
    """A line for each run of showings in which every number is the next one or stays, with a point for each column of
    pixels. If the line is too short to be seen, a dot."""
    starts = {one.before for one in answer.breaks}
    run: List[Tuple[int, int, int, Any]] = []
    drawn: Set[Tuple[int, ...]] = set()
    for number, first, last in answer.showings:
        count = scale.count_of(number)
        if run and (first in starts or count - run[-1][0] not in (0, 1)):
            _draw_run(svg, axis, scale, run, drawn)
            run = []
        run.append((count, first, last, number))
    _draw_run(svg, axis, scale, run, drawn)


def _draw_run(svg, axis, scale, run, drawn):
    """Draws a run, if it isn't within the same pixels as one that is drawn."""
    pixels = tuple(int(end) for count, field in ((run[0][0], run[0][1]), (run[-1][0], run[-1][2]))
                   for end in (axis.x(field + 0.5), scale.y(count)))
    if pixels in drawn:
        return
    drawn.add(pixels)
    points, pixel = [], None
    for place, (count, first, last, _) in enumerate(run):
        ends = [first] if last - first < 2 else [first, last]  # a minute stands on many fields
        for field in ends:
            x = axis.x(field + 0.5)
            if int(x) != pixel or place in (0, len(run) - 1):
                points.append("%.1f %.1f" % (x, scale.y(count)))
                pixel = int(x)
    # eight points to a line of text
    lines = [" ".join(points[place:place + 8]) for place in range(0, len(points), 8)]
    first, last = run[0], run[-1]
    title = "%s in %s" % (span(first[3], last[3]), fields_text(first[1], last[2]))
    svg.path("M" + "\n".join(lines) + ("h0" if len(points) == 1 else ""), title, class_="run",
             data_fields="%d-%d" % (first[1], last[2]), fill="none", stroke=CURVE,
             stroke_width=5 if len(points) == 1 else 3, stroke_linecap="round", stroke_linejoin="round")


def draw_doubts(svg: Svg, axis: Axis, scale: Scale, answer: Answer) -> None:
    """The numbers that were set aside, as rings off the curve, or as triangles on the edge if they are beyond it. Those
    that would cover each other are drawn as one. If there are many, more of them are."""
    placed = [(axis.x(one.field + 0.5), *place, one) for one in answer.doubtful
              for place in [scale.place_of(one)] if place is not None]
    near = 3 if len(placed) <= MOST_RINGS else 12
    drawn: Dict[Tuple[int, int], Tuple[float, float, int, Doubt]] = {}
    more: Counter = Counter()
    for one in placed:
        key = (round(one[0] / near), round(one[1] / near))
        drawn.setdefault(key, one)
        more[key] += 1
    for key, one in drawn.items():
        _draw_doubt(svg, *one, more[key] - 1)


def _draw_doubt(svg, x, y, beyond, one, more):
    title = doubt_text(one) + ("; and %d more near it" % more if more else "")
    marked = {"title": title, "class_": "doubt", "data_field": one.field}
    if beyond:
        svg.path("M%.1f %.1fl-5 %dh10z" % (x, y - 5 * beyond, 9 * beyond), fill=PINK, **marked)
    else:
        svg.ring(x, y, **marked)


def round_steps() -> Iterator[int]:
    """1, 2, 5, 10, 20, 50 and so on."""
    for power in itertools.count():
        yield from (factor * 10 ** power for factor in (1, 2, 5))


def ticks(least: int, greatest: int, count: int, steps: Iterable[int]) -> List[int]:
    """Numbers from the least to the greatest, at most about `count` of them, at multiples of one of these ascending
    steps: the first that is large enough, or the last."""
    if greatest < least:
        return []
    for step in steps:
        if step * count >= greatest - least:
            break
    first = -(-least // step) * step
    return sorted({least} | {tick for tick in range(first, greatest + 1, step) if tick - least >= step / 2})
