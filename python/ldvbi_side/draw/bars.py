"""Several captures of one side as bars, one above the other, over the numbers that they have together. A bar says which
numbers its capture has, and which of these are to be taken from it. Below all of them is what none has."""

from typing import Any, Iterable, Iterator, List, Optional, Tuple

from ..join.entries import WHOLE, Joined
from ..texts import counted, fields_text, span
from .axis import BROAD, NARROW, Axis, Form
from .colours import AXIS, DARK_BLUE, DARK_GREEN, DARK_PURPLE, DARK_RED, LANE, PINK, WORD
from .curve import AXES, Scale
from .svg import Svg, shortened

TITLE_Y, LEGEND_Y, NARROW_LEGEND_Y, BARS_TOP = 28, 54, 14, 76
HEIGHT, STEP, STRIP = 22, 28, 6  # of a bar, from bar to bar, and of what is taken from it, in pixels
# What a bar shows, in the order of the legend
COLOURS = {
    "taken from here": DARK_GREEN,
    "taken, unsure": DARK_PURPLE,
    "here": WORD,
    "in another capture alone": DARK_BLUE,
    "in none": DARK_RED,
    "disagreement": PINK,
}
TAKEN, UNSURE, HERE, ELSEWHERE, NOWHERE, DISAGREEMENT = COLOURS
Stretch = Tuple[int, int, str]  # the first and the last number, and what is said of them


class _Numbers:
    """The numbers along the bars."""

    def __init__(self, joined: Joined, form: Form) -> None:
        self.scale = Scale(str(joined.unit), joined.system, joined.numbers)
        self.axis = Axis(self.scale.greatest - self.scale.least + 1, form)

    def place(self, number: Any) -> int:
        """The place of a number, from 1."""
        return self.scale.count_of(number) - self.scale.least + 1

    def stretch(self, one: Any, text: str) -> Stretch:
        """The numbers of an entry that has a first and a last one."""
        return self.place(one.first), self.place(one.last), "%s: %s" % (span(one.first, one.last), text)


def bars_of(joined: Joined, form: Form = BROAD, class_: Optional[str] = None) -> str:
    """The SVG of what captures have together, as text."""
    names = [one.name for one in joined.captures]
    lanes = len(names) + 2
    axis_top = BARS_TOP + STEP * lanes + 4
    title = "%s together" % counted(len(names), "capture")
    svg = Svg(form.whole(), axis_top + 56, "%s: %s" % (title, ", ".join(names)), class_, form.letters)
    numbers = _Numbers(joined, form)
    if form is NARROW:
        svg.legend(COLOURS.items(), form.right, form.whole(), NARROW_LEGEND_Y)
    else:
        svg.text(form.left, TITLE_Y, title, class_="title", font_size=17, font_weight="bold")
        svg.legend(COLOURS.items(), form.left, form.whole(), LEGEND_Y)
    lacking = [numbers.stretch(one, "in no capture, " + one.why) for one in joined.missing]
    for row, name in enumerate(names):
        _draw_capture(svg, numbers, joined, BARS_TOP + STEP * row, name, lacking)
    top = BARS_TOP + STEP * len(names)
    count = sum(one.count_ for one in joined.missing)
    _draw_lane(svg, numbers, top, "in none: %d" % count, NOWHERE, lacking)
    _draw_lane(svg, numbers, top + STEP, "disagreements: %d" % len(joined.disagreements), DISAGREEMENT,
               list(_disagreeing(numbers, joined)))
    _draw_axis(svg, numbers, axis_top)
    return svg.render()


def _draw_capture(svg, numbers, joined, y, name, lacking):
    """The bar of a capture: all numbers, below these what is taken from it, and on top what it hasn't."""
    axis = numbers.axis
    svg.text(axis.left - 10, y + HEIGHT / 2 + 5, shortened(name, axis.left - 12, axis.form.letters), name,
             text_anchor="end", class_="capture")
    svg.box(axis.left, y, axis.width, HEIGHT, COLOURS[HERE])
    taken, unsure = ([numbers.stretch(one, "taken from %s of %s" % (fields_text(one.field, one.last_field), name))
                      for one in joined.ranges if one.source == name and (one.how == WHOLE) == is_sure]
                     for is_sure in (True, False))
    elsewhere = [numbers.stretch(one, "not in %s, but in %s" % (name, " and ".join(one.in_)))
                 for one in joined.lacks if one.capture == name]
    for state, stretches in ((TAKEN, taken), (UNSURE, unsure), (ELSEWHERE, elsewhere), (NOWHERE, lacking)):
        _draw_stretches(svg, numbers, y, state, stretches)


def _draw_lane(svg, numbers, y, label, state, stretches):
    axis = numbers.axis
    svg.text(axis.left - 10, y + HEIGHT / 2 + 5, label, text_anchor="end", class_="count")
    svg.box(axis.left, y, axis.width, HEIGHT, LANE)
    _draw_stretches(svg, numbers, y, state, stretches)


def _draw_stretches(svg, numbers, y, state, stretches):
    height = STRIP if state in (TAKEN, UNSURE) else HEIGHT
    name = state.replace(" ", "-").replace(",", "")
    for begin, end, (first, last, text) in _joined(numbers.axis, stretches):
        svg.box(begin, y + HEIGHT - height, end - begin, height, COLOURS[state], text, class_=name,
                data_places="%d-%d" % (first, last))


def _joined(axis: Axis, stretches: Iterable[Stretch]) -> Iterator[Tuple[int, int, Stretch]]:
    """The stretches with their pixels; those that touch are one, of which the first one's text is said."""
    joined: List[List[Any]] = []
    for first, last, text in sorted(stretches):
        begin, end = axis.extent(first, last)
        if joined and begin < joined[-1][1]:
            joined[-1][1] = max(joined[-1][1], end)
            joined[-1][3] = max(joined[-1][3], last)
            joined[-1][5] += 1
        else:
            joined.append([begin, end, first, last, text, 0])
    for begin, end, first, last, text, more in joined:
        yield begin, end, (first, last, text + ("; and %d more" % more if more else ""))


def _disagreeing(numbers: _Numbers, joined: Joined) -> Iterator[Stretch]:
    """What both of two captures say where they disagree."""
    for found in joined.disagreements:
        for one, other in (found.between, found.between[::-1]):
            yield numbers.stretch(one, "in %s of %s, and %s otherwise" % (
                fields_text(one.field, one.last_field), one.capture, other.capture))


def _draw_axis(svg, numbers, top):
    axis = numbers.axis
    svg.line(axis.left, top, axis.left + axis.width, top, AXIS)
    for count in numbers.scale.ticks():
        x = axis.x(count - numbers.scale.least + 1.5)
        svg.line(x, top, x, top + 5, AXIS)
        svg.text(x, top + 20, numbers.scale.text_of(count), text_anchor="middle", class_="number-label")
    svg.text(axis.left + axis.width / 2, top + 42, AXES[numbers.scale.unit], text_anchor="middle", class_="axis")
