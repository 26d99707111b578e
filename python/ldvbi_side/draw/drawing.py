"""A side drawn as an SVG: fields along, what each of the three lines shows in colour, lead-in, chapters, lead-out and
picture stops, the numbers as a curve, and below it a lane for each kind of thing to look at. It draws the answer of
`answer.analysis`. Each mark has a title with its fields and the reason for it."""

from typing import Optional

from ..side import Side
from ..texts import counted, fields_text
from . import bands, curve
from .axis import BROAD, NARROW, Axis, Form
from .colours import AXIS, BROWN, INDIGO, LANE, NAVY, PAPER, RED, TEAL
from .marks import LANES, Mark, counts_of, lanes_of, marks_of, other_file
from .svg import Svg, shortened, text_width

# The drawing's own measures, in pixels; axis.py and curve.py have more
TITLE_Y, SYSTEM_Y, LEGEND_Y = 28, 46, 66
LEGEND_RIGHT = 850  # which a page shows that is 900 wide
NARROW_LEGEND_Y = 14  # of a drawing without its head, which is its page's
BANDS_TOP = 94
DISC_TOP, DISC_HEIGHT = 200, 18
STOPS_TOP, STOPS_HEIGHT = 224, 12
LANES_TOP, LANE_STEP, LANE_HEIGHT = 502, 18, 12
MOST_UPRIGHTS = 60  # of a lane, or of chapters: with more of them the curve couldn't be seen
BREAKING = ("lost", "undecided", "lost fields", "jumps")  # lanes whose marks are where the curve breaks
ENDS, CHAPTER_COLOURS = {"lead-in": TEAL, "lead-out": BROWN}, (INDIGO, NAVY)


def drawing_of(side: Side, title: str, form: Form = BROAD, class_: Optional[str] = None) -> str:
    """The SVG of a `ldvbi_side.side.Side`, as text. The narrow one has no head."""
    answer, fields = side.analysis.answer, side.plain()
    axis_top = LANES_TOP + LANE_STEP * len(lanes_of(marks_of(answer))) + 4
    svg = Svg(form.whole(), axis_top + 56, "%s: %s, whole: %s" % (title, _facts_text(answer), answer.whole), class_,
              form.letters, "%d %d %d %d" % (form.left, form.width, BANDS_TOP, axis_top) if class_ else None)
    axis = Axis(answer.fields, form)
    if form is not NARROW:
        svg.text(form.left, TITLE_Y, shortened(title, form.width, 17), title, class_="title", font_size=17,
                 font_weight="bold")
        svg.text(form.left, SYSTEM_Y, _facts_text(answer), class_="system")
    _draw_legend(svg, answer, form)
    bands.draw_bands(svg, fields, axis, BANDS_TOP, bands.is_noise(answer))
    _draw_disc(svg, axis, answer)
    _draw_stops(svg, axis, answer)
    if answer.unit and answer.numbers.count_:
        scale = curve.Scale(answer.unit, answer.system, answer.numbers)
        curve.draw_numbers_axis(svg, axis, scale)
        _draw_chapter_lines(svg, axis, answer)
        _draw_lanes(svg, axis, answer)
        curve.draw_curve(svg, axis, scale, answer)
        curve.draw_doubts(svg, axis, scale, answer)
    else:
        _draw_lanes(svg, axis, answer)
        _draw_no_numbers(svg, axis, answer)
    _draw_fields_axis(svg, axis, answer.fields, axis_top)
    return svg.render()


def _facts_text(answer):
    """The side's system and format, its fields and numbers."""
    cut = answer.cut_field
    parts = [answer.system, {"neither": "no code of CAV or CLV"}.get(answer.format, answer.format.upper())]
    parts += ["film (2 and 3 fields a picture)"] if answer.pace == "film" else []
    parts += [counted(answer.fields, "field")]
    parts += ["field %d is cut: %d bytes of it" % cut] if cut else []
    count, least, greatest = answer.numbers
    if count:
        parts.append("%s, %s to %s" % (counted(count, answer.unit), least, greatest))
    return ", ".join(parts)


def _draw_legend(svg, answer, form):
    """The colours of the bands, and what else is drawn."""
    entries = [*bands.legend_of(answer), *ENDS.items(), ("doubtful number", None)]
    if form is NARROW:
        svg.legend(entries, form.right, form.whole(), NARROW_LEGEND_Y)
    else:
        svg.legend(entries, form.left, LEGEND_RIGHT, LEGEND_Y)


def _draw_no_numbers(svg, axis, answer):
    """What is said in the place of the curve, if there is none."""
    texts = ["no picture number and no time" + (" is believed" if answer.unit else "")]
    levels = answer.levels
    if levels:
        asked = "is it this system, and this file's metadata?" if other_file(answer) else "are black and white right?"
        texts.append("lines 17 and 18 have %d words, %d are bad, %d blank: %s" % (
            levels.words, levels.bad, levels.blank, asked))
    y = curve.TOP + curve.HEIGHT / 2
    for place, text in enumerate(texts[:1] if axis.form is NARROW else texts):
        svg.text(axis.left + axis.width / 2, y + 24 * place, text, text_anchor="middle", class_="empty")


def _draw_disc(svg, axis, answer):
    """A strip with lead-in, chapters and lead-out, in the order of the disc."""
    svg.text(axis.left - 10, DISC_TOP + 14, "disc", text_anchor="end")
    svg.box(axis.left, DISC_TOP, axis.width, DISC_HEIGHT, LANE)
    stretches = [("lead-in", "lead-in", one.first, one.last, "") for one in answer.lead_in]
    stretches += [("lead-out", "lead-out", one.first, one.last, "") for one in answer.lead_out]
    for chapter in answer.chapters:
        place = "" if chapter.number is None else ", from %s" % chapter.number
        stretches.append(("chapter", "chapter %d" % chapter.chapter, chapter.field, chapter.last, place))
    chapters = 0
    for kind, name, first, last, place in sorted(stretches, key=lambda stretch: stretch[2]):
        fill = ENDS.get(kind, CHAPTER_COLOURS[chapters % 2])
        chapters += kind == "chapter"
        begin, end = axis.extent(first, last)
        title = "%s: %s%s" % (name, fields_text(first, last), place)
        svg.box(begin, DISC_TOP, end - begin, DISC_HEIGHT, fill, title, class_=kind,
                data_fields="%d-%d" % (first, last))
        short = name.rpartition(" ")[2]
        label = next((text for text in (name, short) if text_width(text, 11) + 6 <= end - begin), None)
        if label:
            svg.text((begin + end) / 2, DISC_TOP + 13, label, text_anchor="middle", font_size=11, class_="disc-label",
                     pointer_events="none", fill=PAPER)


def _draw_stops(svg, axis, answer):
    svg.text(axis.left - 10, STOPS_TOP + 11, "stops: %d" % len(answer.stops), text_anchor="end", class_="count")
    drawn = set()
    for one in answer.stops:
        x = axis.x(one.field + 0.5)
        if round(x / 2) not in drawn:
            drawn.add(round(x / 2))
            number = "" if one.number is None else " of %s" % one.number
            lines = ("lines " if len(one.lines) > 1 else "line ") + " and ".join(map(str, sorted(one.lines)))
            title = "picture stop%s in field %d, %s" % (number, one.field, lines)
            svg.path("M%.1f %dl4 6l-4 6l-4 -6z" % (x, STOPS_TOP), title, class_="stop", data_field=one.field,
                     fill=RED)


def _draw_chapter_lines(svg, axis, answer):
    """An upright at each chapter's begin, below the strip that names it, if these are few."""
    pixels = sorted({axis.pixel(one.field) for one in answer.chapters})
    for x in pixels if len(pixels) <= MOST_UPRIGHTS else []:
        svg.line(x, curve.TOP, x, curve.TOP + curve.HEIGHT, AXIS, class_="chapter-line", stroke_dasharray="2 4")


def _draw_lanes(svg, axis, answer):
    """A lane for each kind of mark, with how many there are; marks that fall together are one. Where the curve breaks,
    faint uprights cross it, as long as they are few."""
    counts, marks = counts_of(answer), marks_of(answer)
    for place, lane in enumerate(lanes_of(marks)):
        y = LANES_TOP + LANE_STEP * place
        count, colour = counts[lane], LANES[lane]
        svg.text(axis.left - 10, y + 11, "%s: %d" % (lane, count), text_anchor="end", class_="count",
                 fill=colour if count else AXIS, font_weight="bold" if count else None)
        svg.box(axis.left, y, axis.width, LANE_HEIGHT, LANE)
        joined = list(_joined(axis, marks[lane]))
        has_uprights = lane in BREAKING and len(joined) <= MOST_UPRIGHTS
        for begin, end, (first, last, text) in joined:
            fields = "%d-%d" % (first, last)
            if has_uprights:
                svg.box(begin, curve.TOP, end - begin, curve.HEIGHT, colour, text, opacity=0.2, class_="upright",
                        data_fields=fields)
            svg.box(begin, y, end - begin, LANE_HEIGHT, colour, text, class_=lane.replace(" ", "-"), data_fields=fields)


def _joined(axis, marks):
    """The marks of a lane with their pixels; those that touch are one, of which the first one's text is said."""
    joined = []
    for mark in marks:
        begin, end = axis.extent(mark.first, mark.last)
        if joined and begin < joined[-1][1]:
            joined[-1][1] = max(joined[-1][1], end)
            joined[-1][2].append(mark)
        else:
            joined.append([begin, end, [mark]])
    for begin, end, ones in joined:
        lasts = [one.last for one in ones]
        more = "; and %d more up to field %d" % (len(ones) - 1, max(lasts[1:])) if len(ones) > 1 else ""
        yield begin, end, Mark(ones[0].first, max(lasts), ones[0].text + more)


def _draw_fields_axis(svg, axis, count, top):
    svg.line(axis.left, top, axis.left + axis.width, top, AXIS)
    for field in curve.ticks(1, count, axis.form.labels, curve.round_steps()):
        x = axis.x(field + 0.5)
        svg.line(x, top, x, top + 5, AXIS)
        svg.text(x, top + 20, str(field), text_anchor="middle")
    svg.text(axis.left + axis.width / 2, top + 42, "field", text_anchor="middle", class_="axis")
