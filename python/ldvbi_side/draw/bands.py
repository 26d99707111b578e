"""The bands of a drawing: what each field shows on lines 16, 17 and 18, in colour. On many discs line 16 has no codes.
What it shows there if it isn't blank is noise, not damage."""

from collections import Counter
from typing import List, Tuple

from ldvbi.codes import LINES
from ..answer.entries import Answer
from ..judge.readings import Fields
from ..texts import fields_text
from .axis import Axis
from .colours import BLANK, DARK_BLUE, DARK_BROWN, DARK_CYAN, DARK_PURPLE, DARK_RED, STONE, TEXT, WORD
from .svg import Svg

# What a line can show, from the top of its band to the bottom: its name and its colour
SHOWN = {
    "change": DARK_RED,
    "hold": DARK_PURPLE,
    "unfinished": DARK_BROWN,
    "noise": STONE,
    "recovered": DARK_CYAN,
    "read only after smoothing": DARK_BLUE,
    "word": WORD,
    "blank": BLANK,
    "padding": TEXT,
}
_OF_PASSES = {2: "read only after smoothing", 3: "recovered"}
_NO_DAMAGE = frozenset(["recovered", "read only after smoothing", "word", "blank"])
HEIGHT, STEP = 28, 34  # of a band, and from band to band, in pixels
LEAST_SHARE = 4  # pixels of a band for what is neither a word of pass 1, nor blank, nor noise
MOST_BOXES = 2000  # of a band: of noise more fields share a column
FEW = 20  # fields to a word of line 16, at least, if that has no codes
_PLAIN = ("word", "blank", "noise")


def is_noise(answer: Answer) -> bool:
    """Whether line 16 shows noise, not damaged codes: hardly any field has a code there, as on a CAV disc."""
    line = answer.lines[16]
    return answer.format != "clv" and line.bad() > 0 and FEW * line.words() < answer.fields


def legend_of(answer: Answer) -> List[Tuple[str, str]]:
    """The names with their colours. Those of recovered words, of noise and of padding are there only if there are
    some."""
    is_there = {"recovered": any(rates.near for rates in answer.lines.values()), "noise": is_noise(answer),
                "padding": bool(answer.padding)}
    return [(name, fill) for name, fill in SHOWN.items() if is_there.get(name, True)]


def draw_bands(svg: Svg, fields: Fields, axis: Axis, top: int, has_noise: bool = False) -> None:
    """The three bands. If fields share a column of pixels, each cause has its share of the band's height, and what
    stands out has at least a few pixels. Line 16 may have noise in place of damage."""
    for band, line in enumerate(LINES):
        y = top + STEP * band
        svg.text(axis.left - 10, y + HEIGHT / 2 + 5, "line %d" % line, text_anchor="end")
        causes = [causes[band] for causes in fields.causes]
        shown = [_OF_PASSES.get(passes[band]) or cause.partition(" ")[0]
                 for cause, passes in zip(causes, fields.passes)]
        if has_noise and line == LINES[0]:
            shown = [name if name in _NO_DAMAGE else "noise" for name in shown]
        if fields.pad:
            shown = ["padding" if is_pad else name for name, is_pad in zip(shown, fields.pad)]
        for begin, end, shares in _few_columns(shown, axis.step):
            cause = causes[begin - 1] if begin == end else None
            _draw_column(svg, line, (axis.pixel(begin), axis.pixel(end + 1), y), (begin, end), shares, cause)


def _few_columns(shown, step):
    """The stretches of fields of which a drawing isn't too large: at first one for each column of pixels."""
    while True:
        found = list(_columns(shown, step))
        if sum(len(shares) for _, _, shares in found) <= MOST_BOXES:
            return found
        step *= 2


def _columns(shown, step):
    """Stretches of fields that are drawn alike: the first and the last field, and how often each thing is shown in a
    column of so many fields."""
    begin, before = 1, None
    for field in range(1, len(shown) + 1, step):
        shares = Counter(shown[field - 1:field - 1 + step])
        if shares != before and before is not None:
            yield begin, field - 1, before
            begin = field
        before = shares
    if before is not None:
        yield begin, len(shown), before


def _draw_column(svg, line, place, fields, shares, cause):
    x, right, y = place
    heights = _heights(shares)
    where = "line %d, %s: " % (line, fields_text(*fields))
    for name, fill in SHOWN.items():
        if name in heights:
            title = where + (name if len(shares) == 1 else _share_text(name, shares))
            if cause and cause != "word" and name != "padding":
                title = where + ("%s, " % name if name in ("recovered", "noise") else "") + cause
            svg.box(x, y, max(right - x, 1), heights[name], fill, title, class_="line-%d" % line, data_shown=name,
                    data_fields="%d-%d" % fields, shape_rendering="crispEdges")
            y += heights[name]


def _share_text(name, shares):
    """In which part of the fields of a column a line shows something."""
    share = 100 * shares[name] / sum(shares.values())
    return "%s in %s of these fields" % (name, "%.0f %%" % share if share >= 1 else "less than 1 %")


def _heights(shares):
    """The height of each share of a band."""
    total = sum(shares.values())
    heights = {name: HEIGHT * count / total for name, count in shares.items()}
    raised = {name: max(height, LEAST_SHARE) for name, height in heights.items() if name not in _PLAIN}
    rest = sum(height for name, height in heights.items() if name not in raised)
    if rest:
        factor = (HEIGHT - sum(raised.values())) / rest
        raised.update((name, heights[name] * factor) for name in heights if name not in raised)
        return raised
    factor = HEIGHT / sum(raised.values())
    return {name: height * factor for name, height in raised.items()}
