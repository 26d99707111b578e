"""A side as one page of HTML that needs nothing else: whether it is whole, the summary, the drawing, every list of the
answer in a fold, and, if the TBC file is there, drawings of its first bad lines."""

import json
import re
from typing import Callable, Iterable, List, Optional, Sequence

from ldvbi.codes import LINES
from ..answer.entries import Answer, BadLine
from ..answer.whole import NO, OPEN, YES
from ..as_json import entries
from ..join.heads import head_of_side
from ..side import Side
from .axis import BROAD, NARROW
from .bands import is_noise
from .drawing import drawing_of
from .finding import SCRIPT, finder_of
from .folds import folds_of
from .style import DRAWN
from .svg import breakable, escaped, policy

MOST_PLOTS, MOST_PLOTTED = 200, 1500000  # bad lines, and characters of their drawings
CLASSES = {YES: "yes", NO: "no", OPEN: "open"}
# What a page says of itself to the index, in its head
MARK = "ldvbi-side"
# What the second part of a line of the summary is called
_SECOND = re.compile(", (cut|lead-out|users' codes|other speeds): ")


def page_of(side: Side, title: str, summary: Iterable[str], plot: Optional[Callable[[BadLine], str]] = None,
            path: Optional[str] = None, words: Sequence[str] = (), index: Optional[str] = None) -> str:
    """The text of the page. `summary` has the lines of the side's summary. `plot` draws one of the answer's bad lines
    as an SVG; it is None if the TBC file isn't there. `path` is the side's file, None for standard input, and `words`
    are the options with which it was read. `index` is where a page of all sides stands, if there is one."""
    answer = side.analysis.answer
    bad = bad_lines_of(answer)
    parts = [_head(title, head_of_side(side, path, words)), link_to(index), "<h1>%s</h1>" % breakable(title),
             _verdict(answer), drawing_of(side, title, BROAD, "broad") + drawing_of(side, title, NARROW, "narrow"),
             finder_of(side.readings, answer.frame_begin), _nothing(answer),
             "<dl>%s</dl>" % "".join("<dt>%s</dt><dd>%s</dd>" % (escaped(name), escaped(text))
                                     for name, text in _facts(answer, summary))]
    parts += folds_of(answer, {**side.answer, "badLines": entries(bad)})
    parts += _plots(side, bad, plot)
    return "\n".join([*filter(None, parts), "<script>%s</script></body></html>" % SCRIPT, ""])


def link_to(index: Optional[str]) -> str:
    """The link from a page to that of all sides, if there is one."""
    return '<p><a href="%s">all sides</a></p>' % escaped(index) if index else ""


def bad_lines_of(answer: Answer) -> List[BadLine]:
    """The bad lines that a page lists: those of unread and doubtful numbers first."""
    first = {one.field for one in answer.unread}.union(one.field for one in answer.doubtful)
    is_bare = _is_bare(answer)
    return sorted((one for one in answer.bad_lines if not (is_bare and one.line == LINES[0])),
                  key=lambda one: one.field not in first)


def _is_bare(answer):
    """Whether it is known of the disc that line 16 bears no code: what it shows is no bad line, then."""
    return answer.format == "cav" and is_noise(answer)


def _nothing(answer):
    """What isn't on this side of all that one looks for first, in one line. Of a side without numbers that isn't known.
    """
    missing = {one.why for one in answer.missing}
    are_there = {"lost": answer.lost or missing & {"lost", "undecided"}, "unread": missing & {"unread", "undecided"},
                 "repeated": answer.repeated, "doubtful": answer.doubtful}
    names = [name for name, is_there in are_there.items() if not is_there]
    return "<p>nothing %s</p>" % ", ".join(names) if names and answer.numbers.count_ else ""


def _facts(answer, summary):
    """The lines of the summary after the first, each by its name, those that name two things apart, and without those
    that say none."""
    for line in list(summary)[1:]:
        name, _, text = line.partition(": ")
        if name == "line 16" and _is_bare(answer):
            rates = answer.lines[LINES[0]]
            text = "bears no code on this disc: %d words, %d fields with noise, %d blank" % (
                rates.words(), rates.bad(), rates.blank)
        first, *second = _SECOND.split(text)
        yield from (one for one in ((name, first), second) if one and one[1] != "none")


def _head(title, said):
    return ('<!DOCTYPE html>\n<html lang="en"><head><meta charset="utf-8"><title>%s</title>\n'
            '%s<meta name="viewport" content="width=device-width, initial-scale=1">\n<meta name="%s" content="%s">\n'
            "<style>%s</style></head><body>" % (escaped(title), policy(SCRIPT), MARK, escaped(json.dumps(said)), DRAWN))


def _verdict(answer):
    return '<div class="%s">whole: %s%s</div>' % (
        CLASSES[answer.whole], escaped(answer.whole), list_of(one.text for one in answer.reasons))


def list_of(texts: Iterable[str]) -> str:
    """A list of these texts, or nothing if there are none."""
    ones = "".join("<li>%s</li>" % escaped(text) for text in texts)
    return "<ul>%s</ul>" % ones if ones else ""


def _plots(side, bad, plot):
    """The first of these bad lines, drawn, each in a fold that says its cause and its word, if that was recovered."""
    if plot is None or not bad:
        return []
    folds, left = [], MOST_PLOTTED
    for one in bad[:MOST_PLOTS]:
        folds.append('<details data-field="%d"><summary>field %d, line %d: %s' % (one.field, *one[:3])
                     + _recovered(side.readings[one.field - 1][one.line - LINES[0]])
                     + "</summary>\n" + plot(one) + "</details>")
        left -= len(folds[-1])
        if left < 0:
            break
    shown = "the first %d of %d, drawn" % (len(folds), len(bad)) if len(folds) < len(bad) else "drawn"
    return ["<h2>Bad lines, %s</h2>" % shown] + folds


def _recovered(reading):
    """What a fold says of a line's recovered word, in the colour that the drawing has for it."""
    return ', <span class="recovered">recovered: %06X</span>' % reading.word if reading.word else ""
