"""The parts of an SVG: texts, boxes, lines and paths, each with a title that a browser shows under the pointer."""

import base64
import hashlib
import html
import re
from typing import Any, Iterable, List, Optional, Tuple
from xml.sax import saxutils

from ..outside import shown
from .colours import PAPER, PINK, TEXT

# About the width of a character, in pixels at a font size of 1; the widest letters are wider
CHARACTER = 0.65
# A word of a name with what parts it from the next one, or a part of a long one
_WORDS = re.compile(r"(?:[^\s/\\_.-]{30}|[^\s/\\_.-]{1,29}[\s/\\_.-]*|[\s/\\_.-]{1,30})", re.DOTALL)


# What a page may do: show itself, its styles, and the scripts that are named. It fetches nothing.
_POLICY = "default-src 'none'; style-src 'unsafe-inline'; base-uri 'none'; form-action 'none'"


def policy(script: str = "") -> str:
    """The element of a page that has a browser refuse all but what the page is known to have: styles, and this script
    if there is one."""
    digest = base64.b64encode(hashlib.sha256(script.encode()).digest()).decode()
    allowed = "; script-src 'sha256-%s'" % digest if script else ""
    return '<meta http-equiv="Content-Security-Policy" content="%s%s">\n' % (_POLICY, allowed)


def escape(text: str) -> str:
    return saxutils.escape(shown(text))


def escaped(value: Any) -> str:
    """A value as text of HTML, also in an attribute."""
    return html.escape(shown(str(value)))


def breakable(value: Any) -> str:
    """A value as text of HTML that is broken at the ends of its words, and else after many letters of one alone."""
    return "<wbr/>".join(map(html.escape, _WORDS.findall(shown(str(value)))))


def text_width(text: str, size: float) -> float:
    """About the width of a text at this font size, in pixels."""
    return CHARACTER * size * len(text)


def shortened(text: str, width: float, size: float) -> str:
    """The text, without words of its middle if it is wider than this many pixels, or, if none of its words has room,
    without letters."""
    most = int(width / (CHARACTER * size))
    if len(text) <= most:
        return text
    words, begin, end = _WORDS.findall(text), "", ""
    while len(begin + words[0] + end) < most:  # all of the words are more than that
        begin += words.pop(0)
        if len(begin + words[-1] + end) < most:
            end = words.pop() + end
    if not begin:
        begin, end = text[:(most - 1) // 2], text[len(text) - most // 2:]
    return begin + "\u2026" + end


def _attributes(values):
    texts = []
    for name, value in values.items():
        if value is not None:
            value = ("%.1f" % value).replace(".0", "") if isinstance(value, float) else str(value)
            texts.append(" %s=%s" % (name.removesuffix("_").replace("_", "-"), saxutils.quoteattr(value)))
    return "".join(texts)


class Svg:
    """An SVG of this size, in pixels, with a text that says what it shows to who doesn't see it. Attributes are named
    as in SVG, with `_` for `-`, and `class_` for `class`, which the SVG may have, too."""

    def __init__(self, width: int, height: int, label: str, class_: Optional[str] = None, letters: int = 13,
                 axis: Optional[str] = None) -> None:
        self.width, self.height, self.label, self.class_, self.letters = width, height, label, class_, letters
        self.axis = axis  # where a field has its place, for a page's script
        self.parts: List[str] = []

    def element(self, name: str, title: Optional[str] = None, words: str = "", **attributes: Any) -> None:
        """An element, with a title and words if these are given."""
        inner = ("<title>%s</title>" % escape(title) if title else "") + escape(words)
        end = ">%s</%s>" % (inner, name) if inner else "/>"
        self.parts.append("<" + name + _attributes(attributes) + end)

    def text(self, x: float, y: float, words: str, title: Optional[str] = None, **attributes: Any) -> None:
        self.element("text", title, words, x=float(x), y=float(y), **attributes)

    def box(self, x: float, y: float, width: float, height: float, fill: str, title: Optional[str] = None,
            **attributes: Any) -> None:
        self.element("rect", title, x=float(x), y=float(y), width=float(width), height=float(height), fill=fill,
                     **attributes)

    def line(self, x1: float, y1: float, x2: float, y2: float, stroke: str, title: Optional[str] = None,
             **attributes: Any) -> None:
        self.element("line", title, x1=float(x1), y1=float(y1), x2=float(x2), y2=float(y2), stroke=stroke, **attributes)

    def path(self, data: str, title: Optional[str] = None, **attributes: Any) -> None:
        self.element("path", title, d=data, **attributes)

    def legend(self, entries: Iterable[Tuple[str, Optional[str]]], left: int, right: int, y: int) -> None:
        """Names with their colours, from left to right, in as many lines as they need; a ring in the place of None."""
        x = left
        for name, fill in entries:
            width = 7 * len(name) + 24
            if x > left and x + width > right:
                x, y = left, y + 18
            if fill:
                self.box(x, y - 11, 14, 14, fill)
            else:
                self.ring(x + 7, y - 4)
            self.text(x + 20, y + 1, name)
            x += width + 10

    def ring(self, x: float, y: float, title: Optional[str] = None, **attributes: Any) -> None:
        self.element("circle", title, cx=x, cy=y, r=4, fill=PAPER, stroke=PINK, stroke_width=2, **attributes)

    def render(self) -> str:
        """The text of the SVG, on white."""
        head = "<svg" + _attributes({
            "xmlns": "http://www.w3.org/2000/svg", "width": self.width, "height": self.height,
            "viewBox": "0 0 %d %d" % (self.width, self.height), "font_family": "sans-serif", "font_size": self.letters,
            "fill": TEXT, "role": "img", "aria_label": shown(self.label), "class": self.class_,
            "data_axis": self.axis}) + ">"
        return "\n".join([head, '<rect width="100%%" height="100%%" fill="%s"/>' % PAPER] + self.parts + [
            "</svg>", ""])
