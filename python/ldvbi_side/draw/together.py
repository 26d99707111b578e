"""What several captures of one side have together, as one page of HTML that needs nothing else: in words, as bars, and
in full lists."""

from typing import Any, Dict, Iterable, List, Mapping, Optional

from ..as_json import entries
from ..join.entries import Joined
from ..join.plain import as_json
from .axis import BROAD, NARROW
from .bars import bars_of
from .page import CLASSES, link_to, list_of
from .style import DRAWN
from .svg import breakable, escaped, policy

# The lists of the answer that the page has, and how it names them
LISTS = {
    "lacks": "numbers that one capture lacks and another has", "alone": "numbers that one capture alone has",
    "better": "numbers that several captures have, and one shows better than the others",
    "missing": "numbers that no capture has",
    "leftOut": "numbers skipped by the disc itself", "ranges": "what the file of them takes from which capture",
    "disagreements": "disagreements of two captures",
}


def page_of_joined(joined: Joined, lines: Iterable[str], links: Optional[Mapping[str, str]] = None,
                   index: Optional[str] = None) -> str:
    """The text of the page. `lines` say in words what was joined. `links` lead from the names of captures to their
    pages, as far as these are there, and `index` to that of all sides."""
    title = ", ".join(one.name for one in joined.captures)
    parts = ['<!DOCTYPE html>\n<html lang="en"><head><meta charset="utf-8"><title>%s</title>\n'
             '%s<meta name="viewport" content="width=device-width, initial-scale=1">\n<style>%s</style></head><body>'
             % (escaped(title), policy(), DRAWN), link_to(index), "<h1>%s</h1>" % breakable(title)]
    parts.append('<div class="%s">together: whole: %s%s</div>' % (
        CLASSES[joined.whole], escaped(joined.whole), list_of(one.text for one in joined.reasons)))
    parts += [bars_of(joined, BROAD, "broad"), bars_of(joined, NARROW, "narrow"), _captures(joined, links or {})]
    parts += ["<p>%s</p>" % escaped(line) for line in list(lines)[1:]]
    plain = as_json(joined)
    plain["disagreements"] = [
        {"why": found.why, **part} for found in joined.disagreements for part in entries(found.between)]
    parts += [_fold(name, text, plain[name]) for name, text in LISTS.items() if plain[name]]
    return "\n".join([*filter(None, parts), "</body></html>", ""])


def _captures(joined: Joined, links: Mapping[str, str]) -> str:
    """A row for each capture: its name, which is a link if it has a page, whether it is whole, and how many numbers it
    has, lacks and has alone."""
    rows = []
    for one in joined.captures:
        name = breakable(one.name)
        lacks = sum(part.count_ for part in joined.lacks if part.capture == one.name)
        alone = sum(part.count_ for part in joined.alone if part.capture == one.name)
        rows.append("".join("<td>%s</td>" % cell for cell in (
            '<a href="%s">%s</a>' % (escaped(links[one.name]), name) if one.name in links else name,
            escaped(one.whole), one.numbers.count_, lacks, alone)))
    heads = "".join("<th>%s</th>" % head for head in ("capture", "whole", "has", "lacks", "has alone"))
    return '<table id="captures"><thead><tr>%s</tr></thead>\n<tbody>%s</tbody></table>' % (
        heads, "\n".join("<tr>%s</tr>" % row for row in rows))


def _fold(name: str, text: str, ones: List[Dict[str, Any]]) -> str:
    """A list in full, under its name and how many rows it has."""
    title = "%s: %d" % (escaped(text), len(ones))
    head = "".join("<th>%s</th>" % column for column in ones[0])
    rows = "\n".join("<tr>%s</tr>" % "".join("<td>%s</td>" % _cell(value) for value in one.values())
                     for one in ones)
    return ('<details id="%s"><summary>%s</summary><div class="wide"><table><thead><tr>%s</tr></thead>\n<tbody>%s'
            "</tbody></table></div></details>" % (name, title, head, rows))


def _cell(value: Any) -> str:
    return escaped(", ".join(value) if isinstance(value, list) else value)
