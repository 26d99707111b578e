"""A page that links the pages of many sides, with what each of them says. Its rows can be sorted and filtered."""

import contextlib
import html
import json
import os
import time
from collections import Counter
from html.parser import HTMLParser
from typing import Any, Dict, Iterable, List, NamedTuple, Optional, Sequence, Tuple
from urllib.parse import quote

from ldvbi.regular import regular
from ..answer.analysis import VERSION
from ..answer.whole import NO, OPEN, YES
from ..join.marks import Marks, marks_in
from ..texts import counted
from .discs import discs_of, is_gone
from .page import MARK
from .sorting import SCRIPT, looks_of
from .style import STYLE
from .svg import breakable, escaped, policy

FIRST, PART = 2048, 65536  # characters of a page that are read at once: at first, for most heads are short, and at most
MOST_PARTS = 64  # in which the head of a page has an end
FAULTS = "ldvbi-faults"  # what an index says of sides without a page, for the next one
FAULT, GONE = "not read", "gone"  # of a side without a page, and of a page whose side isn't there any longer
ORDER = (NO, FAULT, OPEN, YES, GONE)  # of the rows
CLASSES = {NO: "no", FAULT: "fault", OPEN: "open", YES: "yes", GONE: "gone"}
COLUMNS = ("side", "whole", "why", "lost", "unread", "try", "system", "format", "from", "to", "lead-in", "lead-out",
           "scanned on")


class Fault(NamedTuple):
    """A side without a page: the real path of its file, its name, and why it wasn't read."""
    side: str
    name: str
    text: str


class Row(NamedTuple):
    """What the index says of a side: its name, the link to its page or None, one of ORDER, why, the cells after that,
    and how many numbers are lost, by which the first of these is sorted."""
    name: str
    link: Optional[str]
    whole: str
    why: str
    cells: Sequence[Any] = ("",) * len(COLUMNS[3:])
    lost: int = -1


# ---- Pages that are there

class _Head(HTMLParser):
    """Finds the title of a page, and what it says under this name."""

    def __init__(self, name):
        super().__init__()
        self.title, self.said, self.is_read, self._is_title, self._name = "", None, False, False, name

    def handle_starttag(self, tag, attrs):
        known = dict(attrs)
        if tag == "meta" and known.get("name") == self._name:
            self.said = _parsed(known.get("content") or "")
        self.is_read = self.is_read or tag == "body"
        # a drawing on the page has titles, too
        self._is_title = tag == "title" and not self.title

    def handle_endtag(self, tag):
        self._is_title = False

    def handle_data(self, data):
        self.title += data if self._is_title else ""


def _parsed(text):
    """What a page says of itself, or None if it is none of ours."""
    try:
        return json.loads(text, parse_constant=_no_number)
    except (ValueError, RecursionError):
        return None


def _no_number(name):
    raise ValueError(name)


def _head_in(page, name):
    """The head of a page. Of its body, which may be long, little is read."""
    head, size = _Head(name), FIRST
    with open(page, encoding="utf-8", errors="replace", opener=regular) as file, contextlib.suppress(AssertionError):
        for _ in range(MOST_PARTS):  # of what isn't HTML the parser asserts that it is
            part, size = file.read(size), min(2 * size, PART)
            if head.is_read or not part:
                break
            head.feed(part)
    return head


def _is_said(said):
    """Whether these are the members that a page has of its side."""
    try:
        numbers, counts = said["numbers"], said["counts"]
        known = [numbers["count"], said["fields"], counts["lost"], counts["unread"], said["leadIn"], said["leadOut"]]
        texts = [said["system"], said["format"], said["lost"], *said["options"]]
        texts += [one["text"] for one in said["reasons"]]
        perhaps = [said["try"], said["side"], said["unit"]]
        return (said["whole"] in (NO, OPEN, YES) and {"least", "greatest"} <= numbers.keys() and "last" in said
                and all(type(one) is int for one in known) and all(isinstance(one, str) for one in texts)
                and all(one is None or isinstance(one, str) for one in perhaps)
                and isinstance(marks_in(said, ""), (Marks, type(None))))
    except (AttributeError, KeyError, TypeError, ValueError):
        return False


def head_of(page: str) -> Tuple[str, Dict[str, Any]]:
    """The title of a page, and what it says of itself. A ValueError if it is no page of a side, or has another form."""
    head = _head_in(page, MARK)
    if not isinstance(head.said, dict):
        raise ValueError("%s is no page that --html wrote" % page)
    if head.said.get("version") != VERSION:
        raise ValueError("%s is a page of another version: write it again" % page)
    if not _is_said(head.said):
        raise ValueError("%s is no page that --html wrote" % page)
    return head.title, head.said


def is_page(page: str) -> bool:
    """Whether this is a page of a side, of this form."""
    try:
        head_of(page)
    except (OSError, ValueError):
        return False
    return True


def sides_of(folder: str) -> Dict[str, Optional[str]]:
    """The names of the files in a folder that may be pages, each with the real path of its side, or None if that isn't
    known, as for a file that is no page."""
    return {name: _side_of(os.path.join(folder, name)) for name in os.listdir(folder) if name.endswith(".html")}


def name_kept(side: str) -> str:
    """The text of a file that keeps its name for the page of a side, by the real path of that."""
    return '<!DOCTYPE html>\n<meta name="%s" content="%s">\n' % (MARK, escaped(json.dumps({"side": side})))


def _said_in(page, name):
    """What a page says under this name, or None, as if there is no page."""
    try:
        return _head_in(page, name).said
    except (OSError, ValueError):
        return None


def _side_of(page):
    said = _said_in(page, MARK)
    side = said.get("side") if isinstance(said, dict) else None
    return side if isinstance(side, str) else None


def faults_in(index: str) -> List[Fault]:
    """The sides without a page for which an index says why, if the index is there."""
    said = _said_in(index, FAULTS)
    return [Fault(*one) for one in said if isinstance(one, list) and list(map(type, one)) == [str] * 3
            ] if isinstance(said, list) else []


def links_beside(path: str, sides: Iterable[str], index: str) -> Tuple[Dict[str, str], Optional[str]]:
    """The links from a page that is written to `path` to those of these sides in the same folder, by the paths of the
    sides as they are given, and to the index there, which has this name, or None if there is none."""
    folder, pages = os.path.dirname(os.path.abspath(path)), {}
    if os.path.isdir(folder):
        pages = {side: quote(os.fsencode(name)) for name, side in sides_of(folder).items() if side}
    links = {side: pages[os.path.realpath(side)] for side in sides if os.path.realpath(side) in pages}
    return links, index if isinstance(_said_in(os.path.join(folder, index), FAULTS), list) else None


# ---- The index

def index_of(path: str, pages: Iterable[str], faults: Sequence[Fault] = ()) -> str:
    """The text of an index that is written to `path`: a row for each of these pages, and for each of these sides
    without one, in the order of ORDER. It says for which pages the side isn't there any longer."""
    found = [(page, *head_of(page)) for page in pages]
    names = Counter([title for _, title, _ in found] + [fault.name for fault in faults])
    rows = [Row(fault.side if names[fault.name] > 1 else fault.name, None, FAULT, fault.text) for fault in faults]
    for page, title, said in found:
        link = quote(os.fsencode(os.path.relpath(page, os.path.dirname(os.path.abspath(path)))))
        name = said["side"] if names[title] > 1 and said["side"] else title
        rows.append(_row_of(name, link, said, said["side"] is not None and is_gone(said["side"]),
                            os.stat(page).st_mtime))
    rows.sort(key=lambda row: (ORDER.index(row.whole), row.name.split("/")))
    counts = Counter(row.whole for row in rows)
    return ('<!DOCTYPE html>\n<html lang="en"><head><meta charset="utf-8"><title>LaserDisc sides</title>\n'
            '%s<meta name="viewport" content="width=device-width, initial-scale=1">\n<meta name="%s" content="%s">\n'
            "<style>%s%s</style></head><body>\n<h1>%s</h1>\n%s"
            '<div class="wide"><table role="table"><thead role="rowgroup"><tr role="row">%s</tr></thead>\n'
            '<tbody role="rowgroup">%s</tbody></table></div>\n%s<script>%s</script></body></html>\n' % (
                policy(SCRIPT), FAULTS, escaped(json.dumps(faults)), STYLE, looks_of(COLUMNS), _counts_text(counts),
                _filter_of(counts), "".join('<th role="columnheader" scope="col">%s</th>' % name for name in COLUMNS),
                "\n".join(map(_text_of, rows)), discs_of(said for _, _, said in found), SCRIPT))


def _row_of(name, link, said, isnt_there, scanned):
    numbers = said["numbers"]
    reasons = "; ".join(one["text"] for one in said["reasons"])
    if isnt_there:
        reasons = "%s isn't there any longer; whole: %s%s" % (said["side"], said["whole"], reasons and "; " + reasons)
    span = [numbers["least"], numbers["greatest"]] if numbers["count"] else ["", ""]
    return Row(name, link, GONE if isnt_there else said["whole"], reasons, (
        said["lost"], said["counts"]["unread"], said["try"] or "", said["system"], said["format"], *span,
        said["leadIn"], said["leadOut"], time.strftime("%Y-%m-%d", time.localtime(scanned))), said["counts"]["lost"])


def _counts_text(counts):
    """How many sides there are of each kind."""
    kinds = (YES, NO, OPEN, *(one for one in (FAULT, GONE) if counts[one]))
    return "%s, whole: %s" % (counted(sum(counts.values()), "side"), ", ".join(
        "%d %s" % (counts[one], html.escape(one)) for one in kinds))


def _filter_of(counts):
    """A button for each kind of row, and a box for words; the script shows them."""
    kinds = (YES, NO, OPEN, FAULT, *((GONE,) if counts[GONE] else ()))
    return ('<p id="filter" hidden="hidden"><span role="group" aria-label="whole">%s</span> <label>Rows with '
            '<input type="search"/></label> <output></output></p>\n' % " ".join(
                '<button type="button" value="%s" aria-pressed="false">%s: %d</button>' % (
                    CLASSES[one], html.escape(one), counts[one]) for one in kinds))


def _text_of(row):
    name = breakable(row.name)
    link = '<a href="%s">%s</a>' % (escaped(row.link), name) if row.link else name
    lost, *others = row.cells
    cells = [' data-key="%d">%s' % (row.lost, escaped(lost)), *(">" + escaped(cell) for cell in others)]
    return ('<tr role="row"><td role="cell">%s</td><td role="cell" class="%s" data-key="%d">%s</td>'
            '<td role="cell">%s</td>%s</tr>' % (
                link, CLASSES[row.whole], ORDER.index(row.whole), escaped(row.whole), escaped(row.why),
                "".join('<td role="cell"%s</td>' % cell for cell in cells)))
