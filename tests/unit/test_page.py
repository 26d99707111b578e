"""Pages of a side, of captures together, and of many sides: whole, and compared with the answer. What their scripts do
and their looks, a browser shows (test_browser.py)."""

import base64
import hashlib
import json
import os
import re
import runpy
import xml.etree.ElementTree as xml
import zlib
from unittest import mock

from compact import made
from discs import side
import ldvbi
from ldvbi_side.command.summary import summary
from ldvbi_side.draw import finding, sorting, style, together
from ldvbi_side.draw.axis import BROAD, NARROW
from ldvbi_side.draw.bars import bars_of
from ldvbi_side.draw.drawing import drawing_of
from ldvbi_side.draw.folds import LISTS
from ldvbi_side.draw.index import Fault, index_of
from ldvbi_side.draw.page import page_of
from ldvbi_side.draw.plotting import plot_line
from ldvbi_side.draw.svg import breakable
from ldvbi_side.draw.together import page_of_joined
from ldvbi_side.join.captures import capture_of
from ldvbi_side.write.joined import join
import pytest
from room import reason
from streams import line_with, NTSC, worn_line, write_stream

# What stands for the tags of tables and lists
SHORT = (("</td><td>", " | "), ("</th><th>", " | "), ("</td></tr>\n<tr><td>", " ; "), ("</dd><dt>", " ; "),
         ("</dt><dd>", ": "), ('</summary><div class="wide"><table><thead><tr><th>', " [ "),
         ("</th></tr></thead>\n<tbody><tr><td>", " ] "), ("</td></tr></tbody></table></div></details>\n", ""),
         ('<th role="columnheader" scope="col">', "<th>"), ('</td><td role="cell">', " | "),
         ("&quot;", '"'), ("&#x27;", "'"))
HEAD = """<!DOCTYPE html>
<html lang="en"><head><meta charset="utf-8"><title>%s</title>
<meta http-equiv="Content-Security-Policy" content="default-src 'none'; style-src 'unsafe-inline'; base-uri 'none'; \
form-action 'none'%s">
<meta name="viewport" content="width=device-width, initial-scale=1">
"""


def digest(script):
    """What a policy has for a script."""
    return "; script-src 'sha256-%s'" % base64.b64encode(hashlib.sha256(script.encode()).digest()).decode()


def short(text, *known):
    """A page with names in the place of texts that are known, and of the tags of tables."""
    for name, part in known:
        assert text.count(part) == 1
        text = text.replace(part, name)
    for tags, name in SHORT:
        text = text.replace(tags, name)
    return text.split("\n")


def page(one, plot=None, title="side.tbc", more=(), **known):
    one = made(one, side) if isinstance(one, str) else one
    return page_of(one, title, [*summary(one.analysis.answer), *more], plot, **known)


SIDE_PAGE = HEAD % ("a <b>.tbc", digest(finding.SCRIPT)) + """\
<meta name="ldvbi-side" content="SAID">
<style>STYLE</style></head><body>
<p><a href="index.html">all sides</a></p>
<h1>a <wbr/>&lt;b&gt;.<wbr/>tbc</h1>
<div class="open">whole: can't tell<ul><li>too few numbers to judge by</li><li>numbers set aside in 1 of 3 fields</li>\
</ul></div>
BROADNARROW
<p id="find" hidden="hidden" data-begin="1" data-words="WORDS"><label>field <input type="number" min="1" max="6" \
required="required"/></label> <output></output></p>
<p>nothing lost, unread, repeated</p>
<dl><dt>system: PAL, CAV ; fields: 6 ; line 16: 1 words, 0 of them read only after smoothing; 0 bad (0.00 %), 5 blank \
; line 17: 4 words, 0 of them read only after smoothing; 1 bad (20.00 %), 1 blank ; line 18: 5 words, 0 of them read \
only after smoothing; 0 bad (0.00 %), 1 blank ; pictures: 2, from 1 to 2 ; doubtful, set aside: 1 (picture 5 in field \
5 line 18) ; chapters: 1 (chapter 0 in field 2) ; codes out of place: 1 (chapter in field 4 line 16)</dd></dl>
<details id="doubtful"><summary>doubtful, set aside: 1 [ field | line | word | kind | pass | why | number | before | \
after ] 5 | 18 | F00005 | picture | 1 | alone | 5 | 2 in field 3 | \
<details id="chapters"><summary>chapters: 1 [ chapter | field | last | after | number | frame ] 0 | 2 | 6 |  | 1 | 1\
<details id="stray"><summary>codes out of place: 1 [ field | line | word | kind | pass | why ] 4 | 16 | 801DDD | \
chapter | 1 | line\
<details id="badLines"><summary>bad lines: 1 [ field | line | cause | column | offset | bytes ] 5 | 17 | change 170 | \
170 | 2878360 | 2270\
<details id="showings"><summary>numbers as they come by: 2 [ number | first | last ] 1 | 1 | 1 ; 2 | 3 | 3\
<h2>Bad lines, drawn</h2>
<details data-field="5"><summary>field 5, line 17: change 170</summary>
<svg>5 17</svg></details>
<script>SCRIPT</script></body></html>
"""
# What the page says of itself to the index
SAID = {
    "version": 3, "whole": "can't tell", "reasons": [
        {"why": "numbers", "whole": "can't tell", "text": "too few numbers to judge by"},
        {"why": "doubtful", "whole": "can't tell", "text": "numbers set aside in 1 of 3 fields"}],
    "system": "PAL", "format": "cav", "unit": "picture", "fields": 6,
    "numbers": {"count": 2, "least": 1, "greatest": 2},
    "last": 2, "leadIn": 0, "leadOut": 0, "lost": "none", "counts": {"lost": 0, "unread": 0}, "try": None,
    "side": "/x/a <b>.tbc", "options": ["--open-end"], "marks": {
        "pace": "video", "said": {"chapter": [[1, 2, 0]], "programme status": []}, "lasting": [[1, 2, 1]], "users": [],
        "begins": None, "ends": None}}


def test_a_whole_page():
    """Of a side whose third picture is doubtful. The words of each line are packed by their causes, passes and bytes
    from the lowest on."""
    one, name = made("1..3 5=-/?/#5 4=c1/-/-", side), "a <b>.tbc"
    text = page(one, lambda bad: "<svg>%d %d</svg>" % (bad.field, bad.line), name, path="/x/" + name,
                words=["--open-end"], index="index.html")
    words = re.search('data-words="(.*?)"', text)[1]
    planes = [[(reading.cause.value, reading.pass_, *reading.word.to_bytes(3, "little")) for reading in line]
              for line in zip(*one.readings)]
    assert zlib.decompress(base64.b64decode(words)) == b"".join(bytes(part) for line in planes for part in zip(*line))
    assert short(text, ("STYLE", style.DRAWN), ("SCRIPT", finding.SCRIPT), ("WORDS", words),
                 ("BROAD", drawing_of(one, name, BROAD, "broad")), ("NARROW", drawing_of(one, name, NARROW, "narrow")),
                 ("SAID", json.dumps(SAID).replace('"', "&quot;").replace("'", "&#x27;").replace("<", "&lt;").replace(
                     ">", "&gt;"))) == SIDE_PAGE.replace("<b>", "&lt;b&gt;", 1).split("\n")


@pytest.mark.parametrize("order, places", (("little", (4, 5, 6)), ("big", (7, 6, 5))))
def test_where_a_packed_word_has_its_bytes(order, places):
    """The lowest of four bytes, which stand after a line's cause and pass and two more, is the first or the last."""
    with mock.patch("sys.byteorder", order):
        assert runpy.run_path(finding.__file__)["_PLACES"] == (0, 1, *places)


INDEX = HEAD % ("LaserDisc sides", digest(sorting.SCRIPT)) + """\
<meta name="ldvbi-faults" content="[["/x/b", "b&lt;.tbc", "no &lt;such&gt; file"]]">
<style>STYLE</style></head><body>
<h1>5 sides, whole: 2 yes, 1 no, 0 can't tell, 1 not read, 1 gone</h1>
<p id="filter" hidden="hidden"><span role="group" aria-label="whole">\
<button type="button" value="yes" aria-pressed="false">yes: 2</button> \
<button type="button" value="no" aria-pressed="false">no: 1</button> \
<button type="button" value="open" aria-pressed="false">can't tell: 0</button> \
<button type="button" value="fault" aria-pressed="false">not read: 1</button> \
<button type="button" value="gone" aria-pressed="false">gone: 1</button></span> \
<label>Rows with <input type="search"/></label> <output></output></p>
<div class="wide"><table role="table"><thead role="rowgroup"><tr role="row"><th>side</th><th>whole</th><th>why</th>\
<th>lost</th><th>unread</th><th>try</th><th>system</th><th>format</th><th>from</th><th>to</th><th>lead-in</th>\
<th>lead-out</th><th>scanned on</th></tr></thead>
<tbody role="rowgroup"><tr role="row"><td role="cell"><a href="pages/p%263.html">a_<wbr/>3.<wbr/>tbc</a></td>\
<td role="cell" class="no" data-key="0">no | 4 fields lost; 2 pictures lost</td><td role="cell" data-key="2">2 \
pictures, 4 fields | 0 |  | PAL | cav | 1 | 14 | 0 | 0 | 2023-11-14</td></tr>
<tr role="row"><td role="cell">b&lt;.<wbr/>tbc</td><td role="cell" class="fault" data-key="1">not read | no \
&lt;such&gt; file</td><td role="cell" data-key="-1"> |  |  |  |  |  |  |  |  | </td></tr>
<tr role="row"><td role="cell"><a href="pages/p%261.html">a_<wbr/>1.<wbr/>tbc</a></td>\
<td role="cell" class="yes" data-key="3">yes | </td><td role="cell" data-key="0">none | 1 |  | PAL | clv | 0:00:00.00 \
| 0:00:00.09 | 0 | 0 | 2023-11-14</td></tr>
<tr role="row"><td role="cell"><a href="pages/p%262.html">a_<wbr/>2.<wbr/>tbc</a></td>\
<td role="cell" class="yes" data-key="3">yes | </td><td role="cell" data-key="0">none | 0 |  | PAL | cav | 1 | 11 | 1 \
| \
1 | 2023-11-14</td></tr>
<tr role="row"><td role="cell"><a href="pages/p%264.html">a_<wbr/>4.<wbr/>tbc</a></td>\
<td role="cell" class="gone" data-key="4">gone | FOLDER/a_4.tbc isn't there any longer; whole: can't tell; no picture \
number and no time</td><td role="cell" data-key="0">none | 0 |  | PAL | neither |  |  | 0 | 0 | 2023-11-14</td></tr>\
</tbody></table></div>
<h2>May be one disc</h2>
<ul id="discs">
<li>users' code: <code>ldvbi-side join --open-end FOLDER/a_2.tbc FOLDER/a_3.tbc</code></li>
</ul>
<script>SCRIPT</script></body></html>
"""


def test_a_whole_index(room):
    """Of four sides, of which two have the same users' code and one's file is gone, and of one without a page."""
    pages = []
    for number, text in enumerate(("t0..9 9.16=?", "83D0A1/-/- L 1..12 25=B O", "83D0A1/-/- 1..9 12..14", "B"), 1):
        name = "a_%d.tbc" % number
        pages.append(room.write("p&%d.html" % number, page(
            text, None, name, path=room.named(name), words=["--open-end"])))
        os.utime(pages[-1], (1699963200, 1699963200))  # noon of November 14, 2023
        if number != 4:
            room.write(name, "")
    text = index_of(os.path.join(os.path.dirname(room.folder), "index.html"), pages,
                    [Fault("/x/b", "b<.tbc", "no <such> file")])
    looks = sorting.looks_of(["side", "whole", "why", "lost", "unread", "try", "system", "format", "from", "to",
                              "lead-in", "lead-out", "scanned on"])
    folder = os.path.basename(room.folder)
    assert short(text.replace(room.folder, "FOLDER").replace('"%s/' % folder, '"pages/'),
                 ("STYLE", style.STYLE + looks), ("SCRIPT", sorting.SCRIPT)) == INDEX.split("\n")


JOINED_PAGE = HEAD % ("&lt;a&gt;.tbc, b.tbc", "") + """\
<style>STYLE</style></head><body>
<p><a href="index.html">all sides</a></p>
<h1>&lt;a&gt;.<wbr/>tbc, <wbr/>b.<wbr/>tbc</h1>
<div class="no">together: whole: no<ul><li>1 picture lost</li><li>1 picture may have another's field \
(11)</li></ul></div>
BROAD
NARROW
<table id="captures"><thead><tr><th>capture | whole | has | lacks | has alone ] <a href="a&amp;.html">&lt;a&gt;.<wbr/>\
tbc</a> | no | 21 | 2 | 1 ; b.<wbr/>tbc | no | 22 | 1 | 2</td></tr></tbody></table>
<p>said</p>
<details id="lacks"><summary>numbers that one capture lacks and another has: 3 [ capture | first | last | count | in ] \
&lt;a&gt;.tbc | 11 | 11 | 1 | b.tbc ; &lt;a&gt;.tbc | 13 | 13 | 1 | b.tbc ; b.tbc | 6 | 6 | 1 | &lt;a&gt;.tbc\
<details id="alone"><summary>numbers that one capture alone has: 3 [ capture | first | last | count ] &lt;a&gt;.tbc | \
6 | 6 | 1 ; b.tbc | 11 | 11 | 1 ; b.tbc | 13 | 13 | 1\
<details id="better"><summary>numbers that several captures have, and one shows better than the others: 2 [ capture | \
first | last | count ] &lt;a&gt;.tbc | 5 | 5 | 1 ; b.tbc | 10 | 10 | 1\
<details id="missing"><summary>numbers that no capture has: 1 [ first | last | count | why ] 12 | 12 | 1 | lost\
<details id="ranges"><summary>what the file of them takes from which capture: 4 [ first | last | count | source | \
field | \
lastField | how ] 1 | 6 | 6 | &lt;a&gt;.tbc | 1 | 12 | whole ; 7 | 10 | 4 | b.tbc | 11 | 18 | whole ; 11 | 11 | 1 | \
b.tbc | 19 | 20 | unsure ; 13 | 24 | 12 | b.tbc | 21 | 44 | whole\
</body></html>
"""


def test_a_whole_page_of_captures():
    """Pictures 11 to 13 are lost in one, which may lack a field of 10, too, and 6 and 12 in the other."""
    found = join([capture_of(made(text, side), name) for name, text in (
        ("<a>.tbc", "1..24 -21:26"), ("b.tbc", "1..24 -23:24 -11:12"))])
    text = page_of_joined(found, ["", "said"], {"<a>.tbc": "a&.html"}, "index.html")
    assert short(text, ("STYLE", style.DRAWN), ("BROAD", bars_of(found, BROAD, "broad")),
                 ("NARROW", bars_of(found, NARROW, "narrow"))) == JOINED_PAGE.split("\n")
    text = "\n".join(short(page_of_joined(join([capture_of(made(text, side), name) for name, text in (
        ("a", "1..50 151..170 71..100"), ("b", "1..100"))]), [])))
    assert ("<details id=\"disagreements\"><summary>disagreements of two captures: 2 [ why | capture | first | last "
            "| field | lastField ] detour | a | 151 | 170 | 101 | 140 ; detour | b | 51 | 70 | 101 | 140") in text
    assert "<a " not in text
    found = join([capture_of(made(text, side), name) for name, text in zip("abc", ("1..24 -23:24", "1..24", "1..24"))])
    assert "<title>12: not in a, but in b and c</title>" in bars_of(found)


class Page:
    """The parts of a page, which is XML but for its <meta>: texts by their tags, and tables by their names."""

    def __init__(self, text):
        tree = xml.fromstring(re.sub("(<meta [^>]*)>", r"\1/>", text))
        self.heads, self.rows, self.texts = {}, {}, {}
        for part in tree.iter():
            self.texts.setdefault(part.tag, []).append(
                "".join(part.itertext()) if list(part.iter("wbr")) else part.text or "")
        for one in tree.iter("details"):
            self.heads[one.get("id")] = [head.text for head in one.iter("th")]
            self.rows[one.get("id")] = [[cell.text or "" for cell in row.iter("td")] for row in one.iter("tr")][1:]

    def facts(self):
        return dict(zip(self.texts["dt"], self.texts["dd"]))


def cell(value):
    """What a cell says of a value of the answer."""
    if isinstance(value, dict):
        return "%(number)s in field %(field)s" % value
    return {"None": "", "False": "no", "True": "yes"}.get(str(value), str(value).strip("[]"))


def test_each_list_is_there_in_full():
    """Each cell stands under its head: the name of a member, or what the items of such a list are."""
    seen = set()
    for text in (
            "Lx2 1..40 21..40 L 7=83D0A1/?/88FFFB 9=8DC0A1/#79999/#4 11=8AE000/S/#5 -41:44",
            "NTSC t0..2 t4..5 t0..2 t4..5 t0..2 t4..5 t0..2 t4..5", "m9x9", "", "Bx3", "t1490..1509 15.18=@0:08"):
        answer, read = made(text, side).answer, Page(page(text))
        assert {name for name, value in answer.items() if isinstance(value, list)} == set(LISTS) | {"reasons"}
        for name in LISTS:
            items = [item if isinstance(item, dict) else dict(zip(("number", "first", "last"), item)) if name ==
                     "showings" else {"field": item} for item in answer[name]]
            assert read.heads.get(name, []) == (list(items[0]) if items else [])
            assert read.rows.get(name, []) == [list(map(cell, item.values())) for item in items]
            seen |= {LISTS[name] for _ in items}
        assert {text.rpartition(":")[0] for text in read.texts.get("summary", [])} <= seen
    assert len(seen) == 17 and "; ".join([*LISTS.values(), together.LISTS["leftOut"]]) == (
        "numbers lost, undecided or unread; lost fields; unread, and their fields; skipped by the disc itself; "
        "breaks; detours; stills; shown again; padding; swapped fields; other speeds; doubtful, set aside; lines 17 "
        "and 18 differ; chapters of lines 17 and 18 differ; second rows of numbers; chapters; picture stops; picture "
        "stops that aren't sure; lead-in; lead-out; codes out of place; unknown words; programme status; users' "
        "codes; bad lines; fields whose minute is another field's; fields whose due number is the nearest word of "
        "their lines; numbers as they come by; numbers skipped by the disc itself")


def test_what_is_said():
    """Two things that a line of the summary names stand apart, and what there is none of isn't said, but in one line
    for all that one looks for first, unless nothing is known."""
    read = Page(page("Lx4 1..30 Ox4"))
    assert read.facts() == {
        "system": "PAL, CAV", "fields": "68",
        "line 16": "0 words, 0 of them read only after smoothing; 0 bad (0.00 %), 68 blank",
        "line 17": "68 words, 0 of them read only after smoothing; 0 bad (0.00 %), 0 blank",
        "line 18": "68 words, 0 of them read only after smoothing; 0 bad (0.00 %), 0 blank",
        "pictures": "30, from 1 to 30", "chapters": "1 (chapter 0 in field 6)",
        "lead-in": "4 (fields 1 to 4)", "lead-out": "4 (fields 65 to 68)"}
    assert list(read.rows) == ["chapters", "leadIn", "leadOut", "showings"]
    for text, wanted in (
            ("1..30", "lost, unread, repeated, doubtful"), ("1..30 -21:22", "unread, repeated, doubtful"), ("Bx9", ""),
            ("1..30 21=?/?/? 22=?/?/?", "lost, repeated, doubtful"), ("1..9 ?x4 14..30", "repeated, doubtful"),
            ("1..40 -40", "unread, repeated, doubtful"), ("7..9", "unread, repeated, doubtful"),
            ("1..20 16..30", "lost, unread, doubtful"), ("1..30 9.18=#79999", "lost, unread, repeated")):
        assert re.findall("<p>nothing (.*)</p>", page(text)) == ([wanted] if wanted else []), text
    late = "<li>12 fields lost</li><li>6 pictures lost</li><li>begins at 7, ends at 9</li>"
    for text, kind, whole in (("1..3", "yes", "yes"), ("7..9", "no", "no<ul>%s</ul>" % late),
                              ("", "open", "can&#x27;t tell<ul><li>no picture number and no time</li></ul>")):
        assert '<div class="%s">whole: %s</div>' % (kind, whole) in page(text)


def test_bad_lines_of_a_page():
    """Those of unread and doubtful numbers come first. Line 16 of CAV bears no code, so its noise is no bad line; of a
    side without numbers nobody knows that."""
    read = Page(page("1..30 5=?/#2/#2 7=?/?/#4 41=?/?/? 42=-/-/! 51=-/?/#79999"))
    assert [row[:3] for row in read.rows["badLines"]] == [
        ["41", "17", "change 170"], ["41", "18", "change 170"], ["51", "17", "change 170"], ["7", "17", "change 170"],
        ["42", "18", "hold 200"]]
    assert [read.facts()["line %d" % line] for line in (16, 17)] == [
        "bears no code on this disc: 0 words, 3 fields with noise, 57 blank",
        "56 words, 0 of them read only after smoothing; 3 bad (5.08 %), 1 blank"]
    assert [row[1] for row in Page(page("?/?/-x9")).rows["badLines"][:2]] == ["16", "17"]
    assert [row[1] for row in Page(page("t0..20 9=?/M/-")).rows["badLines"]] == ["16"]


def test_names_are_escaped():
    """Those of a list, too, that a later answer has."""
    one, name = made("Bx60", side), '<b>"&\u00fc</b>.tbc'
    one.answer["<b>&later</b>"] = [{"<b>&first": "<b>&one</b>", "near": None, "is": False, "places": [1, 2]}]
    one.answer["confirmed"] = [7]
    read = Page(page(one, title=name, more=["name: " + name]))
    assert [read.texts["h1"], read.texts["title"], read.texts["dd"][-1:]] == [[name]] * 3
    assert (read.heads["<b>&later</b>"][0], read.heads["confirmed"]) == ("<b>&first", ["field"])
    assert read.rows["<b>&later</b>"] == [["<b>&one</b>", "", "no", "1, 2"]]
    assert "b" not in read.texts
    for name, wanted in (("a/lost_side-2.tbc", "a/|lost_|side-|2.|tbc"), ("/b  c", "/|b  |c"), ("", ""),
                         ("x" * 61, "x" * 30 + "|" + "x" * 30 + "|x"), ("<&>.", "&lt;&amp;&gt;.")):
        assert breakable(name).replace("<wbr/>", "|") == wanted


def test_long_lists():
    """Before the first 500 rows of a list stand its groups, or the runs of its numbers."""
    read = Page(page("1..501 4..9 ?/!/?x251 ~/-/?"))
    assert list(map(" ".join, read.rows["badLines"][:3])) == ["18 change 252 1015 1266", "17 hold 251 1015 1265", ""]
    assert read.heads["badLines"][:5] == ["line", "cause", "count", "first field", "last field"]
    assert read.heads["showings"] == ["numbers", "to", "first", "last", "count", "number", "first", "last"]
    assert read.rows["showings"][:3] == [["1", "501", "1", "1001", "501"], ["4", "9", "1003", "1013", "6"], []]
    for name, count in (("badLines", 503), ("showings", 507)):
        assert len(read.rows[name]) - read.rows[name].index([]) - 1 == 500
    for text, rows, more in (("1..1300 3:2600/4=B", 650, "<p>and 150 more groups</p>"), ("1..500", 500, None),
                             ("1..998 3:1996/4=B 999..1000", 501, ""),
                             ("1..998 3:1996/4=B 999..1000 1002", 502, "<p>and 1 more groups</p>")):
        fold, = re.findall('<details id="showings">(.*?)</details>', page(text), re.S)
        head = "" if more is None else (
            "<p>In groups:</p>TABLE%s<p>The first 500 of %d rows. This page leaves out the others; <code>ldvbi-side "
            "--json</code> prints all.</p>" % (more, rows))
        assert re.sub('<div class="wide"><table>.*?</table></div>', "TABLE", fold, flags=re.S) == (
            "<summary>numbers as they come by: %d</summary>%sTABLE" % (rows, head))


@pytest.mark.parametrize("text, count, size, heads", (
    ("1", 0, 1, []), ("?/-/-", 1, 1, ["drawn"]), ("?/?/?x66 ?", 200, 1, ["drawn"]),
    ("?/?/?x67", 200, 1, ["the first 200 of 201, drawn"]), ("?/?/?x67", 3, 400000, ["the first 3 of 201, drawn"]),
    ("?/?/?x67", 2, 1500000 - 82, ["the first 2 of 201, drawn"]),
    ("?/?/?x67", 1, 1500001 - 82, ["the first 1 of 201, drawn"])))
def test_bad_lines_are_drawn_up_to_a_count_and_a_size(text, count, size, heads):
    """The first one has a head and an end of 82 characters. Each other drawing is twice as long."""
    plot = mock.Mock(side_effect=lambda _: "x" * size * min(plot.call_count, 2))
    assert re.findall("<h2>Bad lines, (.*)</h2>", page(text, plot)) == heads
    bad = made(text, side).analysis.answer.bad_lines
    assert plot.call_args_list == [mock.call(one) for one in bad[:count]]
    assert "<h2>" not in page(text)


def test_each_drawing_is_that_of_the_same_line_alone(drawn):
    """A line with a few high columns has no row of a word behind it, and none has one without recovered words."""
    words = {(1, 17): 0xF00001, (3, 17): 0xF00002, (3, 18): 0xF00002, (6, 16): 0x8DC0A1}
    lines = {place: worn_line(words[place], NTSC, 7 + count, 10 + count) for count, place in enumerate(words)}
    lines[7, 16], name = line_with(0, NTSC, [(3, 30, True)]), "a <b>&.tbc"
    write_stream(drawn.named(name), NTSC, [[lines.get((field, line), 0) for line in (16, 17, 18)]
                                           for field in range(1, 8)])
    for more, near in (("LEVELS", words), ("--no-recover", {})):
        drawn.printed(name, "LEVELS", "--html", "page.html", more)
        folds = re.findall(r"<details data-.*?><summary>field (\d+), line (\d+): (.*?)</summary>\n(.*?)</details>",
                           drawn.text("page.html"), re.S)
        assert [(int(field), int(line)) for field, line, _, _ in folds] == list(lines)
        recovered = [re.findall(', <span class="recovered">recovered: (.*)</span>$', fold[2]) for fold in folds]
        assert recovered == [["%06X" % near[place]] if place in near else [] for place in lines]
        for place, (field, line, _, text) in zip(lines, folds):
            assert drawn.printed(name, "LEVELS", "--plot-line", field, line, more).decode() == text
            assert "a &lt;b&gt;&amp;.tbc, field %s, line %s" % (field, line) in text
            assert ("the row of %06X from column 150 on" % near.get(place, 0) in text) == (place in near)


def test_other_lines(drawn):
    """Fields have more lines than those with words; and a file may become shorter."""
    field = bytearray(ldvbi.field_bytes("NTSC"))
    field[1820 * 262:] = ldvbi.draw_line(0xF12345, *NTSC)
    drawn.write("side.tbc", bytes(field))
    for place, text in (("1 263", b">F12345, by the samples as they are"), ("1 1", b">no word: blank (no sample is")):
        assert text in drawn.printed("side.tbc LEVELS --plot-line " + place)
    for place, text in (("1 264", "there is no line 264: a field of NTSC has 263"),
                        ("2 16", "it has no field 2, but 1 whole fields")):
        drawn.refused("side.tbc: " + text, "side.tbc LEVELS --plot-line " + place)
    drawn.refused("side.vbi.json is a document, and --plot-line is for a TBC file", "side.vbi.json --plot-line 1 16")
    with ldvbi.Stream(drawn.path, *NTSC) as stream:
        os.truncate(drawn.path, 16 * 1820 - 1)
        assert reason(plot_line, stream, drawn.path, 1, 16) == drawn.path + " became shorter while it was read"
