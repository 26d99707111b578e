"""What pages do in a browser: a field that is asked for, their widths, and the index, sorted and filtered."""

import base64
import hashlib
import html
import json
import os
import re

from compact import made, words_of
from discs import side
from ldvbi_side.command.summary import summary
from ldvbi_side.draw.index import Fault, index_of
from ldvbi_side.draw.page import page_of
from ldvbi_side.draw.together import page_of_joined
from ldvbi_side.join.captures import capture_of
from ldvbi_side.write.joined import join
from streams import line_with, NTSC, worn_line, write_stream

# What a page says of fields that are asked for one after the other; where the first drawing has its mark then, and of
# which fields bad lines are open
ASKED = """
<script>
const asked = FIELDS, found = [];
const next = () => {
  if (asked.length === 0) {
    document.querySelector("pre").textContent = found.join("\\n");
    return;
  }
  box.value = asked.shift();
  box.dispatchEvent(new Event("input"));
  setTimeout(() => {
    found.push([said.textContent, document.querySelector(".asked")?.getAttribute("x1"),
      [...document.querySelectorAll("details[data-field][open]")].map(one => one.dataset.field)].join("|"));
    next();
  }, 500);
};
next();
</script><pre></pre></body></html>
"""


# Which forms of the first drawing a page shows, and whether each part of the page is within the window
SHOWN = """
<pre></pre><script>
const isIn = one =>
  one.closest("svg, details:not([open]) div") ? true : one.getBoundingClientRect().right <= innerWidth;
document.querySelector("pre").textContent = [
  ...[...document.querySelectorAll("svg")].filter(one => one.getBoundingClientRect().width > 0).map(
    one => one.classList[0] + (one.getBoundingClientRect().right <= innerWidth)),
  [...document.querySelectorAll("*")].every(isIn), document.documentElement.scrollWidth <= innerWidth].join("\\n");
</script></body></html>
"""


# What the index shows at first, and after each action in JavaScript: the name and verdict of each row, or - for one
# that is hidden; then what the box says, the buttons that are pressed, and the heads by whose columns the rows are
# sorted. Last comes whether each part of the page is within the window, and each head within its table.
ACTIONS = """
<pre></pre><script>
const click = name => [...document.querySelectorAll("th button")].find(one => one.textContent === name).click();
const input = document.querySelector("input");
const type = words => { input.value = words; input.dispatchEvent(new Event("input")); };
const press = value => document.querySelector(`button[value=${value}]`).click();
const shown = () => [...[...document.querySelectorAll("tbody tr")].map(row => row.offsetHeight ?
    row.cells[0].textContent + "=" + row.cells[1].textContent.replace(/\\W/g, "") : "-"),
    document.querySelector("output").textContent,
    ...[...document.querySelectorAll("button[aria-pressed=true]")].map(one => one.value),
    ...[...document.querySelectorAll("th[aria-sort]")].map(one => one.textContent + " " + one.ariaSort)];
const fits = () => [...document.querySelectorAll("*")].every(
    one => one.getBoundingClientRect().right <= innerWidth ? one.scrollWidth <= innerWidth : false);
document.querySelector("pre").textContent = [() => {}, () => click("side"), () => click("side"), () => click("lost"),
    () => click("whole"), () => type("b/ NUMBER"), () => type(""), () => press("no"), () => press("fault"),
    () => press("no")].map(action => (action(), shown())).concat([innerWidth, fits()]).join("\\n");
</script></body></html>
"""


def shown_by_browser(room, *frames):
    """What a browser has in <pre> after it ran a script on a page of this width, for each of these pages. A page that
    is narrower than a window may be is in a frame."""
    for place, (name, _, script) in enumerate(frames):
        # The policy lets no other script run, so that of the test is named there, too.
        action, = re.findall("<script>(.*?)</script>", script, re.S)
        known = "script-src " if "script-src " in room.text(name) else "default-src 'none'; "
        text = room.text(name).replace(known, "script-src 'sha256-%s' %s" % (
            digest(action), known.replace("script-src ", "").replace("default-src", "; default-src")))
        room.write("frame%d.html" % place, text.replace("</body></html>", "") + script)
    room.write("frames.html", "".join(
        '<iframe src="frame%d.html" width="%d" height="900" style="border:0"></iframe>' % (place, width)
        for place, (_, width, _) in enumerate(frames)) + "<pre></pre><script>setInterval(() => document.querySelector("
        "'pre').textContent = JSON.stringify([...document.querySelectorAll('iframe')].map(one => one.contentDocument"
        ".querySelector('pre').textContent.split('\\n'))), 100)</script>")
    words = ["chromium", "--headless=new", "--no-sandbox", "--disable-gpu", "--disable-dev-shm-usage", "--dump-dom",
             "--allow-file-access-from-files", "--window-size=1400,1000", "--virtual-time-budget=10000"]
    # Chromium keeps what it remembers below HOME.
    text = room.run_words(*words, "file://" + room.named("frames.html"), command=[],
                          env={**os.environ, "HOME": room.folder})[1]
    return json.loads(html.unescape(re.search("<pre>(.*?)</pre>", text, re.S)[1]))


def digest(script):
    """The hash of a script, as a policy has it."""
    return base64.b64encode(hashlib.sha256(script.encode()).digest()).decode()


def test_pages_of_a_side(drawn):
    """Of 64 fields on 960 pixels from 150 on, of which the second ones begin frames. On a narrow page the narrow
    drawing is shown as it is, and nothing is beyond the window."""
    fields = words_of("1..32")
    fields[4] = [0, worn_line(0xF00003, NTSC, 7, 10), 0xF00003]
    fields[10] = [0x82CFFF, *2 * [line_with(0, NTSC, [(3, 300, True)])]]
    write_stream(drawn.path, NTSC, fields)
    drawn.metadata("side.tbc.json", count=64)
    drawn.printed("side.tbc --html page.html")
    cause, = set(re.findall(r"field 11, line 1[78]: (\w+)", drawn.text("page.html")))
    one, name = made("1..30 34..40 9.18=#79999 21=? O", side), "lost_pictures_of_a_disc.tbc"
    drawn.write("wide.html", page_of(one, name, summary(one.analysis.answer)))
    drawn.write("both.html", page_of_joined(join([capture_of(one, folder + name) for folder in ("one/", "two/")]), []))
    wide = [(page, width, SHOWN) for page in ("wide.html", "both.html") for width in (1300, 420)]
    asked, *shown = shown_by_browser(
        drawn, ("page.html", 1300, ASKED.replace("FIELDS", str([5, 64, 1, 11, 65]))), *wide)
    assert asked == [
        "frame 2; line 16: blank; line 17: F00003, recovered; line 18: F00003|217.5|5",
        "frame 32; line 16: blank; line 17: 800DDD; line 18: 800DDD|1102.5|",
        "frame 0; line 16: blank; line 17: F00001; line 18: F00001|157.5|",
        "frame 5; line 16: 82CFFF; line 17: %s; line 18: %s|307.5|11,11" % (cause, cause),
        "|307.5|"]
    assert shown == [[form + "true", "true", "true"] for form in ("broad", "narrow", "broad", "narrow")]


def test_the_index(room):
    """It is sorted by clicks, and filtered by kinds and words. Numbers in names count, and a fault has no lost ones.
    Long words of `try` and of why make no column wider than the window."""
    pages = []
    for name, fields in (("a/2", "1..3"), ("a/10", "7..9 12..14"), ("b/1 & #1", "Bx9")):
        one = made(fields, side)
        text = page_of(one, name, summary(one.analysis.answer))
        pages.append(room.write("p%d.html" % len(pages), text.replace(
            "&quot;try&quot;: null", "&quot;try&quot;: &quot;--system NTSC --black 16384 --white 30000 --meta "
            "/archive/captures/side.tbc.json&quot;")))
    room.write("index.html", index_of(room.named("index.html"), pages, [
        Fault("/x/odd", "odd", "not JSON: line 1 is wrong from column 2 on")]))
    for width, found in zip((1300, 420), shown_by_browser(
            room, *(("index.html", width, ACTIONS) for width in (1300, 420)))):
        assert found == [
            "a/10=no,odd=notread,b/1 & #1=canttell,a/2=yes,",
            "a/2=yes,a/10=no,b/1 & #1=canttell,odd=notread,,side ascending",
            "odd=notread,b/1 & #1=canttell,a/10=no,a/2=yes,,side descending",
            "odd=notread,b/1 & #1=canttell,a/2=yes,a/10=no,,lost ascending",
            "a/10=no,odd=notread,b/1 & #1=canttell,a/2=yes,,whole ascending",
            "-,-,b/1 & #1=canttell,-,1 of 4,whole ascending",
            "a/10=no,odd=notread,b/1 & #1=canttell,a/2=yes,4 of 4,whole ascending",
            "a/10=no,-,-,-,1 of 4,no,whole ascending", "a/10=no,odd=notread,-,-,2 of 4,no,fault,whole ascending",
            "-,odd=notread,-,-,1 of 4,fault,whole ascending", str(width), "true"]
