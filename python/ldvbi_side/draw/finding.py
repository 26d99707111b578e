"""The box of a page in which a field is asked for: its frame, and what its lines show. The page has the words of all
fields, packed, and a script that unpacks them when they are first asked for. It marks the field in the drawings, too,
and opens the drawings of its bad lines. Without the script there is no box. A page is XML, so the script has no
character that has a meaning in XML."""

import base64
import sys
import zlib

from ldvbi import Cause
from ldvbi.readings import PACKED_FIELD, PackedFields

# Where a packed line has its cause, its pass, and the bytes of its word from the lowest on
_PLACES = (0, 1, 4, 5, 6) if sys.byteorder == "little" else (0, 1, 7, 6, 5)
_LINE = PACKED_FIELD.size // 3

SCRIPT = """
const find = document.getElementById("find"), box = find.querySelector("input"), said = find.querySelector("output");
const causes = [%s], passes = ["", "", ", read only after smoothing", ", recovered"];
const count = Number(box.max), begin = Number(find.dataset.begin);
let unpacked = null;
const unpack = () => {
  const packed = Uint8Array.from(atob(find.dataset.words), one => one.charCodeAt(0));
  const stream = new Blob([packed]).stream().pipeThrough(new DecompressionStream("deflate"));
  return new Response(stream).arrayBuffer().then(buffer => new Uint8Array(buffer));
};
const lineText = (bytes, line, field) => {
  const [cause, pass, low, middle, high] = [0, 1, 2, 3, 4].map(part => bytes[(5 * line + part) * count + field - 1]);
  const word = [high, middle, low].map(one => one.toString(16).padStart(2, "0")).join("").toUpperCase();
  return "line " + (16 + line) + ": " + (pass ? word + passes[pass] : causes[cause]);
};
const mark = field => document.querySelectorAll("svg[data-axis]").forEach(drawing => {
  const [left, width, top, bottom] = drawing.dataset.axis.split(" ").map(Number);
  const line = drawing.querySelector(".asked") ?? drawing.appendChild(
    document.createElementNS(drawing.namespaceURI, "line"));
  const x = left + width * (field - 0.5) / count;
  Object.entries({class: "asked", x1: x, x2: x, y1: top, y2: bottom}).forEach(one => line.setAttribute(...one));
});
box.oninput = async () => {
  const field = box.validity.valid ? box.valueAsNumber : NaN;
  document.querySelectorAll("details[data-field]").forEach(one => one.open = Number(one.dataset.field) === field);
  if (isNaN(field)) {
    said.textContent = "";
    return;
  }
  mark(field);
  const bytes = await (unpacked ??= unpack());
  said.textContent = ["frame " + Math.max(Math.floor((field - begin) / 2) + 1, 0),
    ...[0, 1, 2].map(line => lineText(bytes, line, field))].join("; ");
};
find.hidden = typeof DecompressionStream === "undefined";
""" % ", ".join('"%s"' % cause.name for cause in Cause)


def finder_of(readings: PackedFields, begin: int) -> str:
    """The box, for fields with these readings, of which `begin` is the first that begins a frame."""
    planes = b"".join(readings.data[_LINE * line + place::PACKED_FIELD.size] for line in range(3) for place in _PLACES)
    return ('<p id="find" hidden="hidden" data-begin="%d" data-words="%s"><label>field <input type="number" min="1" '
            'max="%d" required="required"/></label> <output></output></p>' % (
                begin, base64.b64encode(zlib.compress(planes, 9)).decode(), len(readings)))
