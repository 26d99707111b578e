"""The drawing of the house: the crates, what is made of them, and who takes what from whom, by crates.txt and by what
Rust and Python import. What a box says of a crate begins that crate's head. Crates that only tests use are left out,
and so is an arrow where a longer way leads to the same box."""

import html
import re
import textwrap
from typing import Dict, List, NamedTuple, Set, Tuple

from numbers_of import paths, read
from program import ldvbi

PATH = "docs/pictures/house.svg"
CAPTURE, PROGRAM, LIBRARY, RUST, MODULE, SIDE = (
    "a field's samples", "program ldvbi", "libldvbi and ldvbi.h", "crate ldvbi for Rust", "module ldvbi for Python",
    "ldvbi-side")
WIDTH, HEIGHT, BEND, APART, DOWN, LETTERS = 216, 70, 16, 24, 40, 31  # of boxes, between them, and of a line of text
COLOURS = {CAPTURE: "#fef3c7", **dict.fromkeys((PROGRAM, LIBRARY, RUST, MODULE, SIDE), "#dcfce7")}
Uses = Dict[str, Set[str]]


class Place(NamedTuple):
    """A box, or one of the bends of an arrow that leads past boxes."""
    name: str
    bend: Tuple[str, str] = ("", "")


def head_of(path: str) -> str:
    """How the head of a file begins: its first clause, without what stands in brackets."""
    lines = re.match(r'(?://! |""")?(.*(?:\n(?:(?://! )?\S.*))*)', read(path))
    text = " ".join(re.sub(r"^//! ", "", lines[1] if lines else "", flags=re.M).split())
    return re.split(r"[,:;.](?: |$)", re.sub(r" \(.*?\)|`", "", text))[0]


def imports(pattern: str, found: str) -> Set[str]:
    return set(re.findall(found, "".join(map(read, paths(pattern))), re.M))


def house() -> Tuple[Uses, Dict[str, str]]:
    """What each box takes from others, and what it says."""
    rows = {row.split()[0].rstrip(":"): row for row in read("crates.txt").splitlines()}
    of_crates = {name: set(row.split()[1:]) & set(rows) for name, row in rows.items()}
    handed = {"vbi_" + name for name in imports("rust/hand/src/*.rs", r"\bcrate::(\w+)")} & set(rows)
    uses = {PROGRAM: {"ldvbi"}, LIBRARY: {name for name in rows if " staticlib:" in rows[name]}, RUST: handed}
    if imports("python/ldvbi/library.py", "libldvbi"):
        uses[MODULE] = {LIBRARY}
    if imports("python/ldvbi_side/*/*.py", r"^(?:import|from) (ldvbi)\b"):
        uses[SIDE] = {MODULE}
    todo = [name for of in uses.values() for name in of if name in rows]
    while todo:
        name = todo.pop()
        uses[name] = of_crates[name] or {CAPTURE}
        todo += of_crates[name] - set(uses)
    uses[CAPTURE] = set()
    heads = {name: head_of(next(path for path in ("crates/%s/src/lib.rt" % name, "crates/%s/src/main.rt" % name)
                                if paths(path))) for name in uses if name in rows}
    return uses, {**heads, MODULE: head_of("python/ldvbi/__init__.py"), CAPTURE: "Of 16 bits, line after line",
                  PROGRAM: "Its commands: " + ", ".join(command.name for command in ldvbi().commands if command.name),
                  LIBRARY: "For C, C++ and what can call C", RUST: "Plain Rust of the same source, by make rust",
                  SIDE: "What the words of a whole side mean"}


def layers_of(uses: Uses) -> Dict[str, int]:
    """How many boxes the longest way to each box has before it."""
    found: Dict[str, int] = {}
    while len(found) < len(uses):
        for name, of in uses.items():
            if name not in found and of <= set(found):
                found[name] = max((found[one] + 1 for one in of), default=0)
    return found


def reduced(uses: Uses) -> Uses:
    """What each box uses, without what it uses by way of others, too."""
    def all_of(name: str) -> Set[str]:
        return uses[name].union(*map(all_of, uses[name]))
    return {name: of - set().union(*map(all_of, of)) for name, of in uses.items()}


def rows_of(uses: Uses) -> Tuple[List[List[Place]], Dict[Place, List[Place]]]:
    """The boxes of each row from above, with bends of arrows, and above which places each place stands."""
    layers = layers_of(uses)
    rows: List[List[Place]] = [[] for _ in range(max(layers.values()) + 1)]
    above: Dict[Place, List[Place]] = {}
    for name in sorted(uses):
        rows[layers[name]].append(Place(name))
        above.setdefault(Place(name), [])
        for one in sorted(uses[name]):
            before = Place(one)
            for layer in range(layers[one] + 1, layers[name]):
                bend = Place("", (one, "%s %d" % (name, layer)))
                rows[layer].append(bend)
                above[bend], before = [before], bend
            above[Place(name)].append(before)
    return rows, above


def ordered(rows: List[List[Place]], above: Dict[Place, List[Place]]) -> Dict[Place, float]:
    """Where the middle of each place is from the left: each row in the order of what is above and below it."""
    below: Dict[Place, List[Place]] = {}
    for place, of in above.items():
        for one in of:
            below.setdefault(one, []).append(place)
    at: Dict[Place, float] = {}
    for _ in range(8):
        for others, order in ((above, rows), (below, rows[::-1])):
            for row in order:
                row.sort(key=lambda place: middle([at[one] for one in others.get(place, []) if one in at],
                                                  at.get(place, 0)))
                width = sum(map(width_of, row)) + APART * (len(row) - 1)
                left = -width / 2
                for place in row:
                    at[place] = left + width_of(place) / 2
                    left += width_of(place) + APART
    return at


def width_of(place: Place) -> int:
    return WIDTH if place.name else BEND


def middle(places: List[float], other: float) -> float:
    return sum(places) / len(places) if places else other


def text_at(left: float, top: float, text: str, more: str = "") -> str:
    return '<text x="%g" y="%g" text-anchor="middle"%s>%s</text>' % (left, top, more, html.escape(text))


def picture() -> str:
    """The text of the drawing."""
    uses, heads = house()
    rows, above = rows_of(reduced(uses))
    at = ordered(rows, above)
    left = min(at[place] - width_of(place) / 2 for place in at) - 20
    width = max(at[place] + width_of(place) / 2 for place in at) + 20 - left
    tops = {place: 20 + number * (HEIGHT + DOWN) for number, row in enumerate(rows) for place in row}
    lines = ['<svg xmlns="http://www.w3.org/2000/svg" width="%g" height="%g" font-family="sans-serif" font-size="12" '
             'fill="#1e293b" role="img" aria-label="The crates, and what is made of them">' % (
                 width, 20 + len(rows) * (HEIGHT + DOWN) - DOWN + 20),
             '<defs><marker id="end" markerWidth="8" markerHeight="8" refX="7" refY="4" orient="auto">'
             '<path d="M0,0 L8,4 L0,8 z" fill="#475569"/></marker></defs>',
             '<rect width="100%" height="100%" fill="#ffffff"/>']
    for place, of in sorted(above.items()):
        for one in of:
            end = ' marker-end="url(#end)"' if place.name else ""
            down = "" if place.name else " v%d" % HEIGHT
            lines.append('<path d="M%g,%g L%g,%g%s" stroke="#475569" fill="none"%s/>' % (
                at[one] - left, tops[one] + HEIGHT, at[place] - left, tops[place], down, end))
    for place in sorted(at):
        if place.name:
            x, top = at[place] - left, tops[place]
            lines.append('<rect x="%g" y="%g" width="%d" height="%d" rx="6" fill="%s" stroke="#475569"/>' % (
                x - WIDTH / 2, top, WIDTH, HEIGHT, COLOURS.get(place.name, "#e0f2fe")))
            lines.append(text_at(x, top + 18, place.name, ' font-weight="bold" font-size="13"'))
            for number, line in enumerate(textwrap.wrap(heads[place.name], LETTERS)):
                lines.append(text_at(x, top + 35 + 14 * number, line))
    return "\n".join([*lines, "</svg>", ""])
