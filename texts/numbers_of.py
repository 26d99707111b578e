"""The numbers that documents have in their sentences. Such a number stands after a comment with its name, as in
`<!--=width_of.ntsc-->910`, and is written as the one that stands there is: with commas, or up to ten as a word. A name
may also stand for a word."""

import glob
import os
import re
from typing import Any, Dict, List

from program import TOP

MARK = re.compile(r"(<!--=([\w.]+)-->`?)(\d+(?:,\d{3})*|[A-Za-z]+)")
CARDINALS = "no one two three four five six seven eight nine ten".split()
ORDINALS = "no first second third fourth fifth sixth seventh eighth ninth tenth".split()
SMOOTH = "crates/vbi_words/specs/Smooth.antt"
JITTER = "crates/vbi_words/specs/Jitter.antt"
RAN = ".ci/ran.txt"
RATES = "tests/library/lines.py"
READER = "docs/RECIPES.md"  # of a map, in C
SIDES = "docs/measured/sides.txt"  # what simulated/measure.py printed


def read(path: str) -> str:
    with open(os.path.join(TOP, path), encoding="utf-8") as file:
        return file.read()


def paths(pattern: str) -> List[str]:
    return [os.path.relpath(path, TOP) for path in glob.glob(os.path.join(TOP, pattern))]


def of_source(path: str, pattern: str) -> List[int]:
    """The numbers of a source by a pattern that stands in it once."""
    found = re.findall(pattern, read(path), re.M)
    if len(found) != 1:
        raise SystemExit("%s has %d times what is looked for by %s" % (path, len(found), pattern))
    return [int(number) for number in ([found[0]] if isinstance(found[0], str) else found[0])]


def sizes() -> Dict[str, int]:
    """The sizes of both systems by the names of their definitions, and the bytes of a line and of a field."""
    text = "".join(map(read, paths("crates/vbi_words/specs/*.antt")))
    numbers = {"%s.%s" % (name, system.lower()): int(number)
               for name, system, number in re.findall(r"^(\w+) (Ntsc|Pal) = (\d+)$", text, re.M)}
    for system in ("ntsc", "pal"):
        width, height = numbers["width_of." + system], numbers["height_of." + system]
        numbers["line_bytes." + system], numbers["field_bytes." + system] = 2 * width, 2 * width * height
    return numbers


def refused() -> Dict[str, int]:
    """How many wrong bodies there are at least, and how many of them the check may refuse by a name alone."""
    count, = of_source(RAN, r"^wrong bodies: (\d+)$")
    most, = of_source("tests/proofs/wrong_bodies.py", r"^MOST_LOST = (\d+)\b")
    return {"wrong_bodies": count, "refused.name": most}


def limits() -> Dict[str, int]:
    """The limits of a run, and the minutes that the gate takes."""
    numbers = {name: int(number) for path in paths("crates/*/src/*.rt") for name, number in
               re.findall(r"pub const (META_LIMIT|MAX_FIELDS_LIMIT): \w+ = ([\d_]+);", read(path))}
    least, most = of_source("tests/gate.sh", r"^minutes='(\d+) to (\d+)'$")
    numbers["abi"], = of_source("Makefile", r"^ABI := (\d+)$")
    return {**numbers, "gate.least": least, "gate.most": most}


def of_tests() -> Dict[str, int]:
    """In kHz the rates between which all words of good lines are read; the bytes of a row that a map's reader takes."""
    least, most = of_source(RATES, r"^WHOLE, JITTERED = \((\d+), [\d, ]+, (\d+)\), ")
    row, = of_source(READER, r"char row\[(\d+)\]")
    return {"rate.least": least, "rate.most": most, "map.row": row - 1}


def of_sources() -> Dict[str, int]:
    """What tests/sources.py lets a line, a file, a function, a folder and a subject have."""
    names = "columns", "lines", "function", "files", "subject"
    return dict(zip(names, of_source("tests/sources.py", "^%s = %s$" % (
        ", ".join(names).upper(), ", ".join([r"(\d+)"] * len(names))))))


def glitches(size: Dict[str, int]) -> Dict[str, int]:
    """What a glitch and a blurred edge may be."""
    most, = of_source(SMOOTH, r"^  pub few : m ≤ (\d+)$")
    equal, = of_source(SMOOTH, r"^  pub before : (\d+) ≤ g$")
    lows, = of_source(JITTER, r"^  pub lows : (\d+) ≤ cut\.after$")
    longer, shorter = of_source(JITTER, r"Spells \(half_min system \+ (\d+)\) \(half_max system - (\d+)\)")
    numbers = {"glitch.most": most, "glitch.equal": equal, "glitch.drawn": equal + 1, "spell.lows": lows}
    for system in ("ntsc", "pal"):
        least, greatest = size["half_min." + system], size["half_max." + system]
        numbers["spell.least." + system], numbers["spell.most." + system] = least + longer, greatest - shorter
        numbers["apart." + system] = 2 * least - greatest
    return numbers


def of_sides() -> Dict[str, int]:
    """What was found of the simulated sides of all kinds, and of how many."""
    found = re.findall(r"([a-z][a-z ]*) (\d+)(?: of (\d+))?", read(SIDES).partition("\n    said: ")[0])
    names = [("sides." + name.replace(" ", "_"), count, of) for name, count, of in found]
    return {name + end: int(count) for name, *counts in names for end, count in zip(("", ".of"), counts) if count}


# The margins of one line, of either of two and of both, each those of a code and of another word: columns, and a share
SIX = r"[^#]*?".join(6 * [r"ahead_by (\d+) (\d+)"])


def margins(name: str) -> str:
    return " ".join("%s.%d" % (name, one) for one in range(12))


# Rules of the library: the names of their numbers, the definition that has them, wherever it stands, and how
RULES = (
    *((name, name, r"= (\d+)$") for name in ("reach", "field_most", "enough", "vote_reach", "part_most", "looked_most",
                                             "scratch")),
    ("minutes", "number_from", r"nat_lt minutes (\d+) "),
    ("begun", "is_begin_unseen", r"nat_lt (\d+) \(since_end"),
    ("clear", "IsClear", r"\(n \+ (\d+)\)"),
    ("second.ntsc second.pal", "rate_of", r"Ntsc = (\d+)\n\w+ Pal = (\d+)$"),
    ("close", "close_limit", r" \+ (\d+) \* unit"),
    ("agree", "is_one", r" \+ (\d+) \* unit"),
    ("borne", "is_borne", r" \+ (\d+) \* unit"),
    ("stretched.least stretched.most", "IsStretchedPlace", r"\((\d+) ≤ rate\) × \(rate ≤ (\d+)\)"),
    *((margins(name), name + "_margins", SIX) for name in ("levelled", "given")),
    *((name + ".ends", name + "_margins", r"\) (\d+);") for name in ("levelled", "given")),
    ("pile.ends", "pile_margins", r"ends = (\d+)"),
    ("pile.known pile.else pile.share", "pile_margins", r"if known then (\d+) else (\d+); share = (\d+)"),
    ("pile.other pile.other_share", "pile_margins", r"other = record \{ columns = (\d+); share = (\d+) "),
)


def rules() -> Dict[str, Any]:
    """The numbers of these rules, and what follows from them."""
    parts = [part for path in paths("crates/*/specs/*.antt") for part in read(path).split("\n\n")]
    numbers: Dict[str, Any] = {}
    for names, definition, pattern in RULES:
        of_name = [part for part in parts if re.search(r"^(?:\w+ )*%s :" % definition, part, re.M)]
        found = set(re.findall(pattern, "\n".join(of_name), re.M))
        if len(of_name) != 1 or len(found) != 1:
            raise SystemExit("write: the definitions %s have no one %s" % (definition, pattern))
        one = found.pop()
        numbers.update(zip(names.split(), map(int, [one] if isinstance(one, str) else one)))
    starts = of_source(RATES, r"^NEARS = \(\(NTSC, (\d+), [^)]*\), \(PAL, (\d+),")
    numbers.update(zip(("starts.ntsc", "starts.pal"), starts))
    low, = re.findall(r"^samples_of \((\w+) ∷ \w+ ∷ bytes\) = \(\1 [+] 256 ", "\n".join(parts), re.M)
    return {**numbers, "reach.twice": 2 * numbers["reach"], "byte.first": low}


def systems() -> str:
    """The values of the header's systems, with their sizes."""
    size = sizes()
    rows = [("LDVBI_NTSC = 1,", "ntsc"), ("LDVBI_PAL = 2", "pal")]
    return "".join("    %-15s /* %d lines; %d samples to a line, %d lines to a field */\n" % (
        name, 2 * size["height_of." + of] - 1, size["width_of." + of], size["height_of." + of]) for name, of in rows)


def package() -> Dict[str, Any]:
    """The constants of the rules by which `ldvbi-side` judges."""
    from ldvbi import near, sides
    from ldvbi_side import levels
    from ldvbi_side.command import summary
    from ldvbi_side.answer import analysis, ends, gaps, lines, missing, parts, whole
    from ldvbi_side.judge import believed, chain, clock, numbers as judged, order, paces, places, readings
    numbers = {"price.%d" % fields: paces.price(fields) for fields in (1, 2, 20000)}
    numbers.update(("weight.%d" % one, readings.WEIGHTS[one]) for one in (1, 2, 3))
    numbers.update(("pictures." + system.lower(), rate) for system, rate in paces.RATES.items())
    (least, _, most), pal = paces.MINUTE_FIELDS["NTSC"], paces.MINUTE_FIELDS["PAL"][1]
    # one field with a picture, and one with a mark of CLV
    even = readings.Fields("PAL", [(0, 0xF00001, 0), (0, 0x87FFFF, 0)], [(0, 1, 0)] * 2, [], b"")
    return {
        **numbers, "minute.pal": pal, "minute.least": least, "minute.most": most, "version": analysis.VERSION,
        "summary.listed": summary.MOST_LISTED,
        "still": chain.STILL, "carried": judged.CARRIED,
        "chapter.all": paces.ChapterPace.ALL,
        "chapter.share": parts.LEAST_SHARE, "missing.far": missing.FAR,
        "clock.spacing": clock.PERIODS[0], "clock.dropping": clock.PERIODS[1],
        "clock.tenth": sides.TENTH_MINUTE // sides.MINUTE, "clock.short": clock.SHORT,
        "clock.minutes": clock.SHORT_MINUTES, "clock.off": clock.OFF, "order.least": order.LEAST,
        "order.apart": believed.APART, "order.turn": order.TURN, "order.signs": order.SIGNS,
        "order.turned": order.TURNED, "sparse.least": places.LEAST, "lines.few": lines.FEW,
        "levels.fields": levels.FIELDS, "levels.step": levels.STEP,
        "ends.longest": ends.LONGEST, "begins": ends.FIRST["time"] + 1,
        "doubtful.share": whole.SHARE, "pile.lines": near.MOST_LINES,
        "format.even": readings.codes_of(even).format.upper(),
    }


def all_numbers() -> Dict[str, Any]:
    size = sizes()
    return {**size, **rules(), **limits(), **refused(), **glitches(size), **of_tests(), **of_sources(), **of_sides(),
            **package()}


def as_there(value: Any, there: str) -> str:
    """A number in the form of the one that stands there; a text as it is."""
    if isinstance(value, str):
        return value
    if there[0].isdigit():
        return "{:,}".format(value) if "," in there else str(value)
    for words in (CARDINALS, ORDINALS):
        for end in ("", "s"):
            if there.lower() in [word + end for word in words] and value < len(words):
                word = words[value] + end
                return word.capitalize() if there[0].isupper() else word
    raise SystemExit("write: '%s' can't say the number %s: write it in figures" % (there, value))


def with_numbers(text: str, numbers: Dict[str, Any]) -> str:
    """A document with its named numbers as the source has them."""
    unknown = {found[2] for found in MARK.finditer(text)} - set(numbers)
    if unknown:
        raise SystemExit("write: no number has the name %s" % ", ".join(sorted(unknown)))
    return MARK.sub(lambda found: found[1] + as_there(numbers[found[2]], found[3]), text)
