"""The colours of pages and drawings, as they are on a light page, and what a dark page has in the place of each. What
is to be seen has a contrast of 4.5 to 1 at least with each ground that it stands on, on both pages."""

# Grounds: of a page, of a lane, and of lines and captures that have nothing to look at
PAPER, LANE, BLANK, WORD = "#ffffff", "#f8fafc", "#f1f5f9", "#92d3a1"
GRID = "#e2e8f0"  # lines behind a curve, or between rows
TEXT, AXIS, CURVE, LINK = "#1e293b", "#475569", "#0f172a", "#1d4ed8"
RED, ORANGE, AMBER, GREEN = "#b91c1c", "#c2410c", "#b45309", "#166534"
TEAL, BLUE, SKY, INDIGO = "#0f766e", "#2563eb", "#0369a1", "#4f46e5"
VIOLET, PURPLE, PINK, ROSE = "#7c3aed", "#7e22ce", "#be185d", "#9f1239"
# Those that stand beside words, too
DARK_RED, DARK_PURPLE, DARK_BROWN, STONE = "#991b1b", "#6b21a8", "#422006", "#44403c"
DARK_CYAN, DARK_BLUE, DARK_GREEN, BROWN, NAVY = "#164e63", "#1e40af", "#14532d", "#713f12", "#3730a3"
PALE_BLUE, PALE_GREY, PALE_RED = "#dbeafe", "#f3f4f6", "#fee2e2"  # behind the samples of a line

GROUNDS = (PAPER, LANE, BLANK, WORD, GRID, PALE_BLUE, PALE_GREY, PALE_RED)
# The colour of a dark page in the place of each
DARK = {
    PAPER: "#0f172a", LANE: "#1e293b", BLANK: "#273549", WORD: "#14532d", GRID: "#334155", TEXT: "#e2e8f0",
    AXIS: "#cbd5e1", CURVE: "#f1f5f9", LINK: "#93c5fd", RED: "#fca5a5", ORANGE: "#fb923c", AMBER: "#fbbf24",
    GREEN: "#4ade80", TEAL: "#2dd4bf", BLUE: "#60a5fa", SKY: "#38bdf8", INDIGO: "#a5b4fc", VIOLET: "#c4b5fd",
    PURPLE: "#d8b4fe", PINK: "#f9a8d4", ROSE: "#fda4af", DARK_RED: "#fca5a5", DARK_PURPLE: "#d8b4fe",
    DARK_BROWN: "#fde68a", STONE: "#d6d3d1", DARK_CYAN: "#a5f3fc", DARK_BLUE: "#bfdbfe", DARK_GREEN: "#86efac",
    BROWN: "#fef08a", NAVY: "#c7d2fe", PALE_BLUE: "#1e3a5f", PALE_GREY: "#1f2937", PALE_RED: "#4c1d1d",
}
# Those that a page's own style has, by their names there
NAMED = {"paper": PAPER, "lane": LANE, "grid": GRID, "text": TEXT, "axis": AXIS, "link": LINK, "yes": GREEN, "no": RED,
         "open": AMBER, "fault": PURPLE, "recovered": DARK_CYAN}


def named_colours() -> str:
    """The rules of a page's style by which its colours have names, in light and in dark."""
    names = [";".join("--%s:%s" % (name, colours[light]) for name, light in NAMED.items())
             for colours in ({light: light for light in DARK}, DARK)]
    return (":root{color-scheme:light dark;%s}\n@media(prefers-color-scheme:dark){:root{%s}}\n" % tuple(names))


def dark_drawings() -> str:
    """The rules of a page's style by which its drawings are dark on a dark page."""
    return "@media(prefers-color-scheme:dark){%s}\n" % "".join(
        '[%s="%s"]{%s:%s}' % (name, light, name, dark) for light, dark in DARK.items() for name in ("fill", "stroke"))
