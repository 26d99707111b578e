"""The looks that all pages have in common."""

from .colours import dark_drawings, named_colours

NARROW = 700  # pixels: a page that isn't wider shows the narrow form of a drawing
STYLE = named_colours() + """body{font:16px/1.5 sans-serif;color:var(--text);background:var(--paper);margin:0 auto;
max-width:1200px;padding:0 16px}
h1{font-size:1.5em;overflow-wrap:anywhere}a{color:var(--link)}table{border-collapse:collapse}
th,td{padding:2px 10px;text-align:left}th{border-bottom:1px solid var(--axis)}
.yes,.no,.open{padding:8px 16px;border-left:6px solid}
.yes{border-color:var(--yes)}.no{border-color:var(--no)}.open{border-color:var(--open)}.wide{overflow-x:auto}
dt{font-weight:bold}dd{margin:0 0 6px 16px;overflow-wrap:anywhere}summary{cursor:pointer;padding:4px 0}
input,button{font:inherit;color:var(--text);background:var(--lane);border:1px solid var(--axis);max-width:100%}
button[aria-pressed=true]{color:var(--paper);background:var(--text)}
"""
# Of a page with drawings: the whole side is seen, whatever the width
DRAWN = STYLE + dark_drawings() + """svg{display:block;margin-top:8px;max-width:100%%;height:auto}.narrow{display:none}
@media(max-width:%dpx){.broad{display:none}.narrow{display:block}}
.recovered{color:var(--recovered)}.asked{stroke:var(--link);stroke-width:2}
""" % NARROW
