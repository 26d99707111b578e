"""The lists of an answer on a page, each in a fold. If a list has many rows, as that of noise has, only the first ones
are there, and before them all of them in groups."""

from collections import Counter
from typing import Any, Dict, Iterator, List, Sequence, Tuple

from ..answer.ends import ordinal_of
from ..answer.entries import Answer
from ..judge.paces import RATES
from .marks import OUT_OF_PLACE, SKIPPED
from .svg import escaped

MOST_ROWS = 500  # of a list; of a longer one so many, and so many groups
# The lists of the answer, and how a page names them
LISTS = {
    "missing": "numbers lost, undecided or unread", "lost": "lost fields", "unread": "unread, and their fields",
    "leftOut": SKIPPED, "breaks": "breaks", "detours": "detours", "stills": "stills", "repeated": "shown again",
    "padding": "padding", "swapped": "swapped fields", "speeds": "other speeds", "doubtful": "doubtful, set aside",
    "conflicts": "lines 17 and 18 differ", "chapterConflicts": "chapters of lines 17 and 18 differ",
    "secondRows": "second rows of numbers", "chapters": "chapters", "stops": "picture stops",
    "unsureStops": "picture stops that aren't sure", "leadIn": "lead-in", "leadOut": "lead-out",
    "stray": OUT_OF_PLACE, "unknown": "unknown words", "programmeStatus": "programme status", "users": "users' codes",
    "badLines": "bad lines", "completed": "fields whose minute is another field's",
    "confirmed": "fields whose due number is the nearest word of their lines", "showings": "numbers as they come by",
}
_COLUMNS = {"completed": ("field",), "confirmed": ("field",), "showings": ("number", "first", "last")}
# What rows of one group have in common, as far as a list has it, and where a row has its field
_ALIKE, _PLACES = ("line", "cause", "kind", "why", "pass", "by"), ("field", "after", "first")


def folds_of(answer: Answer, plain: Dict[str, Any]) -> Iterator[str]:
    """The lists of this answer that aren't empty; `plain` has them as plain data. Lists that a later answer may have
    are included, too."""
    others = [name for name, ones in plain.items() if isinstance(ones, list) and name not in (*LISTS, "reasons")]
    for name in (*LISTS, *others):
        if plain[name]:
            yield _fold(name, plain[name], answer)


def _fold(name, ones, answer):
    """A list under its name and how many rows it has."""
    title = "%s: %d" % (LISTS.get(name, name), len(ones))
    columns = _COLUMNS.get(name) or list(ones[0])
    parts = []
    if len(ones) > MOST_ROWS:
        parts.append("<p>In groups:</p>%s<p>The first %d of %d rows. This page leaves out the others; "
                     "<code>ldvbi-side --json</code> prints all.</p>" % (
                         _groups(name, ones, columns, answer), MOST_ROWS, len(ones)))
    parts.append(_table(columns, map(_cells, ones[:MOST_ROWS])))
    return '<details id="%s"><summary>%s</summary>%s</details>' % (escaped(name), escaped(title), "".join(parts))


def _groups(name, ones, columns, answer):
    if name == "showings":
        heads, groups = ("numbers", "to", "first", "last", "count"), _runs(answer)
    else:
        heads, groups = _alike(ones, columns)
    more = len(groups) - MOST_ROWS
    return _table(heads, groups[:MOST_ROWS]) + ("<p>and %d more groups</p>" % more if more > 0 else "")


def _runs(answer: Answer) -> List[List[Any]]:
    """Numbers that come one after the other, each run with its fields."""
    runs: List[List[Any]] = []
    rate, before = RATES[answer.system], None
    for number, first, last in answer.showings:
        count = ordinal_of(number, rate)
        if before is not None and count == before + 1:
            runs[-1][1], runs[-1][3], runs[-1][4] = number, last, runs[-1][4] + 1
        else:
            runs.append([number, number, first, last, 1])
        before = count
    return runs


def _alike(ones: List[Any], columns: Sequence[str]) -> Tuple[Sequence[str], List[List[Any]]]:
    """The rows that have the same line, cause, kind and so on, with the first and the last place that one of them has;
    the largest group stands first. Of a cause the column doesn't count."""
    alike = [name for name in _ALIKE if name in columns]
    place = next((name for name in _PLACES if name in columns), None)
    counts: Counter = Counter()
    ends: Dict[Any, List[Any]] = {}
    for one in ones:
        group = tuple(str(one[name]).partition(" ")[0] if name == "cause" else one[name] for name in alike)
        at = one[place] if isinstance(one, dict) and place else one if isinstance(one, int) else None
        counts[group] += 1
        ends.setdefault(group, [at, at])[1] = at
    heads = [*alike, "count", "first %s" % (place or "row"), "last %s" % (place or "row")]
    return heads, [[*group, count, *ends[group]] for group, count in counts.most_common()]


def _table(columns, rows):
    head = "".join("<th>%s</th>" % escaped(column) for column in columns)
    body = "\n".join("<tr>%s</tr>" % "".join("<td>%s</td>" % _cell(cell) for cell in row) for row in rows)
    return '<div class="wide"><table><thead><tr>%s</tr></thead>\n<tbody>%s</tbody></table></div>' % (head, body)


def _cells(one):
    if isinstance(one, dict):
        return one.values()
    return one if isinstance(one, list) else [one]


def _cell(value):
    """A value in a cell: nothing for null, a number beside its field, the items of a list."""
    if value is None:
        return ""
    if isinstance(value, dict):
        return escaped("%(number)s in field %(field)d" % value)
    if isinstance(value, bool):
        return "yes" if value else "no"
    return escaped(", ".join(map(str, value)) if isinstance(value, list) else value)
