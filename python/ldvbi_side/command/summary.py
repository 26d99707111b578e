"""A side at a glance: whether it is whole, and what to look at first, in at most MOST_LINES lines. Lists are in the
order of the disc or of the side."""

from typing import Any, Callable, Collection, Iterator, Optional, TypeVar

from ldvbi.codes import LINES, name_of
from ..draw.marks import OUT_OF_PLACE, SKIPPED, other_file, place_text
from ..answer.entries import Answer
from ..levels import options_of
from ..texts import UNITS, counted, detour_text, fields_text, lost_text

MOST_LINES = 27
MOST_LISTED = 4  # places in a line
Item = TypeVar("Item")


def summary(answer: Answer) -> Iterator[str]:
    """The lines of the summary."""
    reasons = "; ".join(one.text for one in answer.reasons)
    yield "whole: " + answer.whole + (": " + reasons if reasons else "")
    cut = answer.cut_field
    film = ", film (2 and 3 fields a picture)" if answer.pace == "film" else ""
    yield "system: %s, %s%s" % (answer.system, _FORMATS[answer.format], film)
    yield "fields: %d, cut: %s" % (answer.fields, "field %d, of %d bytes" % cut if cut else "none")
    said = answer.sequential_fields
    if said is not None and {said} != {answer.metadata_fields, answer.fields}:
        yield "metadata: numberOfSequentialFields says %d, and it has %d fields" % (said, answer.metadata_fields or 0)
    for line in LINES:
        yield _line_text(line, answer.lines[line])
    if answer.levels:
        yield from _levels_lines(answer)
    if answer.numbers.count_:
        yield from _number_lines(answer)
    else:
        yield "pictures: none"
    yield from _doubt_lines(answer)
    yield from _part_lines(answer)


_FORMATS = {"cav": "CAV", "clv": "CLV", "neither": "no code of CAV or CLV"}


def _line_text(line, rates):
    words, bad = rates.words(), rates.bad()
    share = 100 * bad / (words + bad) if bad else 0
    recovered = ", %d recovered" % rates.near if rates.near else ""
    return "line %d: %d words, %d of them read only after smoothing%s; %d bad (%.2f %%), %d blank" % (
        line, words, rates.pass2, recovered, bad, share, rates.blank)


def _levels_lines(answer):
    """Of a side with few words what its lines show, and what to try."""
    levels = answer.levels
    yield "levels: lines 17 and 18 have %d words, %d are bad, %d blank" % (levels.words, levels.bad, levels.blank)
    if levels.tried and levels.tried.best:
        yield "try: " + _tried_text(levels.tried)
    elif other_file(answer):
        yield "try: another system, or this file's own metadata"
    elif levels.shows == "blank":
        yield "try: lower black and white, if the side has codes at all"
    else:
        yield "try: another black and white; the signal may be noise, see --bad-lines"


def _tried_text(tried):
    """What other levels, or the other system, read of some lines; of the other system there may be more of these."""
    rest = ", without --meta" if tried.best.system else ""
    return "%s%s (%d lines read, now %d of %d)" % (options_of(tried), rest, tried.best.read, tried.read, tried.lines)


def listed(count: int, ones: Collection[Item], text_of: Callable[[Item], str], places: Optional[int] = None) -> str:
    """How many there are, and the texts of the first of them. `places` is how many texts there would be, if `ones` has
    only the first ones."""
    more = (len(ones) if places is None else places) - MOST_LISTED
    shown = ", ".join(text_of(one) for one, _ in zip(ones, range(MOST_LISTED)))
    return "%d (%s)" % (count, shown + (" and %d more" % more if more > 0 else "")) if count else "none"


def named(unit: Optional[str], first: Any, last: Any) -> str:
    """A number with what it counts, or the first and the last of several."""
    return "%s %s" % (unit, first) if first == last else "%s %s to %s" % (UNITS[unit], first, last)


def _number_lines(answer):
    unit, lost = answer.unit, answer.lost
    yield "%s: %d, from %s to %s" % (UNITS[unit], *answer.numbers)
    yield "lost: " + _missing_text(answer, "lost")
    undecided = _missing_text(answer, "undecided")
    yield "unread: " + _missing_text(answer, "unread") + ("" if undecided == "none" else ", undecided: " + undecided)
    if answer.left_out:
        yield "%s: %d" % (SKIPPED, sum(one.count_ for one in answer.left_out))
    sure, unsure = ([one for one in lost if (one.by == "undecided") == is_open] for is_open in (False, True))
    yield "lost fields: " + _lost_texts(sure, unit) + (", undecided: " + _lost_texts(unsure, unit) if unsure else "")
    jumps = ["%s %s to %s in field %d" % (unit, one.from_, one.to, one.before)
             for one in answer.breaks if one.kind != "lost"]
    jumps += [detour_text(answer, one) for one in answer.detours]
    yield "jumps: " + listed(len(jumps), jumps, str)
    if answer.swapped or answer.speeds:
        yield _order_text(answer)
    yield "stills: " + listed(len(answer.stills), answer.stills, lambda one: "%s %s in fields %d to %d" % (unit, *one))
    yield "shown again: " + listed(len(answer.repeated), answer.repeated, lambda one: "%s in field %d" % (
        named(unit, one.first, one.last), one.field))


def _lost_texts(lost, unit):
    least = "at least " * any(one.or_more for one in lost)
    return least + listed(sum(one.fields or 1 for one in lost), lost, lambda one: _lost_text(one, unit))


def _lost_text(one, unit):
    """Lost fields with their place. Those of a minute may be lost anywhere in it."""
    if unit == "minute" and one.after and one.before > one.after + 1:
        return "%s, between fields %d and %d" % (lost_text(one), one.after + 1, one.before - 1)
    place = place_text(one.after, one.before)
    return "lost or shown again " + place if one.is_again() else "%s %s" % (lost_text(one), place)


def _order_text(answer):
    """Fields in another order than the disc's: swapped ones, and those that were played at another speed."""
    swapped, speeds = answer.swapped, answer.speeds
    return "swapped fields: %s, other speeds: %s" % (
        listed(len(swapped), swapped, lambda one: "%s in field %d or %d" % (
            named(answer.unit, one.number, one.number), one.field, one.field + 1)),
        listed(len(speeds), speeds, lambda one: "%s numbers a picture in fields %d to %d" % (
            one.numbers, one.first, one.last)))


def _missing_text(answer, why):
    ones = [one for one in answer.missing if one.why == why]
    return listed(sum(one.count_ for one in ones), ones, lambda one: "%s %s" % (
        named(answer.unit, one.first, one.last), place_text(one.after, one.before)))


def _doubt_lines(answer):
    doubtful, of_numbers, of_chapters = answer.doubtful, answer.conflicts, answer.chapter_conflicts
    unit, count = "picture" if answer.unit == "picture" else "time", len(of_numbers) + len(of_chapters)
    conflicts = [(one, unit) for one in of_numbers[:MOST_LISTED]]  # of noise there are many
    conflicts += [(one, "chapter") for one in of_chapters[:MOST_LISTED]]
    conflicts.sort(key=lambda pair: pair[0].field)
    yield "doubtful, set aside: " + listed(len(doubtful), doubtful, lambda one: "%s %s in field %d line %d" % (
        name_of(one.kind), one.said(), one.field, one.line))
    yield "lines 17 and 18 differ: " + listed(count, conflicts, _conflict_text, count)
    for one in answer.second_rows:
        yield "a second row of numbers, not taken: %s to %s in fields %d to %d" % one[:4]


def _conflict_text(conflict):
    one, unit = conflict
    return "field %d: %s %s and %s, %s taken" % (
        one.field, unit, one.line17, one.line18, "none" if one.taken is None else one.taken)


def _part_lines(answer):
    chapters, stops, stray = answer.chapters, answer.stops, answer.stray
    yield "chapters: " + listed(len(chapters), chapters, lambda one: "chapter %d in field %d" % (
        one.chapter, one.field))
    unsure = answer.unsure_stops
    yield "picture stops: " + _stops_text(stops) + (", unsure: " + _stops_text(unsure) if unsure else "")
    yield ", ".join("%s: %s" % (name, listed(sum(one.count_ for one in stretches), stretches, lambda one: fields_text(
        one.first, one.last))) for name, stretches in (("lead-in", answer.lead_in), ("lead-out", answer.lead_out)))
    yield "unknown words: " + listed(len(answer.unknown), answer.unknown, lambda one: "%06X in field %d line %d" % (
        one.word, one.field, one.line))
    yield "programme status: %s, users' codes: %s" % (
        _words_text(answer.programme_status, lambda one: "CX %s %s" % ("on" if one.cx else "off", one.digits)),
        _words_text(answer.users, lambda one: "%d %s" % (one.digit, one.digits)))
    yield "%s: %s" % (OUT_OF_PLACE, listed(len(stray), stray, lambda one: "%s in field %d line %d" % (
        name_of(one.kind), one.field, one.line)))


def _stops_text(stops):
    return listed(len(stops), stops, lambda one: ("" if one.number is None else "picture %s in " % one.number) +
                  "field %d" % one.field)


def _words_text(words, text_of):
    """How many fields have words of a kind, and the first of them."""
    return listed(sum(one.count_ for one in words), words, lambda one: "%s in %s" % (
        text_of(one), counted(one.count_, "field")))
