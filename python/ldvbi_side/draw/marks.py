"""The things to look at on a side, as marks: fields, and in words what is there and why. Each list of the answer is a
lane of the drawing."""

from typing import Dict, List, NamedTuple

from ldvbi.codes import name_of
from ..answer.entries import Answer, Doubt
from ..texts import counted_by, detour_text, fields_text, lost_text, span
from .colours import AMBER, AXIS, BROWN, INDIGO, ORANGE, PINK, RED, ROSE, SKY, TEAL, VIOLET

# What a reader is told of the answer's `leftOut` and `stray`
SKIPPED, OUT_OF_PLACE = "skipped by the disc itself", "codes out of place"
# The lanes with their colours, and those that few sides have
LANES = {
    "lost": RED,
    "unread": ROSE,
    "undecided": AMBER,
    "lost fields": ORANGE,
    "jumps": TEAL,
    "swapped fields": VIOLET,
    "other speeds": BROWN,
    "stills": SKY,
    "shown again": INDIGO,
    "doubtful": PINK,
    "out of place": AXIS,
}
_RARE = ("undecided", "swapped fields", "other speeds")
_MISSING = {
    "lost": "no field is there for it",
    "unread": "fields are there for it, and none shows it",
    "undecided": "lost or unread, or " + SKIPPED,
}
_LOST = {
    "number": "by the numbers",
    "parity": "by isFirstField",
    "both": "by the numbers and by isFirstField",
    "undecided": "or a number was " + SKIPPED,
}
_DOUBTFUL = {
    "neighbours": "the numbers around it fit each other",
    "alone": "there is a break, or the end of the side, here too",
    "lines": "lines 17 and 18 differ",
    "clock": "no clock shows it",
    "minute": "no minutes are there to join it",
    "chapter": "it doesn't fit the chapters around it",
}
_STRAY = {
    "line": "no disc has it on this line",
    "format": "a code of the other format",
    "place": "it stands between two numbers that fit each other",
    "unsure": "line 16 or 17 has to show it without smoothing, or both",
}
# How a word was read, by its pass
_READ = {1: "", 2: ", read only after smoothing", 3: ", recovered"}


class Mark(NamedTuple):
    """Something to see in the fields from the first to the last."""
    first: int
    last: int
    text: str


def place_text(after: int, before: int) -> str:
    """Where something is missing: after a field, or before one at the beginning of a side, where there is none
    before."""
    return "after field %d" % after if after else "before field %d" % before


def other_file(answer: Answer) -> bool:
    """Whether the bytes that were read aren't those that the metadata describes: another count of fields, or no whole
    number of them. Then the levels needn't be wrong."""
    return answer.cut_field is not None or answer.metadata_fields not in (None, answer.fields)


def marks_of(answer: Answer) -> Dict[str, List[Mark]]:
    """The marks of each lane, by field."""
    found = {
        **{why: [_missing(one) for one in answer.missing if one.why == why] for why in _MISSING},
        "lost fields": [_lost(one, answer.unit) for one in answer.lost],
        "jumps": [_jump(one) for one in answer.breaks if one.kind != "lost"] + [
            Mark(one.first, one.last, detour_text(answer, one)) for one in answer.detours],
        "swapped fields": [Mark(one.field, one.field + 1, "fields %d and %d are swapped: %s" % (
            one.field, one.field + 1, one.number)) for one in answer.swapped],
        "other speeds": [Mark(one.first, one.last, "%s numbers a picture in %s" % (
            one.numbers, fields_text(one.first, one.last))) for one in answer.speeds],
        "stills": [Mark(one.first, one.last, "%s stands still in %s" % (
            one.number, fields_text(one.first, one.last))) for one in answer.stills],
        "shown again": [Mark(one.field, one.last_field, "%s again in %s; first shown in field %d" % (
            span(one.first, one.last), fields_text(one.field, one.last_field), one.before))
            for one in answer.repeated],
        "doubtful": [Mark(one.field, one.field, doubt_text(one)) for one in answer.doubtful],
        "out of place": [Mark(one.field, one.field, _stray(one)) for one in answer.stray],
    }
    return {lane: sorted(marks) for lane, marks in found.items()}


def lanes_of(marks: Dict[str, List[Mark]]) -> List[str]:
    """The lanes that are drawn for these marks."""
    return [lane for lane in LANES if marks[lane] or lane not in _RARE]


def counts_of(answer: Answer) -> Dict[str, int]:
    """The count of each lane, as the summary counts it."""
    counts = {lane: len(marks) for lane, marks in marks_of(answer).items()}
    counts.update((why, counted_by(answer, why)) for why in _MISSING)
    counts["lost fields"] = sum(one.fields or 1 for one in answer.lost if one.by != "undecided")
    return counts


def doubt_text(one: Doubt) -> str:
    """A doubtful number with its place, why it is set aside, and the numbers around it."""
    around = ["%s in field %d" % (near.number, near.field) for near in (one.before, one.after) if near]
    text = "doubtful: %s %s in field %d, line %d%s: %s" % (
        name_of(one.kind), one.said(), one.field, one.line, _READ[one.pass_], _DOUBTFUL[one.why])
    return text + (" (%s)" % ", ".join(around) if around else "")


def _missing(one):
    is_there = one.why == "unread"
    first, last = (one.after + 1, one.before - 1) if is_there else (one.before, one.before)
    place = "after field %d, " % one.after if one.after else ""
    return Mark(first, max(first, last), "%s: %s, %sbefore field %d: %s" % (
        one.why, span(one.first, one.last), place, one.before, _MISSING[one.why]))


def _lost(one, unit):
    """Lost fields, where the numbers go on. Those of a minute may be lost anywhere in it."""
    count = "%s field%s" % (lost_text(one), "s" * (one.fields != 1))
    after, before = one.after, one.before
    if one.is_again():
        return Mark(before, before, "lost or shown again: a field between fields %d and %d, by isFirstField" % (
            after, before))
    if not after:
        return Mark(before, before, "lost: %s before field %d, %s" % (count, before, _LOST[one.by]))
    if unit == "minute" and before > after + 1:
        first, last = after + 1, before - 1
        return Mark(first, last, "lost: %s between fields %d and %d, by the minute's length" % (
            count, first, last))
    return Mark(before, before, "lost: %s between fields %d and %d, %s" % (count, after, before, _LOST[one.by]))


def _jump(one):
    place = "from %s in field %d to %s in field %d" % (one.from_, one.after, one.to, one.before)
    if one.kind == "back":
        return Mark(one.before, one.before, "back " + place)
    return Mark(one.before, one.before, "%d fields too many, %s" % (one.fields, place))


def _stray(one):
    return "out of place: %s in field %d, line %d%s: %s" % (
        name_of(one.kind), one.field, one.line, _READ[one.pass_], _STRAY[one.why])
