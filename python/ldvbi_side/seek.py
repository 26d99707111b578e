"""Finds where a picture, a time, a minute or a chapter begins."""

import re
from typing import Any, Dict, NamedTuple, Optional, Tuple

from .answer.entries import Answer, frame_of
from .judge.paces import RATES
from .texts import UNITS

_WANTED = re.compile(r"(?P<picture>[0-9]+)|(?P<time>[0-9]+:[0-9]+:[0-9]+\.[0-9]+)"
                     r"|(?P<part>[0-9]+:[0-9]{2}(:[0-9]{2})?)|(?i:chapter) (?P<chapter>[0-9]+)")
_TIME_FORMS = {2: "%d:%02d", 3: "%d:%02d:%02d", 4: "%d:%02d:%02d.%02d"}


class Wanted(NamedTuple):
    """What is sought: `kind` is `picture` or `chapter`, with one number, or `time`, with 2 to 4: hours, minutes,
    seconds, picture of the second."""
    kind: str
    numbers: Tuple[int, ...]


def wanted_of(text: str) -> Wanted:
    """What a text asks for: `123`, `1:09`, `1:09:30`, `1:09:30.12` or `chapter 3`. Any other text raises a
    ValueError."""
    match = _WANTED.fullmatch(text)
    if not match:
        raise ValueError("neither a picture number, nor a time h:mm, h:mm:ss or h:mm:ss.pp, nor chapter n: %r" % text)
    kind = str(match.lastgroup)
    return Wanted("time" if kind == "part" else kind, tuple(int(number) for number in re.findall("[0-9]+", text)))


def seek(answer: Answer, wanted: Wanted) -> Optional[Dict[str, Any]]:
    """The first field of what is wanted on a side with this answer, as a dict of `field`, `frame`, `read` and `other`;
    None if it isn't there. `read` is false if the number wasn't read in that field, but is due there by the numbers
    around it. `other` is what was read there instead, or None. A number that was set aside is never the answer, and
    neither is a field of padding. For a part of a time, the first field that has any of it counts."""
    if wanted.kind == "chapter":
        found = [(one.field, True, None) for one in answer.chapters if one.chapter == wanted.numbers[0]]
    else:
        found = _numbered(answer, wanted)
    if not found:
        return None
    is_exact = wanted.kind != "time" or len(wanted.numbers) == 4
    # of one number the field in which it was read; of several the first
    if is_exact:
        found = [one for one in found if one[1]] or found
    field, read, other = min(found, key=lambda one: one[0])
    return {"field": field, "frame": frame_of(field, answer.frame_begin), "read": read, "other": other}


def _numbered(answer, wanted):
    """The fields with the wanted number, or with one that is part of the wanted time, whether it was read there, and
    what was instead."""
    units = ("picture",) if wanted.kind == "picture" else ("time", "minute")
    if answer.unit not in units:
        return []
    if wanted.kind == "picture":
        fits = wanted.numbers[0].__eq__
    else:
        begin = _TIME_FORMS[len(wanted.numbers)] % wanted.numbers
        begins = (begin + ":", begin + ".")

        def fits(number):
            return number == begin or number.startswith(begins)
    found = [(field, True, None) for number, field, _ in answer.showings if fits(number)]
    return found + [(one.field, False, one.read) for one in answer.unread if fits(one.number)
                    and not any(pad.first <= one.field <= pad.last for pad in answer.padding)]


def text_of(found: Dict[str, Any]) -> str:
    """What `seek` found, as a line of text."""
    text = "field %(field)d, frame %(frame)d" % found
    if found["read"]:
        return text
    other = "no number was read there" if found["other"] is None else (
        "another number was read there: %s" % found["other"])
    return text + ", by the numbers around it: " + other


# ---- What isn't found

_PARTS = {2: "minutes", 3: "seconds", 4: "times"}  # what is asked for by so many numbers of a time
_WHYS = {"lost": "lost", "unread": "unread", "clock": "skipped by the disc itself"}
_NOWHERE = "no field shows it"


def why_not(answer: Answer, wanted: Wanted) -> str:
    """Why `seek` finds nothing, as the end of a sentence."""
    if wanted.kind == "chapter":
        return _why_no_chapter(answer, wanted.numbers[0])
    if not answer.numbers.count_:
        return "no number of the side is believed"
    asked = _PARTS.get(len(wanted.numbers), "pictures")
    if (asked == "pictures") != (answer.unit == "picture") or answer.unit == "minute" and asked != "minutes":
        return "the side counts %s, not %s" % (UNITS[str(answer.unit)], asked)
    if any(one >= limit for one, limit in zip(wanted.numbers[1:], (60, 60, RATES[answer.system]))):
        return "no clock shows it"
    stretches = sorted(answer.missing + answer.left_out, key=lambda one: one.after)
    whys = [_why_missing(answer, one) for one in stretches
            if _part(one.first, wanted) <= wanted.numbers <= _part(one.last, wanted)]
    if whys:
        text = ", ".join(dict.fromkeys(whys))
        return text if "between" in text or "beside" in text else text + _beside(answer, wanted)
    least, greatest = (_part(end, wanted) for end in answer.numbers[1:])
    is_before = wanted.numbers < least
    if not is_before and wanted.numbers <= greatest:
        return _NOWHERE + _beside(answer, wanted)
    text = _beyond("numbers", is_before, [one[:2] for one in answer.showings], answer.numbers[1:])
    if is_before and answer.padding and answer.padding[0].first == 1:
        text += ", after padding in " + _fields_of(answer.padding[0])
    return text


def _fields_of(one):
    return "field %d" % one.first if one.first == one.last else "fields %d to %d" % (one.first, one.last)


def _why_padding(answer, one):
    """What is said of numbers between these fields of which some are padding, or None."""
    pad = next((pad for pad in answer.padding if one.after < pad.last and pad.first < one.before), None)
    if not pad:
        return None
    before = [shown for shown in answer.showings if shown[1] < pad.last][-1:]
    after = [shown for shown in answer.showings if shown[1] > pad.first][:1]
    names = ["%s in field %d" % shown[:2] for shown in before + after]
    return "padding in %s, %s %s" % (_fields_of(pad), "between" if len(names) == 2 else "beside", " and ".join(names))


def _why_missing(answer, one):
    """Why numbers aren't there, and where; at the beginning of a side no number is before them."""
    padding = _why_padding(answer, one)
    if padding:
        return padding
    may_skip = (answer.unit, answer.system) == ("time", "NTSC")
    undecided = "lost, unread or skipped by the disc itself" if may_skip else "lost or unread"
    place = "after field %d" % one.after if one.after else "before field %d" % one.before
    return "%s %s" % (_WHYS.get(one.why, undecided), place)


def _beside(answer, wanted):
    """The nearest lower and higher number of the side and their first fields, as the end of a sentence."""
    places = [(_parts(number), field, number) for number, field, _ in answer.showings]
    size, some = len(wanted.numbers), wanted.numbers
    before = max((one for one in places if one[0][:size] < some), key=lambda one: (one[0], -one[1]), default=None)
    after = min((one for one in places if one[0][:size] > some), default=None)
    names = ["%s %s in field %d" % (answer.unit, number, field) for _, field, number in filter(None, (before, after))]
    return "; " + ", ".join(names).replace(" in field", " is in field", 1)


def _parts(number):
    """The hours, minutes, seconds and pictures of a time, or a picture's number alone."""
    return tuple(int(one) for one in re.findall("[0-9]+", str(number)))


def _part(number, wanted):
    """As much of a number as is wanted: of a time its hours and minutes alone, perhaps."""
    return _parts(number)[:len(wanted.numbers)]


def _beyond(what, is_before, places, ends):
    """That something begins or ends with the one or the other of these numbers, and its first field of these places."""
    end = ends[0] if is_before else ends[1]
    field = next(field for number, field in places if number == end)
    return "the %s %s at %s, in field %d" % (what, "begin" if is_before else "end", end, field)


def _why_no_chapter(answer, wanted):
    chapters = answer.chapters
    if not chapters:
        return "no chapter of the side is believed"
    ends = [end(one.chapter for one in chapters) for end in (min, max)]
    is_before = wanted < ends[0]
    if is_before or wanted > ends[1]:
        return _beyond("chapters", is_before, [one[:2] for one in chapters], ends)
    for one, other in zip(chapters, chapters[1:]):
        if one.chapter < wanted < other.chapter:
            is_loss = any(lost.after < other.field and lost.before > one.last for lost in answer.lost)
            return "chapter %d follows chapter %d in field %d" % (other.chapter, one.chapter, other.field) + (
                ", and fields are lost before it" if is_loss else "")
    return _NOWHERE
