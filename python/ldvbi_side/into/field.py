"""Where in the JSON text of one field of ld-decode's metadata its words go, `vbi.vbiData`. The rest of the text stays
as it is, and what is new is written in the style of what is there."""

import functools
import json
import re
from typing import Any, NamedTuple, Optional, Tuple

Words = Tuple[int, int, int]  # of a field: those of lines 16, 17 and 18, each 0 if there is none

_WHITE = r"[ \t\n\r]*"
_NAME = re.compile(r'{w}("[^"\\]*(?:\\.[^"\\]*)*"){w}:{w}'.format(w=_WHITE))
_NEXT_NAME = re.compile(_WHITE + "," + _NAME.pattern)
_FIRST = re.compile(r'\{{({w})"[^"\\]*(?:\\.[^"\\]*)*"({w}:({w}))'.format(w=_WHITE))
_COLON = re.compile("{w}:({w})".format(w=_WHITE))
_THREE = re.compile(r"\[({w}){i}({w},{w}){i}({w},{w}){i}({w})\]".format(w=_WHITE, i=r'[^ \t\n\r",:{}\[\]]+'))
_DECODER = json.JSONDecoder()


BELIEVED, AS_READ = "believed", "as read"  # which words a copy has; it says so in this member, beside its fields
MEMBER = "ldvbiWords"


class Place(NamedTuple):
    """A part of a text, from its begin to its end, and what is there in the copy, with `%d` for each word."""
    begin: int
    end: int
    form: str


def place_of_words(text: str, field: Any, number: int) -> Place:
    """The place of the words in the text of the field with this number, whose value is known. If something is wrong
    with the field, a ValueError says what."""
    if not isinstance(field, dict):
        raise ValueError("it is no object")
    if field.get("seqNo", number) != number:
        raise ValueError("its seqNo is %s" % json.dumps(field["seqNo"]))
    if "vbi" not in field:
        _, colon, gap = _style_of(text, 0)
        return _added(text, 0, len(text), '"vbi"%s{"vbiData"%s%s}' % (colon, colon, _list_with(gap)))
    if not isinstance(field["vbi"], dict):
        raise ValueError("its vbi is no object")
    begin, end = value_place(text, 0, len(text), "vbi")
    if "vbiData" not in field["vbi"]:
        _, colon, gap = _style_of(text, begin if field["vbi"] else 0)
        return _added(text, begin, end, '"vbiData"%s%s' % (colon, _list_with(gap)))
    data_begin, data_end = value_place(text, begin, end, "vbiData")
    return Place(data_begin, data_end, _list_like(text[data_begin:data_end]) or _list_with(_style_of(text, begin)[2]))


def place_of_member(text: str) -> Place:
    """The place for that member, before all others of a document that begins with this text, with `%s` for its
    value."""
    begin = text.index("{")
    first = _FIRST.match(text, begin)
    comma, colon, _ = _style_of(text, begin)
    place = begin + 1 + (len(first[1]) if first else 0)
    return Place(place, place, '"%s"%s"%%s"%s' % (MEMBER, colon, comma if first else ""))


def _style_of(text: str, begin: int) -> Tuple[str, str, str]:
    """How the members of the object that begins there are written, by its first one: the comma with the white space
    after it, the colon with that around it, and that after the colon alone."""
    first = _FIRST.match(text, begin)
    if first is None:
        return ",", ":", ""  # there is none
    before, colon, gap = first.groups()
    return "," + (before if "\n" in before else gap), colon, gap


def _added(text: str, begin: int, end: int, member: str) -> Place:
    """The place of one more member in the object that stands there, after all others."""
    place = begin + len(text[begin:end - 1].rstrip(" \t\n\r"))
    comma = "" if text[place - 1] == "{" else _style_of(text, begin)[0]
    return Place(place, place, comma + member)


def _list_with(gap: str) -> str:
    """The form of a list with this white space after each comma."""
    return "[%%d,%s%%d,%s%%d]" % (gap, gap)


@functools.lru_cache(maxsize=64)
def _list_like(old: str) -> Optional[str]:
    """The form of a list with the white space of an old one, if that has three items."""
    three = _THREE.fullmatch(old)
    return "[%s%%d%s%%d%s%%d%s]" % three.groups() if three else None


def value_place(text: str, begin: int, end: int, name: str) -> Tuple[int, int]:
    """Where the value of the member with this name begins and ends, which the object that stands there has."""
    quoted = '"%s"' % name
    if "\\" not in text and text.count(quoted, begin, end) == 1:
        # nothing else can be the name, or have it written in another way
        colon = _COLON.match(text, text.index(quoted, begin, end) + len(quoted))
        assert colon is not None
        return colon.end(), _DECODER.raw_decode(text, colon.end())[1]
    found = []
    member = _NAME.match(text, begin + 1)
    while member:
        value_end = _DECODER.raw_decode(text, member.end())[1]
        if json.loads(member[1]) == name:
            found.append((member.end(), value_end))
        member = _NEXT_NAME.match(text, value_end)
    place, *others = found
    if others:
        raise ValueError("it has more than one %s" % name)
    return place
