"""Captures that can't be of one disc, and what shows that others are. If they have no number in common, that says
nothing: each may have another part."""

import itertools
from typing import Any, Iterator, List, Optional, Sequence, Set, Tuple

from ..texts import UNITS
from .captures import Capture
from .marks import CHAPTER, STATUS, Marks, Said

LEAST = 10  # numbers beside which two captures say the same, or not, if that is more than a wrong word
USERS = "users' code"
KINDS = CHAPTER, STATUS, USERS  # of codes that may show that two captures are of one disc


def refuse_other_discs(captures: Sequence[Capture]) -> None:
    """Raises a ValueError that names two captures which can't be of one disc, or one that has no numbers."""
    for capture in captures:
        if not capture.places:
            raise ValueError("%s has no numbers to join" % capture.name)
    for one, other in itertools.combinations(_marks_of(captures), 2):
        why = contradiction(one, other)
        if why:
            raise ValueError("%s: two discs?" % why)


def contradiction(one: Marks, other: Marks) -> Optional[str]:
    """Why two captures can't be of one disc, or None. They have different systems or count different numbers; or one
    has film and the other video; or beside most of the numbers that both have, their chapters or programme statuses
    differ."""
    if one.kind() != other.kind():
        return "%s has %s of %s, %s has %s of %s" % (*_kind_of(one), *_kind_of(other))
    found = (_differing(one, other, name) for name in one.said)
    return _film_beside_video(one, other) or next(filter(None, found), None)


def _marks_of(captures: Sequence[Capture]) -> List[Marks]:
    return [capture.marks for capture in captures if capture.marks]


def _kind_of(marks):
    return marks.name, UNITS[marks.unit], marks.system


def _film_beside_video(one, other):
    """That one has film and the other video, if pictures that both have last three fields in the one and two in the
    other. A disc may have film and video, and a capture just one of these."""
    if other.pace == "film":
        one, other = other, one
    if one.pace != "film" or other.pace not in ("video", "both"):
        return None
    longer = set(itertools.chain(*one.lasting)).intersection(itertools.chain(*other.lasting))
    if len(longer) < LEAST:
        return None
    return "%s has pictures of film, %s has pictures of video" % (one.name, other.name)


def _differing(one, other, name):
    """That most numbers of two captures have a code of this kind each, and not the same, if so."""
    common = list(_common(one.said[name], other.said[name]))
    differing = [each for each in common if each[2] != each[3]]
    count, of = (sum(each[1] for each in ones) for ones in (differing, common))
    if count < LEAST or 2 * count <= of:
        return None
    number, _, *values = differing[0]
    return "%s and %s differ in the %s of %d of %d numbers (at %s it is %s and %s)" % (
        one.name, other.name, name, count, of, one.text_of(number), *values)


def _common(said: Sequence[Said], other_said: Sequence[Said]) -> Iterator[Tuple[int, int, Any, Any]]:
    """The numbers beside which both say something, in stretches: the first one, how many, and what each says."""
    begin = 0
    for one in said:
        while begin < len(other_said) and other_said[begin].last < one.first:
            begin += 1
        place = begin
        while place < len(other_said) and other_said[place].first <= one.last:
            other, place = other_said[place], place + 1
            first, last = max(one.first, other.first), min(one.last, other.last)
            yield first, last - first + 1, one.value, other.value


# ---- What shows that captures are of one disc

def shown_by(captures: Sequence[Capture]) -> List[str]:
    """The kinds of codes which show that captures are of one disc. There are none if they tie some capture to no other,
    or tie some captures only to each other."""
    return shown_by_marks(_marks_of(captures))


def shown_by_marks(captures: Sequence[Marks]) -> List[str]:
    """The same by what they may show of their disc."""
    found: Set[str] = set()
    tied, left = list(captures[:1]), list(captures[1:])
    for capture in tied:  # which grows meanwhile
        for other in list(left):
            kinds = kinds_alike(capture, other)
            found |= kinds
            if kinds:
                left.remove(other)
                tied.append(other)
    return [] if left else [kind for kind in KINDS if kind in found]


def kinds_alike(one: Marks, other: Marks) -> Set[str]:
    """The kinds of codes of which two captures have the same: the chapters of so many numbers that a chapter begins at
    the same number in both, the programme status of as many, or a users' code."""
    found = {name for name in (CHAPTER, STATUS) if _is_alike(one.said[name], other.said[name], 1 + (name == CHAPTER))}
    return found | {USERS} if set(one.users) & set(other.users) else found


def _is_alike(said, other_said, least):
    """Whether two captures say the same beside most numbers, and so many values at least."""
    alike, differing, values = 0, 0, set()
    for _, count, value, other_value in _common(said, other_said):
        if value == other_value:
            alike += count
            values.add(value)
        else:
            differing += count
    return alike >= LEAST > differing and len(values) >= least
