"""What a disc has besides numbers: chapters, picture stops, lead-in and lead-out, programme status, users' codes."""

import bisect
from typing import List, Tuple

from ldvbi import Kind, State, judge_chapters, judge_stops
from ..judge.believed import Numbers
from ..judge.chain import chosen, stretches_of, sure_in
from ..judge.paces import ChapterPace
from ..judge.places import Places
from ..judge.readings import Codes, Fields, Stray
from .doubts import aside_of
from .entries import Chapter, Conflict, Doubt, Status, Stop, Stretch, Users, frame_of

LEAST_SHARE = 200  # fields to a chapter code at most: of a disc with chapters each picture has one
APART = 100  # fields without the code between two stretches of lead-in or lead-out: a scratch on a disc is shorter
FEW = 2  # fields with a number or a chapter that may be read wrongly inside a stretch
_OTHERS = (Kind.picture, Kind.clv_picture, Kind.time, Kind.chapter)


# ---- Chapters

def chapters_of(codes: Codes, places: Places, begin: int) -> Tuple[List[Chapter], List[Doubt], List[Conflict]]:
    """The stretches of chapters, the chapters that aren't believed, and the fields whose lines differ. `begin` is the
    first field that begins a frame."""
    # a field between the two numbers of a break may belong to either side
    breaks = [field for one in places.breaks for field in (one.after + 1, one.before)]
    breaks += [field for before, after in places.joins for field in (before.field + 1, after.field)]
    # backwards there is one at each end: of a chapter there one picture may be shown
    breaks += [field for one in places.numbers.speeds if one.line.step < 0
               for field in (one.first + 1, one.first + 2, one.last, one.last + 2)]
    breaks.sort()
    found = codes.kinds[Kind.chapter]
    # at each any chapter may follow, so the breaks up to its field are part of a reading's number
    sure = _in_order({field: ChapterPace.BREAK * bisect.bisect(breaks, field) + chapter
                      for field, chapter in sure_in(judge_chapters(codes.fields.packed)).items()})
    inside = _inside(found, sure)
    others = codes.readings({field: values for field, values in found.items() if field not in inside})
    readings = [one._replace(number=ChapterPace.BREAK * bisect.bisect(breaks, one.field) + one.number)
                for one in others]
    believed = chosen(readings, ChapterPace(), sure)
    if LEAST_SHARE * (len(believed) + len(inside)) < len(codes.fields.words):
        believed, readings = [], codes.readings(found)
    chapters = [one._replace(number=one.number % ChapterPace.BREAK) for one in believed]
    readings = [one._replace(number=one.number % ChapterPace.BREAK) for one in readings]
    aside = aside_of(codes, Kind.chapter, readings, {one.field: one.number for one in chapters},
                     lambda field, is_conflict: ("chapter", None, None))
    return (_chapters(chapters, places, begin), *aside)


def _in_order(sure):
    """These chapters by field, without those that stand between two others of which they aren't in order: what is
    misread for the next chapter just before it is believed by the library."""
    numbers = list(sure.values())
    late = {field for field, before, one, after in zip(list(sure)[1:], numbers, numbers[1:], numbers[2:])
            if not before <= one <= after and before <= after}
    return {field: number for field, number in sure.items() if field not in late}


def _inside(found, sure):
    """The fields whose chapter is sure, as the same one is before and after them: of most chapters all but two."""
    numbers = list(map(sure.get, found))
    return {field for field, before, one, after in zip(list(found)[1:], numbers, numbers[1:], numbers[2:])
            if before == one == after is not None and len(found[field]) == 1}


def _chapters(believed, places, begin):
    chapters = []
    for field, number, *_ in believed:
        if chapters and chapters[-1].chapter == number:
            chapters[-1] = chapters[-1]._replace(last=field)
        else:
            after = chapters[-1].last if chapters else None
            chapters.append(Chapter(number, field, field, after, places.number_at(field), frame_of(field, begin)))
    return chapters


# ---- Lead-in and lead-out

def padding_of(fields: Fields) -> List[Stretch]:
    """The stretches of fields that are padding, by the metadata."""
    padding = [field for field, is_pad in enumerate((fields.pad or ())[:len(fields.words)], 1) if is_pad]
    return [Stretch(first, end - 1, end - first) for first, end in stretches_of(padding)]


def ends_of(codes: Codes, kind: Kind, numbers: Numbers) -> Tuple[List[Stretch], List[Stray]]:
    """The stretches of fields with a code of lead-in or lead-out, and the lines on which that code is stray. A stretch
    ends before a believed number, before more than `FEW` fields with another code, or before `APART` fields without its
    own. Such a code is stray in a field with a number, or between two numbers that fit each other. Two minutes that fit
    leave room for a lead-in: between them a single field with the code is stray."""
    others = sorted(set().union(*(codes.kinds[one] for one in _OTHERS)))
    found: List[Stretch] = []
    stray: List[int] = []
    for field in sorted(codes.kinds[kind]):
        last = found[-1].last if found else -APART
        between = bisect.bisect_left(others, field) - bisect.bisect(others, last)
        if field in numbers.taken or numbers.unit.name != "minute" and numbers.fit(numbers.around(field)):
            stray.append(field)
        elif field - last <= APART and between <= FEW and bisect.bisect(numbers.fields, last) == (
                bisect.bisect(numbers.fields, field)):
            found[-1] = Stretch(found[-1].first, field, found[-1].count_ + 1)
        else:
            found.append(Stretch(field, field, 1))
    single = {one.first for one in found if one.count_ == 1 and numbers.fit(numbers.around(one.first))}
    return [one for one in found if one.first not in single], codes.strays(kind, [*stray, *single], "place")


# ---- Stops and other codes

def stops_of(codes: Codes, places: Places, begin: int) -> Tuple[List[Stop], List[Stop], List[Stray]]:
    """The fields with a picture stop that the library believes, or of which one worn line has one that is far enough
    ahead, each with its picture; those of which it isn't; and the lines of others, as stray ones. `begin` is the first
    field that begins a frame."""
    stops = codes.kinds[Kind.picture_stop]
    states = judge_stops(codes.fields.packed)
    believed, worn = ({field for field in stops if states[field - 1] == state}
                      for state in (State.believed, State.doubtful))
    lines = {field: sum(stops[field].values(), ()) for field in sorted(stops)}
    is_ahead = codes.fields.is_ahead
    ahead = {field for field in worn if is_ahead and is_ahead(field, min(lines[field]))}
    found, unsure = ([Stop(field, frame_of(field, begin), places.number_at(field), ones)
                      for field, ones in lines.items() if field in one] for one in (believed | ahead, worn - ahead))
    return found, unsure, codes.strays(Kind.picture_stop, stops.keys() - believed - worn, "unsure")


def status_of(codes: Codes) -> List[Status]:
    """The different programme status codes: whether CX is on, and the three digits after that as they are."""
    return [Status(word >> 12 == 0x8DC, "%03X" % (word & 0xFFF), *fields)
            for word, *fields in codes.words_of((Kind.cx_on, Kind.cx_off))]


def users_of(codes: Codes) -> List[Users]:
    """The different users' codes."""
    return [Users(word >> 16 & 7, "%03X" % (word & 0xFFF), *fields)
            for word, *fields in codes.words_of((Kind.users,))]
