"""One capture: where it has each of its numbers, how well that is read there, and what else its fields say."""

import bisect
import itertools
from typing import Any, Dict, Iterable, Iterator, List, NamedTuple, Optional, Sequence, Set, Tuple

from ldvbi import Clock, Kind, Stream
from ldvbi.codes import LINES, code_of
from ldvbi.collector import paused
from ldvbi.readings import Levels
from ..answer.ends import Begin, fields_after, fields_there, ordinal_of
from ..answer.entries import Answer
from ..judge.paces import MINUTE_FIELDS, RATES, Unit
from ..judge.places import Break
from ..side import Side
from .marks import CHAPTER, STATUS, Marks, ranges_of, said_beside

NUMBERS = (Kind.picture, Kind.time, Kind.clv_picture)
OF_TWO = "video", "film"  # the paces at which a picture has two fields at least, of which one has its number
DUE = "unread"  # why a number is missing that is due in a field
READ, NEAR, TOGETHER, NEIGHBOURS = "read", "near", "together", "neighbours"


class Place(NamedTuple):
    """Where a capture has a number: the first field that shows it, or in which it is due, and its last field. `how` is
    as the map of a side has it. `is_whole` is false if a field of its picture may be lost, or be another's: right
    before a break, or within a still. `lines` is the count of lines of the first field on which the number was read; it
    is 0 if the number is the nearest word of these lines, and -1 if it is only due. `sure` is the count of those of
    pass 1."""
    number: int
    field: int
    last: int
    how: str
    is_whole: bool
    lines: int
    sure: int


class Facts(NamedTuple):
    """What is known of each field of a capture beside its numbers: whether it is the first one of its frame, its place
    in the colour's sequence (from 1; 0 if that field has none), how many samples its dropouts have, and whether it is
    padding. Each is None if that isn't known; `pad` is None if no field is padding, too."""
    first: Optional[Sequence[bool]] = None
    phase: Optional[Sequence[int]] = None
    damage: Optional[Sequence[int]] = None
    pad: Optional[Sequence[bool]] = None


class Capture(NamedTuple):
    """A capture under its name. `breaks` are where its numbers and fields don't go on together; there are more of them
    than the library reports. `places` are in the order of its fields; `first` has the first place of each number.
    `marks` are what may show of which disc it is; None if it has no numbers. `samples` is the stream from which words
    were recovered; None if it isn't at hand. `clock` is the clock of the disc, as far as the library found it. `facts`
    is what is known of its fields. `begin` says how it begins if its first number isn't the disc's, and `levels` how
    its samples were read; each is None if there is nothing to say."""
    name: str
    answer: Answer
    breaks: List[Break]
    places: List[Place]
    first: Dict[int, Place]
    marks: Optional[Marks]
    samples: Optional[Stream]
    clock: Clock
    facts: Facts
    begin: Optional[Begin]
    levels: Optional[Levels]

    def kind(self) -> Tuple[Optional[str], str]:
        """What its numbers count, and its system."""
        return self.answer.unit, self.answer.system

    def unit(self) -> Unit:
        return Unit(self.answer.unit, RATES[self.answer.system])

    def ordinal(self, number: Any) -> int:
        """A number of the answer as a count."""
        return ordinal_of(number, RATES[self.answer.system])

    def numbers_of(self, stretches: Iterable[Tuple[Any, Any]]) -> Set[int]:
        """The numbers of some stretches, whose first and last numbers are as the answer has them."""
        return {number for first, last in stretches for number in range(self.ordinal(first), self.ordinal(last) + 1)}

    def may_have(self) -> Iterator[int]:
        """The numbers that may stand before its first field with one, or after its last."""
        answer, (first, last) = self.answer, (self.places[0], self.places[-1])
        each = MINUTE_FIELDS[answer.system][0] if answer.unit == "minute" else 2
        before, after = fields_there(answer, first.field), fields_after(answer, last.last)
        yield from range(first.number - (before + each - 1) // each, first.number)
        yield from range(last.number + 1, last.number + 1 + (after + each - 1) // each)


@paused()
def capture_of(side: Side, name: str) -> Capture:
    """The capture that a side is."""
    places = list(_places(side))
    first: Dict[int, Place] = {}
    for place in places:
        first.setdefault(place.number, place)
    answer, breaks, clock, begin = side.analysis
    return Capture(name, answer, breaks, places, first, marks_of(side, name), side.samples, clock,
                   Facts(side.first, pad=side.pad), begin, side.levels)


# ---- Places

class _Shown(NamedTuple):
    """A number as the answer has it, with the first and the last field that show it."""
    field: int
    last: int
    number: int
    how: str


def _shown(answer):
    """What a side shows, and what is due in it, by field."""
    rate, confirmed = RATES[answer.system], frozenset(answer.confirmed)
    found = [_Shown(field, last, ordinal_of(number, rate), NEAR if field in confirmed else READ)
             for number, field, last in answer.showings]
    found += [_Shown(one.field, one.field, ordinal_of(one.number, rate), NEIGHBOURS) for one in answer.unread]
    return sorted(found)


def _places(side):
    doubtful, is_of_two = aside_in(side.analysis.answer), side.analysis.answer.pace in OF_TWO
    for one, last, is_torn in _spans(side):
        is_whole = not is_torn and (last > one.field or not is_of_two)
        lines, sure = {NEAR: (0, 0), NEIGHBOURS: (-1, 0)}.get(one.how) or _read_on(side, one.field, doubtful)
        yield Place(one.number, one.field, last, one.how, is_whole, lines, sure)


def aside_in(answer: Answer) -> Set[Tuple[int, int]]:
    """The fields and lines whose word is set aside: it is doubtful or stray, or a stop that isn't sure."""
    return {one[:2] for one in answer.doubtful} | {one[:2] for one in answer.stray} | {
        (one.field, line) for one in answer.unsure_stops for line in one.lines}


def _spans(side):
    """What a side shows, by field, each with its last field, and whether a field of its picture may be lost, or be
    another's."""
    answer, breaks = side.analysis[:2]
    spans = [(one.after, one.before) for one in answer.lost] + [(one.after, one.before) for one in breaks]
    before_break = {field for first, last in spans for field in range(first, last)}
    shown = _shown(answer)
    for one, after in itertools.zip_longest(shown, itertools.islice(shown, 1, None)):
        is_torn = one.field in before_break or (
            answer.pace in OF_TWO and after is not None and after.number == one.number)
        yield one, _last_of(answer, one, after, is_torn), is_torn


def _read_on(side, field, doubtful):
    """On how many lines of a field its number was read, and on how many of these in pass 1."""
    passes = [reading.pass_ for line, reading in zip(LINES, side.readings[field - 1])
              if reading.word and code_of(reading.word).kind in NUMBERS and (field, line) not in doubtful]
    return len(passes), passes.count(1)


def _last_of(answer, one, after, is_torn):
    """The last field of a number, by the one that comes after it, if one does. A picture has two fields, or three on
    film if the next number says so and there is no break. If both fields have the number, it is the last one that
    shows it, or the one before the next number, which may be read in its second field alone."""
    pace = answer.pace
    if pace == "minute":
        return after.field - 1 if after and after.number == one.number + 1 else one.last
    if after and after.field - one.field <= (3 if pace in ("film", "both") and not is_torn else 2):
        return after.field - 1
    return one.last if pace == "both" else min(one.field + 1, answer.fields)


# ---- What may show of which disc it is

def marks_of(side: Side, name: str) -> Optional[Marks]:
    """What a side may show of its disc; None if it has no numbers."""
    answer = side.analysis.answer
    first: Dict[int, Tuple[int, int]] = {}
    for one, last, _ in _spans(side):
        first.setdefault(one.number, (one.field, last))
    if not first:
        return None
    each, places = 3 if answer.pace == "film" else 2, sorted(first.items())
    lasting = (number for (number, (field, _)), (after, (end, _)) in zip(places, itertools.islice(places, 1, None))
               if (after, end) == (number + 1, field + each))
    return Marks(name, answer.system, answer.unit, answer.pace, {
        CHAPTER: said_beside(_chapters(answer, places)),
        STATUS: said_beside(_status(side.readings.words_on(LINES[0]), places))},
        ranges_of(lasting), sorted((one.digit, one.digits) for one in answer.users), *_extent(answer))


def _chapters(answer, places):
    """The chapter that each number is in, if its picture has one. Of each number the first and the last field are
    given."""
    stretches = answer.chapters
    begins = [one.field for one in stretches]
    for number, (field, last) in places:
        at = bisect.bisect(begins, last) - 1
        if at >= 0 and field <= stretches[at].last:
            yield number, stretches[at].chapter


def _status(words, places):
    """The programme status, as six digits, that line 16, of which all words are given, has in the fields of each
    number."""
    codes = {word: code_of(word) for word in set(words)}
    texts = {word: "%06X" % word for word, code in codes.items() if code and code.kind in (Kind.cx_on, Kind.cx_off)}
    for number, (field, last) in places:
        found = next((texts[word] for word in reversed(words[field - 1:last]) if word in texts), None)
        if found:
            yield number, found


def _extent(answer):
    """The numbers of which one comes first after the lead-in, or last before the lead-out; None if it isn't shown."""
    rate, each = RATES[answer.system], MINUTE_FIELDS[answer.system][0] if answer.unit == "minute" else 2
    (first, field, _), (last, _, end) = answer.showings[0], answer.showings[-1]
    first, last = ordinal_of(first, rate), ordinal_of(last, rate)
    before, after = fields_there(answer, field), fields_after(answer, end)
    # fields count from the lead-in on, and up to the lead-out, if there is one
    return ((first - before // each, first) if before < field - 1 else None,
            (last, last + after // each) if after < answer.fields - end else None)
