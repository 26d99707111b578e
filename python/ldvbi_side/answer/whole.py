"""Whether a capture is whole: `yes`, `no`, or `can't tell`. The last two have reasons in order of weight: the
library's, and what the answer's other members say beyond gaps."""

import bisect
import itertools
import operator
from collections import Counter, defaultdict
from typing import Iterator, List, Optional, Sequence, Tuple, cast

from ldvbi import JudgedSide, Kind, Reason, State
from ..judge.paces import RATES
from ..texts import counted, counted_by, detour_text, fields_text, lost_fields_text
from .ends import Begin, end_of, ordinal_of
from .entries import Answer, Ground
from .gaps import Between, Gaps, is_outside
from .last import Last

YES, NO, OPEN = "yes", "no", "can't tell"
_OTHER = {"cav": "CLV", "clv": "CAV"}
NEAR = 2  # fields from one code of the other format to the next, if they aren't wrong words by chance
SHARE = 10  # numbers to one that is set aside, at most, if what was read shows whether a side is whole
Found = Iterator[Tuple[str, str]]  # reasons, each by its word and its text


def reasons_of(answer: Answer, gaps: Gaps, begin: Optional[Begin], is_strict: bool,
               unseen: Sequence[Tuple[int, int]] = (), last: Optional[Last] = None) -> List[Ground]:
    """Why a side with this answer and these gaps, which begins so, isn't whole, or why that can't be told, in order of
    weight. `why` is a word for programs, `text` says it, and `whole` is what the reason alone would make of the side.
    Each reason of the library is among them, unless something explains it. Unread numbers whose fields are there are no
    reason unless `is_strict`, and neither is a lack of lead-in. A lack of lead-out is no reason if its end is open, or
    its `last` number is known. `unseen` are long stretches without a number between two that fit, by their first and
    last fields."""
    may_end = answer.open_end or last is not None
    is_ended = may_end or is_strict and not answer.lead_out
    known = (*_lacking(answer), *_disordered(answer, gaps.judged, begin),
             *(_unseen(answer, may_end) if is_strict else ()), *_of_another(answer, gaps))
    open_ = (*_in_gaps(answer, gaps), *_undecided(answer, gaps), *_empty(answer, begin, unseen, last),
             *_apart(answer), *_beyond(answer, last), *_unsure(answer, gaps.judged, is_ended))
    return [Ground(why, whole, text) for whole, found in ((NO, known), (OPEN, open_)) for why, text in found]


def whole_of(reasons: List[Ground]) -> str:
    """Whether a side with these reasons is whole: what is known to be lacking outweighs what isn't known."""
    said = {one.whole for one in reasons}
    return NO if NO in said else OPEN if OPEN in said else YES


def _and_more(ones):
    """How many more of these there are than the first."""
    return " and in %s" % counted(len(ones) - 1, "more place") if len(ones) > 1 else ""


# ---- What is known not to be in the capture, or not as the disc has it

def _lacking(answer: Answer) -> Found:
    """Fields that stand for lost ones, or the numbers that are due in them; lost fields. One field before all others
    may stand for none, and have the first picture begin a frame."""
    fields = {field for one in answer.padding for field in range(one.first, one.last + 1) if one.last > 1}
    if fields:
        numbers = sum(one.field in fields for one in answer.unread)
        yield "padding", "%s %s padding" % (counted(numbers, answer.unit) if numbers else counted(len(fields), "field"),
                                            "is" if (numbers or len(fields)) == 1 else "are")
    if lost_fields_text(answer):
        yield "lost", lost_fields_text(answer) + " lost"


def _disordered(answer: Answer, judged: Optional[JudgedSide], begin: Optional[Begin]) -> Found:
    """Another order than the disc's, or what the player did; lost numbers. A side begins late if fields are lost before
    the first number that is believed: the least one, or one after numbers that the library doesn't believe."""
    jumps = [one.kind for one in answer.breaks if one.kind != "lost"]
    back = jumps.count("back")
    if jumps:
        ahead = len(jumps) - back
        how = ("%d back, %d with fields too many" % (back, ahead) if back and ahead else
               "back" if back else "with fields too many")
        yield "jumps", "%s (%s)" % (counted(len(jumps), "jump"), how)
    left = [one for one in answer.detours if one.kind == "inserted"]  # the player left, and came back to where it was
    if left:
        which = "the first: " if len(left) > 1 else ""
        yield "detours", "%s (%s%s)" % (counted(len(left), "detour"), which, detour_text(answer, left[0]))
    if answer.speeds:
        (first, to, _), *others = answer.speeds
        where = "%d stretches" % len(answer.speeds) if others else "fields %d to %d" % (first, to)
        yield "speed", "played at another speed in " + where
    count = counted_by(answer, "lost")
    if count:
        yield "missing", "%s lost" % counted(count, answer.unit)
    if answer.swapped:
        yield "swapped", "%s of fields swapped" % counted(len(answer.swapped), "pair")
    elif judged and judged.swap is not None:
        yield "swapped", "field %d swapped with one beside it" % (judged.swap + 1)
    if begin and begin.lacks is not None:
        _, least, greatest = answer.numbers
        yield "begins", ("begins at %s, ends at %s" % (least, greatest) if least == begin.lacks else
                         "fields lost before %s %s" % (answer.unit, begin.lacks))


def _unseen(answer: Answer, may_end: bool) -> Found:
    """What a strict judge asks for: each number, lead-in and lead-out."""
    count = counted_by(answer, "unread")
    if count:
        yield "unread", "%s unread" % counted(count, answer.unit)
    for name, is_there in (("lead-in", answer.lead_in), ("lead-out", answer.lead_out or may_end)):
        if not is_there:
            yield name, "no " + name


def _of_another(answer: Answer, gaps: Gaps) -> Found:
    """Two sides in one capture, or two runs of one; codes of the other format; another file than the metadata's."""
    joined = _end_between(answer) or gaps.joins and "another side begins after field %d" % gaps.joins[0].after
    if joined:
        yield "joined", joined
    # a wrong word may look like a code of the other format, but it stands alone
    fields = sorted({one.field for one in answer.stray if one.why == "format"})
    near = {field for pair in zip(fields, fields[1:]) for field in pair if pair[1] - pair[0] <= NEAR}
    if near:
        yield "format", "codes of %s in %s, from field %d on" % (
            _OTHER[answer.format], counted(len(near), "field"), min(near))
    expected = answer.metadata_fields
    if expected is not None and expected > answer.fields:
        yield "metadata", "%s of %d that the metadata has" % (counted(answer.fields, "field"), expected)
    is_over = any(not answer.showings or one.last > answer.showings[-1].last for one in answer.lead_out)
    if answer.cut_field and not is_over:
        yield "cut", "field %d is cut" % answer.cut_field.field


def _end_between(answer):
    """Lead-in after a number, or lead-out before one: the last number may stay beside lead-out."""
    showings = answer.showings
    again = [one.first for one in answer.lead_in if showings and one.first > showings[0].first]
    if again:
        return "lead-in again in field %d (two sides joined)" % again[0]
    runs = [list(ones) for _, ones in itertools.groupby(showings, key=operator.attrgetter("number"))]
    early = [one.first for one in answer.lead_out if runs and one.last < runs[-1][0].last]
    return "lead-out in field %d, and numbers after it (two sides joined)" % early[0] if early else None


# ---- What leaves it open

def _in_gaps(answer: Answer, gaps: Gaps) -> Found:
    """Too few numbers; gaps in which the disc itself may skip; numbers in the place of others."""
    judged, opened = gaps.judged, gaps.open
    if not answer.numbers.count_:
        yield "numbers", "no picture number and no time"
    elif judged and judged.reasons & Reason.no_numbers:
        yield "numbers", "too few numbers to judge by"
    if opened:
        one = opened[0]
        what = "%s may be %s after field %d" % (
            counted(one.fields, "field"), "lost" if one.kind == "lost" else "too many", one.after)
        # the clock may have left out numbers without fields, or have kept those for which fields are too many
        left_out = "no number" if one.kind == "held" else "two numbers" if one.fields == 4 else "a number"
        why = ("fields are swapped there" if is_outside(cast(JudgedSide, judged), one) else
               "the disc's clock left out " + left_out if answer.unit == "time" else
               "the player stood still there" if one.kind == "held" and any(
                   still.first <= one.before and one.after <= still.last for still in answer.stills) else
               "lines 17 and 18 count apart there" if answer.pace != "film" else
               "the film is cut there" if one.fields == 1 else "the disc has video there")
        yield "open", "%s%s, or %s" % (what, _and_more(opened), why)
    replaced = [one for one in answer.detours if one.kind == "replaced"]
    if replaced:
        more = " (and %s)" % counted(len(replaced) - 1, "more place") if len(replaced) > 1 else ""
        yield "replaced", detour_text(answer, replaced[0]) + more


def _undecided(answer: Answer, gaps: Gaps) -> Found:
    """Two fields in a row with the same isFirstField where the numbers go on; numbers that don't count to each other,
    without a gap: a field may be lost, or the film cut; numbers that are undecided elsewhere than in open gaps."""
    again = [one.before for one in answer.lost if one.is_again()]
    if again:
        yield "parity", "a field was shown again, or lost, before field %d%s" % (again[0], _and_more(again))
    if gaps.more is not None:
        judged = cast(JudgedSide, gaps.judged)
        where = "fields %d to %d" % (cast(int, judged.first) + 1, cast(int, judged.last) + 1)
        how = "more" if gaps.more > 0 else "fewer" if gaps.more < 0 else None
        yield "off", "%s are %s %s than their numbers count to" % (
            where, counted(abs(gaps.more), "field"), how) if how else "a field may be lost or too many in " + where
    opened = Between((one.after, one.before) for one in gaps.open)
    count = sum(one.count_ for one in answer.missing
                if one.why == "undecided" and not opened.meet(one.after, one.before))
    if count:
        yield "undecided", "%s undecided" % counted(count, answer.unit)


def _empty(answer: Answer, begin: Optional[Begin], unseen: Sequence[Tuple[int, int]], last: Optional[Last]) -> Found:
    """Long stretches without a number: between two that fit as many fields may be lost there as are too many. One at an
    end of the side may have no field: then the numbers before the next field aren't there, but the clock may leave out
    these. After the disc's last number there are none."""
    if unseen:
        yield "unseen", "no number in %s%s" % (fields_text(*unseen[0]), _and_more(unseen))
    end = None if last and last.is_there else end_of(answer)
    for first, to in filter(None, (begin and begin.unread, end)):
        yield "ends", ("no number in %s" % fields_text(first, to) if first <= to else
                       "numbers before field %d may be lost, or the disc's clock left them out" % first)


def _apart(answer: Answer) -> Found:
    """Two pictures in a row before all that are believed, or after them, each on both lines in pass 1, or two times in
    a row, each with its second. They weigh too little to be believed so far from the others, and are hardly misread:
    fields may be lost between."""
    aside = [one for one in answer.doubtful if one.pass_ == 1 and not (one.before and one.after)]
    lines = Counter((one.field, one.number) for one in aside if one.kind == Kind.picture)
    pictures = sorted((field, number, number) for (field, number), count in lines.items() if count > 1)
    times = sorted((one.field, _count_of(one.number, RATES[answer.system]), one.number)
                   for one in aside if one.kind == Kind.clv_picture and one.number)
    for name, found in ("pictures", pictures), ("times", times):
        for (field, count, number), (other, following, last) in zip(found, found[1:]):
            if following == count + 1 and other - field <= 3:
                yield "ends", "%s %s and %s are in fields %d and %d, and don't go on with the others" % (
                    name, number, last, field, other)
                return


def _count_of(part, rate):
    """The pictures from the start of a minute to this second and picture."""
    second, picture = part.split(".")
    return rate * int(second) + int(picture)


def _beyond(answer: Answer, last: Optional[Last]) -> Found:
    """A number that was given as the last one and isn't: greater ones are there, or it is none of the side's."""
    if last and last.beyond:
        yield "last", "it ends at %s, after %s that was given as the last" % (
            answer.numbers.greatest, answer.given_last)
    elif answer.given_last and not last and answer.showings:
        yield "last", "%s, given as the last, is none of its numbers" % answer.given_last


def _unsure(answer: Answer, judged: Optional[JudgedSide], is_ended: bool) -> Found:
    """No end of a side after the last number: the capture may end before the disc does, unless that `is_ended`. Minutes
    alone, of which none stands between two others: of none the length is known. On film fields that may be swapped.
    Many numbers that were set aside."""
    if answer.showings and not is_ended and not (judged and judged.reasons & Reason.no_numbers) and (
            judged.reasons & Reason.end_unseen if judged else
            not any(one.last > answer.showings[-1].last for one in answer.lead_out + answer.lead_in)):
        yield "lead-out", "no lead-out: the disc may go on after %s %s" % (answer.unit, answer.showings[-1].number)
    if answer.unit == "minute":
        minutes = [ordinal_of(number, RATES[answer.system]) for number, _, _ in answer.showings]
        if not any(after - one == one - before == 1 for before, one, after in zip(minutes, minutes[1:], minutes[2:])):
            yield "minutes", "no minute is between two others"
    pairs = _out_of_order(answer) if answer.pace == "film" else ()
    if pairs:
        first = min(pairs)
        text = "fields %d and %d" % (first, first + 1) if len(pairs) == 1 else "%d pairs of fields" % len(pairs)
        yield "order", text + " may be swapped"
    aside = _set_aside(answer, judged)
    if aside:
        yield "doubtful", "numbers set aside in %d of %s" % (aside[0], counted(aside[1], "field"))


def _set_aside(answer, judged):
    """In how many fields a number was set aside, here or by the library, and how many show one; None if these are more
    than ten to one. Numbers at another speed the library doesn't believe."""
    doubtful = {one.field for one in answer.doubtful if one.kind != Kind.chapter}
    begins = [one.first for one in answer.showings]
    shown = sum([one.last + 1 for one in answer.showings]) - sum(begins)
    for field in doubtful:
        place = bisect.bisect(begins, field)
        shown += place == 0 or answer.showings[place - 1].last < field
    if doubtful and SHARE * len(doubtful) >= shown:
        return len(doubtful), shown
    if answer.speeds or not judged or not judged.reasons & Reason.many_doubtful:
        return None
    states = Counter(number.state for number in judged.numbers)
    return states[State.doubtful], states[State.doubtful] + states[State.believed]


def _out_of_order(answer):
    """On film the first of each two fields of which one has a number one field before or after its place, while those
    around it go on: they are swapped, or the film is cut twice within three pictures. Two pictures of film have five
    fields, so each even number is compared with even ones, and each odd one with odd ones."""
    begins, known = [one.before for one in answer.breaks], {one.field for one in answer.swapped}
    rows = defaultdict(list)
    for number, field, _ in answer.showings:
        rows[bisect.bisect(begins, field), number % 2].append((field, 2 * field - 5 * number))
    return {field - (here == before + 2) for row in rows.values()
            for (_, before), (field, here), (_, after) in zip(row, row[1:], row[2:])
            if before == after and abs(here - before) == 2} - known
