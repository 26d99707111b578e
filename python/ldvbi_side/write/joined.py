"""What several captures of one disc's side have together."""

from typing import Any, Callable, Dict, List, Set

from ldvbi.collector import paused
from ..answer.entries import Extent, frame_of
from ..answer.whole import whole_of
from ..join import entries
from ..join.captures import TOGETHER, Capture
from ..join.disagreements import Part, disagreements_of, disputed_in
from ..join.entries import Alike, Dispute, Held, Joined, Lack, Lacking, Range, Shown, Told
from ..join.lacking import CLOCK, lacking_in, stretches_with
from ..join.others import refuse_other_discs, shown_by
from ..join.piles import read_together
from ..join.standing import How, Standing, standings_of
from ..judge.paces import Unit
from .marks import chapters_at, stops_at
from .plan import Plan, planned, refuse_unwritable
from .said import outcome_of
from .sources import Source
from .taken import Taken, taken_of
from .whole import grounds_of, lasts_of

VERSION = 1  # of the answer's form


@paused()
def join(captures: List[Capture]) -> Joined:
    """What these captures have together, and what `write` makes of them. A ValueError if two of them can't be of one
    disc."""
    refuse_other_discs(captures)
    found = disagreements_of(captures)
    disputed = disputed_in(found)
    made = planned([Source(one, one.facts) for one in captures], found)
    unit = made.count_unit()
    taken, piled = taken_of(made, captures), read_together(captures, disputed)
    standings, left_out = standings_of(captures, disputed), set(made.left_out)
    first, last = taken[0].number, taken[-1].number
    rows = [entries.Source(unit.text_of(one.number), one.capture.name, one.field,
                           frame_of(one.field, one.capture.answer.frame_begin),
                           TOGETHER if one.number in piled else one.how) for one in taken]
    missing = lacking_in(captures, [*(number for number in made.padded if number in range(first, last)),
                                    *_beyond(captures, last)])
    grounds = grounds_of(captures, made, rows, missing)
    return Joined(
        VERSION, whole_of(grounds), grounds, made.system, captures[0].answer.format, unit.name, shown_by(captures),
        [_of_capture(one) for one in captures], Extent(len(taken), unit.text_of(first), unit.text_of(last)),
        missing, _skipped(made, first, last, unit),
        [one for capture in captures for one in _lacks(capture, captures, taken, left_out)],
        _shown(How.ALONE, standings, unit, left_out), _shown(How.BETTER, standings, unit, left_out),
        [Alike(*one[:3]) for one in _standing_so(How.ALIKE, standings, lambda _: None, unit, left_out)],
        [Dispute(one.why, [_told(one.one, unit), _told(one.other, unit)]) for one in found],
        rows, _ranges(made, captures, unit), chapters_at(captures, taken, unit), stops_at(captures, taken, unit),
        _written(made, captures), made.fields)


def _beyond(captures: List[Capture], last: int) -> List[int]:
    """The numbers after this one, up to the one that is given as the disc's last. Those that its clock leaves out
    aren't among them."""
    end = min((one.number for one in lasts_of(captures)), default=last)
    left_out: Set[int] = set().union(*(one.clock.left_out_in(last, end) for one in captures))
    return [number for number in range(last + 1, end + 1) if number not in left_out]


def _written(made: Plan, captures: List[Capture]) -> str:
    """What `write` would say of these captures before it reads its output again."""
    try:
        refuse_unwritable(captures, made)
    except ValueError as error:
        return "refused: %s" % error
    return outcome_of(made).text.split(": ", 1)[1]


def _of_capture(capture):
    answer = capture.answer
    return Held(capture.name, answer.fields, answer.whole, answer.numbers._replace(count_=len(capture.first)))


def _skipped(made: Plan, first: int, last: int, unit: Unit) -> List[Lacking]:
    """The numbers between these that the disc's clock leaves out."""
    numbers = [number for number in made.left_out if number in range(first, last)]
    return [Lacking(*one) for one in stretches_with(numbers, lambda _: CLOCK, unit, set())]


def _lacks(capture: Capture, captures: List[Capture], taken: List[Taken], left_out: Set[int]) -> List[Lack]:
    """The numbers that a capture hasn't, in stretches that the same others have."""
    def having(number: int) -> List[str]:
        return [other.name for other in captures if number in other.first]
    lacking = [one.number for one in taken if one.number not in capture.first and having(one.number)]
    return [Lack(capture.name, *one) for one in stretches_with(lacking, having, capture.unit(), left_out)]


def _shown(how: How, standings: Dict[int, Standing], unit: Unit, left_out: Set[int]) -> List[Shown]:
    """The numbers that stand so in a capture, with that one's name."""
    return [Shown(name, first, last, count) for first, last, count, name in _standing_so(
        how, standings, lambda number: standings[number].capture, unit, left_out)]


def _standing_so(how: How, standings: Dict[int, Standing], said_of: Callable[[int], Any], unit: Unit,
                 left_out: Set[int]) -> List[Any]:
    """The numbers that stand so, in stretches of which the same is said."""
    return stretches_with([number for number in sorted(standings) if standings[number].how == how], said_of, unit,
                          left_out)


def _told(part: Part, unit: Unit) -> Told:
    return Told(part.name, unit.text_of(part.first), unit.text_of(part.last), part.field, part.last_field)


def _ranges(made: Plan, captures: List[Capture], unit: Unit) -> List[Range]:
    """The stretches of the plan that have numbers and aren't padding."""
    left_out = set(made.left_out)
    return [Range(unit.text_of(one.numbers()[0]), unit.text_of(one.numbers()[-1]),
                  sum(number not in left_out for number in one.numbers()),
                  captures[one.source].name, one.taken()[0], one.taken()[-1], one.how)
            for one in made.stretches if one.source is not None]
