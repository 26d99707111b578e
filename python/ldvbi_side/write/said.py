"""What is said of an output: whether it is whole, and its stretches as a table."""

from typing import Any, Iterator, List, NamedTuple, Optional, Sequence, Tuple

from ..answer.entries import Answer
from ..answer.whole import NO, OPEN, YES
from ..texts import counted
from .again import faults_in
from .plan import Plan
from .ranks import spans_of
from .stretches import Stretch

COLUMNS = ("field", "fields", "frame", "first", "last", "source", "source field", "how")
MOST = 4  # stretches of numbers that a line has


class Outcome(NamedTuple):
    """Whether an output is whole, and the line that says it and why."""
    whole: str
    text: str


def outcome_of(made: Plan, answer: Optional[Answer] = None, otherwise: Sequence[str] = ()) -> Outcome:
    """What an output is by its plan, by the judge's answer for it, and by that in which the second reading isn't as
    planned."""
    known = _of_numbers(made, made.padded, "is padding", "are padding")
    known += _of_numbers(made, made.partial, "lacks fields", "lack fields")
    known += [counted(len(made.seams), "seam")] * bool(made.seams)
    known += ["read otherwise: %d" % len(otherwise)] * bool(otherwise)
    known += faults_in(made, answer) if answer else []
    unsure = _of_numbers(made, made.unsure, "may have another's field", "may have another's field")
    open_ = [one.text for one in answer.reasons if one.whole == OPEN] if answer and not made.padding() else []
    whole = NO if known else OPEN if unsure + open_ else YES
    return Outcome(whole, ": ".join(["whole", whole] + ["; ".join(known + unsure + open_)] * (whole != YES)))


def _of_numbers(made: Plan, numbers: List[int], one: str, several: str) -> List[str]:
    """What is so of these numbers; nothing of none."""
    return [numbers_text(made, numbers, one, several)] if numbers else []


def numbers_text(made: Plan, numbers: List[int], one: str, several: str) -> str:
    """The same as one text, which is empty for none."""
    if not numbers:
        return ""
    text_of, spans = made.count_unit().text_of, spans_of(sorted(set(numbers)))
    shown = ["%s" % text_of(first) if first == last else "%s to %s" % (text_of(first), text_of(last))
             for first, last in spans[:MOST]]
    shown += ["%d more" % (len(spans) - MOST)] * (len(spans) > MOST)
    count = len(set(numbers))
    return "%s %s (%s)" % (counted(count, made.unit), one if count == 1 else several, ", ".join(shown))


def seam_lines(made: Plan) -> Iterator[str]:
    """A line for each seam."""
    for one in made.seams:
        yield "seam after field %d: %s" % (one.after, one.kind)


def rows_of(made: Plan, names: Sequence[str]) -> Iterator[Tuple[Any, ...]]:
    """A row for each stretch; `names` are those of the captures."""
    text_of = made.count_unit().text_of
    for one in made.stretches:
        numbers = ["" if number is None else text_of(number) for number in (one.first, one.last)]
        yield (one.out, one.fields, (one.out + 1) // 2, *numbers, "" if one.source is None else names[one.source],
               one.field or "", one.how)


def written_lines(made: Plan, names: Sequence[str]) -> Iterator[str]:
    """How much was written, and what of each capture."""
    changes = sum(one != other for one, other in _changes(made.stretches))
    count = len(made.stretches)
    yield "written: %s, %d stretch%s, %s" % (counted(made.fields, "field"), count, "es" * (count != 1),
                                             counted(changes, "change"))
    for place, name in enumerate(names):
        ones = [one for one in made.stretches if one.source == place]
        numbers = len({number for one in ones for number in one.numbers()})
        yield "%s: %s, %s" % (name, counted(sum(one.fields for one in ones), "field"), counted(numbers, made.unit))


def _changes(stretches: Sequence[Stretch]) -> List[Tuple[Any, Any]]:
    """The captures of each two stretches that follow each other, but for padding."""
    taken = [one.source for one in stretches if one.source is not None]
    return list(zip(taken, taken[1:]))
