"""The second reading: what the judge finds in an output, and whether that is as planned."""

from typing import List

from ..answer.entries import Answer
from ..answer.whole import NO
from ..join.captures import Capture
from .plan import Plan

OF_PADDING = ("padding", "lost", "missing", "jumps")  # reasons that padding brings with it
OF_LATE = ("lost", "missing")  # those that a late begin brings with it


def differences(made: Plan, capture: Capture) -> List[str]:
    """In what a capture, which is the output itself, is otherwise than planned."""
    answer = capture.answer
    found = [] if answer.fields == made.fields else ["%d fields, not %d" % (answer.fields, made.fields)]
    for number, first, _ in answer.showings:
        wanted = made.first_field.get(capture.ordinal(number))
        if wanted is not None and first not in (wanted, wanted + (answer.pace == "both")):
            found.append("%s in field %d, not %d" % (number, first, wanted))
    found += ["%s stands still from field %d on" % (one.number, one.first) for one in answer.stills]
    found += ["%s again in field %d" % (one.first, one.field) for one in answer.repeated]
    found += ["fields %d and %d are swapped" % (one.field, one.field + 1) for one in answer.swapped]
    found += ["another speed in fields %d to %d" % (one.first, one.last) for one in answer.speeds]
    return found + _breaks(made, capture)


def _breaks(made: Plan, capture: Capture) -> List[str]:
    """Where fields don't go on, though no padding is there, and the clock leaves nothing out."""
    explained = {field for one in made.stretches if one.source is None for field in one.outs()}
    left_out, begin = set(made.left_out), min(made.first_field.values())
    for one in capture.breaks:
        if not left_out.isdisjoint(range(capture.ordinal(one.from_), capture.ordinal(one.to))):
            explained.update(range(one.after, one.before))
    spans = {(one.after, one.before) for one in capture.answer.lost if one.before <= made.fields}
    spans.update((one.after, one.before) for one in capture.breaks)
    return ["a break between fields %d and %d" % span for span in sorted(spans)
            if span[0] >= begin and explained.isdisjoint(range(span[0], span[1] + 1))]


def faults_in(made: Plan, answer: Answer) -> List[str]:
    """The reasons for which the output isn't whole by the judge, without those that others bring with them."""
    reasons = [one for one in answer.reasons if one.whole == NO]
    is_late = any(one.why == "begins" for one in reasons) and len(answer.lost) < 2
    brought = OF_PADDING if made.padding() else OF_LATE if is_late else ()
    return [one.text for one in reasons if one.why not in brought]
