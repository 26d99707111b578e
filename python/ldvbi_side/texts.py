"""What the reasons of an answer, the summary and a page say of a side in the same words."""

from typing import Any, Dict, Optional

from .answer.entries import Answer, Lost
from .judge.detours import Detour

UNITS: Dict[Optional[str], str] = {"picture": "pictures", "time": "times", "minute": "minutes"}


def counted(count: int, name: Optional[str]) -> str:
    """A count with its name, in the plural unless it is 1."""
    return "%d %s%s" % (count, name, "" if count == 1 else "s")


def span(first: Any, last: Any) -> str:
    """Two numbers as text, or one if they are the same."""
    return str(first) if first == last else "%s to %s" % (first, last)


def fields_text(first: int, last: int) -> str:
    """The fields from the first to the last, or the one that both are."""
    return ("field " if first == last else "fields ") + span(first, last)


def counted_by(answer: Answer, why: str) -> int:
    """How many of the numbers that no field shows are `lost`, `unread` or `undecided`."""
    return sum(one.count_ for one in answer.missing if one.why == why)


def lost_text(one: Lost) -> str:
    """How many fields are lost at a place."""
    return "1 or more" if one.fields is None else "%s%d" % ("at least " * one.or_more, one.fields)


def lost_fields_text(answer: Answer) -> str:
    """How many fields are lost for sure; empty if none is."""
    lost = [one for one in answer.lost if one.by != "undecided"]
    least = "at least " * any(one.or_more for one in lost)
    more = " or more" if any(one.fields is None for one in lost) else ""
    return least + counted(sum(one.fields or 1 for one in lost), "field") + more if lost else ""


def detour_text(answer: Answer, one: Detour) -> str:
    """What the fields of a detour show."""
    text = "fields %d to %d show %s %s to %s" % (one.first, one.last, UNITS[answer.unit], one.from_, one.to)
    return text + ", misread or played in the place of others" * (one.kind == "replaced")
