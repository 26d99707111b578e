"""What the head of a side's page says: what a row of `scan` has of its answer, how it was read, and what may show of
which disc it is."""

import os
from typing import Any, Dict, Optional, Sequence

from ..answer.entries import Answer
from ..as_json import entries, entry
from ..levels import options_of
from ..side import Side
from ..texts import counted, counted_by, lost_fields_text
from .captures import marks_of
from .marks import plain_marks


def head_of_side(side: Side, path: Optional[str] = None, words: Sequence[str] = ()) -> Dict[str, Any]:
    """This part of what is known of a side, as plain data. `path` is its file, None for standard input, and `words` are
    the options with which it was read. A file in which a second side begins shows nothing of one disc."""
    answer = side.analysis.answer
    is_of_two = any(reason.why == "joined" for reason in answer.reasons)
    return said_of(answer, path, words, None if is_of_two else plain_marks(marks_of(side, "")))


def said_of(answer: Answer, path: Optional[str] = None, words: Sequence[str] = (),
            marks: Optional[Dict[str, Any]] = None) -> Dict[str, Any]:
    """The same of an answer alone. `marks` is what may show of which disc it is."""
    tried = answer.levels and answer.levels.tried
    return {"version": answer.version, "whole": answer.whole, "reasons": entries(answer.reasons),
            "system": answer.system, "format": answer.format, "unit": answer.unit, "fields": answer.fields,
            "numbers": entry(answer.numbers), "last": answer.showings[-1].number if answer.showings else None,
            "leadIn": sum(one.count_ for one in answer.lead_in), "leadOut": sum(one.count_ for one in answer.lead_out),
            "lost": _lost_text(answer), "counts": {why: counted_by(answer, why) for why in ("lost", "unread")},
            "try": options_of(tried) if tried and tried.best else None,
            "side": os.path.realpath(path) if path else None, "options": list(words),
            "marks": marks}


def _lost_text(answer):
    """How many numbers and fields are lost for sure."""
    count = counted_by(answer, "lost")
    texts = [counted(count, answer.unit) if count else "", lost_fields_text(answer)]
    return ", ".join(filter(None, texts)) or "none"
