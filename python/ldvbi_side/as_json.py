"""The answer as plain data, in the form of share/schema/ldvbi-side.schema.json: the members of each entry under their
names there, in their order, with words and their kinds as texts. Only a page's lists know these names too."""

import functools
import re
from typing import Any, Callable, Dict, List, Optional, Sequence, Tuple

from ldvbi import Kind
from ldvbi.codes import name_of
from ldvbi.collector import paused
from .answer.entries import Answer, Doubt, FewWords

Members = Dict[str, Any]
_KINDS = {kind: name_of(kind) for kind in Kind}


@paused()
def as_json(answer: Answer) -> Members:
    """The plain data of an answer."""
    return {name: _FORMS[name](value) if name in _FORMS else entries(value) if isinstance(value, list) else value
            for name, value in zip(_names_of(Answer), answer)}


def entries(ones: Sequence[Any]) -> List[Members]:
    """Entries of one kind, whose members are plain data."""
    names = _names_of(ones[0].__class__) if ones else ()
    return [dict(zip(names, one)) for one in ones]


def entry(one: Any, **others: Any) -> Members:
    """An entry as plain data. The members that are given replace its own."""
    return {**dict(zip(_names_of(one.__class__), one)), **others}


@functools.lru_cache(maxsize=None)
def _names_of(kind: Any) -> Tuple[str, ...]:
    """What the members of a kind of entry are called: `last_field` is `lastField`, `from_` is `from`."""
    return tuple(re.sub("_([a-z])", lambda found: found[1].upper(), name.removesuffix("_")) for name in kind._fields)


# ---- Members of other forms

def _doubtful(doubtful: List[Doubt]) -> List[Members]:
    """Doubtful words, of which there may be many: between two numbers all of them have the same ones beside them."""
    beside = {one: one and entry(one) for one in {one for doubt in doubtful for one in (doubt.before, doubt.after)}}
    return [{"field": field, "line": line, "word": "%06X" % word, "kind": _KINDS[kind], "pass": of_pass, "why": why,
             "number": number, "before": beside[before], "after": beside[after]}
            for field, line, word, kind, of_pass, why, number, before, after in doubtful]


def _levels(levels: Optional[FewWords]) -> Optional[Members]:
    if levels is None:
        return None
    tried = levels.tried and entry(levels.tried, best=levels.tried.best and entry(levels.tried.best))
    return entry(levels, tried=tried)


_FORMS: Dict[str, Callable[[Any], Any]] = {
    "cutField": lambda cut: cut and {"seqNo": cut.field, "bytes": cut.bytes},
    "showings": lambda ones: list(map(list, ones)),
    "stops": lambda ones: [entry(one, lines=list(one.lines)) for one in ones],
    "unsureStops": lambda ones: [entry(one, lines=list(one.lines)) for one in ones],
    "stray": lambda ones: [entry(one, word="%06X" % one.word, kind=_KINDS[one.kind]) for one in ones],
    "unknown": lambda ones: [entry(one, word="%06X" % one.word) for one in ones],
    "lines": lambda lines: {str(line): entry(rates) for line, rates in lines.items()},
    "numbers": entry, "completed": list, "confirmed": list, "doubtful": _doubtful, "levels": _levels}
