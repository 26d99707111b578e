"""What a word says, and the lines on which each kind of code stands."""

import functools
from typing import Any, Dict, Iterable, List, Optional

from .classes import CLASSES, Code, Kind, classify

LINES = (16, 17, 18)

# The names of a kind and of its numbers, as `ldvbi show` has them
KINDS = {one.kind: (one.text, *one.numbers) for one in CLASSES}

# The lines on which IEC 60857 (NTSC) and IEC 60856 (PAL) put each kind. A picture stop and a CLV mark may stand on line
# 18, too: nothing else that is on that line could be meant. `other` is no code, and has no line.
STANDARD_LINES = {one.kind: one.lines for one in CLASSES if one.lines}

CAV_KINDS = tuple(one.kind for one in CLASSES if one.disc == "cav")
CLV_KINDS = tuple(one.kind for one in CLASSES if one.disc == "clv")

# A disc has few different words besides its pictures.
_classify = functools.lru_cache(maxsize=None)(classify)


def code_of(word: int) -> Optional[Code]:
    """The `ldvbi.Code` of a word; None for 0, which stands for a line without a word."""
    return _classify(word) if word else None


def code(word: int) -> Optional[Dict[str, Any]]:
    """What a word means: its kind and the numbers that this kind has, by name. None for 0."""
    return _members_of(_classify(word)) if word else None


def _members_of(code):
    kind, *numbers = code
    name, *members = KINDS[kind]
    return {"kind": name, **dict(zip(members, numbers))}


def codes_by_kind(words: Iterable[int]) -> List[Dict[str, Any]]:
    """The codes of a field's three words that stand on a line of their kind, each with its lines. If a kind comes
    twice, two lines differ."""
    found: Dict[Code, Dict[str, Any]] = {}
    for line, word in zip(LINES, words):
        one = code_of(word)
        if one and line in STANDARD_LINES.get(one.kind, ()):
            found.setdefault(one, dict(_members_of(one), lines=[]))["lines"].append(line)
    return list(found.values())


def name_of(kind: Kind) -> str:
    """The name of a kind, as `ldvbi show` has it."""
    return KINDS[kind][0]


def value_of(code: Code) -> Any:
    """What a code says of its field: a picture number, a chapter, the minutes from the disc's start (None if no clock
    shows them), or a second with its picture. None for kinds without a number that counts."""
    kind, first, second = code
    if kind in (Kind.picture, Kind.chapter):
        return first
    if kind == Kind.time:
        return 60 * first + second if second < 60 else None
    return (first, second) if kind == Kind.clv_picture else None
