"""The classes of code words (IEC 60857 and IEC 60856) by their hexadecimal digits, as docs/FORMATS.md has them. No
library is needed here: the tests compare it with the library's ldvbi_classify, by digits at the edges of each class."""

import enum
import operator
import re
import struct
from typing import Collection, Dict, NamedTuple, SupportsIndex, Tuple


class Kind(enum.IntEnum):
    """The kind of a word."""
    # from texts/classes.txt: kinds
    other = 0
    picture = 1
    chapter = 2
    time = 3
    clv_picture = 4
    cx_on = 5
    cx_off = 6
    users = 7
    lead_in = 8
    lead_out = 9
    picture_stop = 10
    clv_mark = 11
    # to here


class Format(enum.IntEnum):
    """The discs whose codes a field has."""
    neither = 0
    cav = 1
    clv = 2
    both = 3


class Code(NamedTuple):
    """A word's kind and its numbers, in the order of ldvbi.h. A number that the kind doesn't have is 0."""
    kind: Kind
    first: int
    second: int


class Class(NamedTuple):
    """A class of words: its kind and text, the names of its numbers, the lines on which it counts, and `cav` or `clv`
    if only these discs have it."""
    kind: Kind
    text: str
    numbers: Tuple[str, ...]
    lines: Tuple[int, ...]
    disc: str


# from texts/classes.txt: classes
CLASSES = (
    Class(Kind.lead_in, "lead-in", (), (17, 18), ""),
    Class(Kind.lead_out, "lead-out", (), (17, 18), ""),
    Class(Kind.picture, "picture", ("number",), (17, 18), "cav"),
    Class(Kind.picture_stop, "picture stop", (), (16, 17, 18), "cav"),
    Class(Kind.chapter, "chapter", ("number",), (17, 18), ""),
    Class(Kind.clv_mark, "clv", (), (17, 18), "clv"),
    Class(Kind.time, "time", ("hours", "minutes"), (17, 18), "clv"),
    Class(Kind.clv_picture, "clv picture", ("seconds", "picture"), (16,), "clv"),
    Class(Kind.cx_on, "cx on", ("number",), (16,), ""),
    Class(Kind.cx_off, "cx off", ("number",), (16,), ""),
    Class(Kind.users, "users", ("digit", "number"), (16,), ""),
    Class(Kind.other, "other", (), (), ""),
)
# to here

_CAV_KINDS = frozenset(one.kind for one in CLASSES if one.disc == "cav")
_CLV_KINDS = frozenset(one.kind for one in CLASSES if one.disc == "clv")
_OTHER = Code(Kind.other, 0, 0)
_USUAL_PICTURE = re.compile("00f([0-7][0-9]{4})|.{8}")  # of eight digits each


def whole_number(name: str, value: SupportsIndex) -> int:
    """The value as an int, if it is a whole number of any type."""
    try:
        return operator.index(value)
    except TypeError:
        raise ValueError("%s is not a whole number" % name) from None


def classify(word: SupportsIndex) -> Code:
    """What a word says."""
    word = whole_number("word", word)
    if not 0x800000 <= word <= 0xFFFFFF:
        raise ValueError("number is no code word")
    return _code_of(word, word >> 20, word >> 16 & 15, word >> 12 & 15, word >> 8 & 15, word >> 4 & 15, word & 15)


def _code_of(word, first, second, third, fourth, fifth, sixth):
    """The code of a word with these six digits."""
    # from texts/classes.txt: code
    if word == 0x88FFFF:
        return Code(Kind.lead_in, 0, 0)
    if word == 0x80EEEE:
        return Code(Kind.lead_out, 0, 0)
    if first == 15 and third < 10 and fourth < 10 and fifth < 10 and sixth < 10:
        return Code(Kind.picture, 10000 * (second % 8) + 1000 * third + 100 * fourth + 10 * fifth + sixth, 0)
    if word == 0x82CFFF:
        return Code(Kind.picture_stop, 0, 0)
    if first == 8 and third < 10 and fourth == 13 and fifth == 13 and sixth == 13:
        return Code(Kind.chapter, 10 * (second % 8) + third, 0)
    if word == 0x87FFFF:
        return Code(Kind.clv_mark, 0, 0)
    if first == 15 and second < 10 and third == 13 and fourth == 13 and fifth < 10 and sixth < 10:
        return Code(Kind.time, second, 10 * fifth + sixth)
    if first == 8 and second >= 10 and third == 14 and fourth < 10 and fifth < 10 and sixth < 10:
        return Code(Kind.clv_picture, 10 * (second % 10) + fourth, 10 * fifth + sixth)
    if first == 8 and second == 13 and third == 12:
        return Code(Kind.cx_on, 256 * fourth + 16 * fifth + sixth, 0)
    if first == 8 and second == 11 and third == 10:
        return Code(Kind.cx_off, 256 * fourth + 16 * fifth + sixth, 0)
    if first == 8 and second < 8 and third == 13:
        return Code(Kind.users, second, 256 * fourth + 16 * fifth + sixth)
    # to here
    return _OTHER


def usual_pictures(words: Collection[int]) -> Dict[int, int]:
    """The picture numbers of those of these words that begin with F and a digit below 8, and go on with four decimal
    digits, as most pictures do. `classify` says the same of each word, but takes ten times as long."""
    digits = struct.pack(">%dI" % len(words), *words).hex()
    return {word: int(number) for word, number in zip(words, _USUAL_PICTURE.findall(digits)) if number}


def format_of(first: SupportsIndex, second: SupportsIndex, third: SupportsIndex) -> Format:
    """The format of a field whose lines 16, 17 and 18 have these words. 0 stands for no word."""
    words = [whole_number("word", word) for word in (first, second, third)]
    kinds = {classify(word).kind for word in words if word}
    is_cav, is_clv = bool(kinds & _CAV_KINDS), bool(kinds & _CLV_KINDS)
    return Format(is_cav + 2 * is_clv)
